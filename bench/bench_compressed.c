/* Compressed DPCH frames of formats 0B, 12A and 15B, mapped and read. */
#include "compressed.h"
#include "draw.h"
#include "row.h"
#include "yardsticks.h"

enum { LONGEST_DATA = MOST * 1240, LONGEST_TFCI = MOST * 16, LONGEST_FRAME = SLOTS * 1280 };

/* Lengths are those of whole frames. The commands move on from call to call. */
struct compressed_row_of {
    size_t format, kind, first, missing, n_data, n_tfci, n_frame, n_commands;
    uint8_t commands[SETS][SLOTS + 1], data[LONGEST_DATA + 1], tfci[LONGEST_TFCI + 1], frame[LONGEST_FRAME + 1];
    uint8_t data_back[LONGEST_DATA + 1], tfci_back[LONGEST_TFCI + 1], commands_back[SLOTS + 1];
};

WAYS(compressed_map, compressed_row_of, r->format, r->kind, r->first, r->missing, r->data, r->n_data, r->tfci, r->n_tfci, r->frame,
     r->n_frame, r->commands[i % SETS], r->n_commands)
WAYS(compressed_read, compressed_row_of, r->format, r->kind, r->first, r->missing, r->frame, r->n_frame, r->data_back, r->n_data,
     r->tfci_back, r->n_tfci, r->commands_back, r->n_commands)

/* A row is told by its format and kind in one number: 2·format is A, 2·format + 1 is B. */
static const struct format *draw_fields(struct compressed_row_of *r, size_t row) {
    r->format = row / 2;
    r->kind = row % 2 ? KIND_B : KIND_A;
    r->missing = SLOTS - MOST + draw_below(MOST - FEWEST + 1);
    r->first = draw_below(SLOTS - r->missing + 1);
    const struct format *f = compressed_row(r->format, r->kind);
    size_t sent = SLOTS - r->missing;
    r->n_data = sent * data_of(f);
    r->n_tfci = sent * f->tfci;
    r->n_frame = (size_t)SLOTS * f->slot;
    r->n_commands = sent;
    for (size_t i = 0; i < SETS; i++) draw_digits(r->commands[i], sent, 2);
    draw_digits(r->data, r->n_data, 3);
    draw_digits(r->tfci, r->n_tfci, 2);
    memset(r->tfci + draw_below(sent) * f->tfci, DTX, f->tfci);
    return f;
}

static void damage_numbers(struct compressed_row_of *r) {
    r->format = damaged_number(r->format);
    r->kind = damaged_number(r->kind);
    r->first = damaged_number(r->first);
    r->missing = damaged_number(r->missing);
    r->n_data = damaged_length(r->n_data);
    r->n_tfci = damaged_length(r->n_tfci);
    r->n_frame = damaged_length(r->n_frame);
    r->n_commands = damaged_length(r->n_commands);
}

static void draw_map(void *context, size_t row) {
    struct compressed_row_of *r = context;
    draw_fields(r, row);
    damage_digits(r->data, r->n_data);
    damage_digits(r->tfci, r->n_tfci);
    damage_digits(r->commands[0], r->n_commands);
    damage_numbers(r);
}

/* The control fields of one slot, and a missing slot, are damaged apart: data is longer by far. */
static void draw_read(void *context, size_t row) {
    struct compressed_row_of *r = context;
    const struct format *f = draw_fields(r, row);
    slt_compressed_map(r->format, r->kind, r->first, r->missing, r->data, r->n_data, r->tfci, r->n_tfci, r->frame, r->n_frame,
                       r->commands[0], r->n_commands);
    uint8_t *slot = r->frame + draw_below(SLOTS) * f->slot;
    damage_digits(r->frame, r->n_frame);
    damage_digits(r->frame + r->first * f->slot, f->slot);
    damage_digits(slot + f->data1, (size_t)f->tpc + f->tfci);
    damage_digits(slot + f->slot - f->pilot, f->pilot);
    damage_numbers(r);
}

static struct compressed_row_of context;

#define MAP(NAME, ROW, SLOT) \
    {"compressed map, " NAME, &compressed_map, draw_map, &context, sizeof context, ROW, (size_t)SLOTS * SLOT}
#define READ(NAME, ROW, SLOT) \
    {"compressed read, " NAME, &compressed_read, draw_read, &context, sizeof context, ROW, (size_t)SLOTS * SLOT}

static const struct row ROWS[] = {MAP("0B", 1, 20),   READ("0B", 1, 20),     MAP("12A", 24, 80),
                                  READ("12A", 24, 80), MAP("15B", 31, 1280), READ("15B", 31, 1280)};

void bench_compressed(void) {
    bench_rows(ROWS, sizeof ROWS / sizeof ROWS[0]);
}
