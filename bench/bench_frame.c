/* DPCH frames of formats 0, 12 and 16, mapped and read. */
#include "draw.h"
#include "dpch.h"
#include "row.h"
#include "yardsticks.h"

enum { LONGEST_DATA = SLOTS * 1248, LONGEST_TFCI = SLOTS * 8, LONGEST_FRAME = SLOTS * 1280 };

/* Lengths are those of whole frames. The commands move on from call to call. */
struct frame_row {
    size_t format, n_data, n_tfci, n_frame, n_commands;
    uint8_t commands[SETS][SLOTS + 1], data[LONGEST_DATA + 1], tfci[LONGEST_TFCI + 1], frame[LONGEST_FRAME + 1];
    uint8_t data_back[LONGEST_DATA + 1], tfci_back[LONGEST_TFCI + 1], commands_back[SLOTS + 1];
};

WAYS(frame_map, frame_row, r->format, r->data, r->n_data, r->tfci, r->n_tfci, r->frame, r->n_frame, r->commands[i % SETS],
     r->n_commands)
WAYS(frame_read, frame_row, r->format, r->frame, r->n_frame, r->data_back, r->n_data, r->tfci_back, r->n_tfci, r->commands_back,
     r->n_commands)

static void draw_fields(struct frame_row *r, size_t format) {
    const struct format *f = &FORMATS[format];
    r->format = format;
    r->n_data = SLOTS * data_of(f);
    r->n_tfci = (size_t)SLOTS * f->tfci;
    r->n_frame = (size_t)SLOTS * f->slot;
    r->n_commands = SLOTS;
    for (size_t i = 0; i < SETS; i++) draw_digits(r->commands[i], SLOTS, 2);
    draw_digits(r->data, r->n_data, 3);
    draw_digits(r->tfci, r->n_tfci, 2);
    memset(r->tfci + draw_below(SLOTS) * f->tfci, DTX, f->tfci);
}

static void damage_numbers(struct frame_row *r) {
    r->format = damaged_number(r->format);
    r->n_data = damaged_length(r->n_data);
    r->n_tfci = damaged_length(r->n_tfci);
    r->n_frame = damaged_length(r->n_frame);
    r->n_commands = damaged_length(r->n_commands);
}

static void draw_map(void *context, size_t format) {
    struct frame_row *r = context;
    draw_fields(r, format);
    damage_digits(r->data, r->n_data);
    damage_digits(r->tfci, r->n_tfci);
    damage_digits(r->commands[0], SLOTS);
    damage_numbers(r);
}

/* The control fields of one slot are damaged apart: data is longer by far. */
static void draw_read(void *context, size_t format) {
    struct frame_row *r = context;
    const struct format *f = &FORMATS[format];
    draw_fields(r, format);
    slt_frame_map(format, r->data, r->n_data, r->tfci, r->n_tfci, r->frame, r->n_frame, r->commands[0], SLOTS);
    uint8_t *slot = r->frame + draw_below(SLOTS) * f->slot;
    damage_digits(r->frame, r->n_frame);
    damage_digits(slot + f->data1, (size_t)f->tpc + f->tfci);
    damage_digits(slot + f->slot - f->pilot, f->pilot);
    damage_numbers(r);
}

static struct frame_row context;

#define MAP(FORMAT, SLOT) \
    {"frame map, format " #FORMAT, &frame_map, draw_map, &context, sizeof context, FORMAT, (size_t)SLOTS * SLOT}
#define READ(FORMAT, SLOT) \
    {"frame read, format " #FORMAT, &frame_read, draw_read, &context, sizeof context, FORMAT, (size_t)SLOTS * SLOT}

static const struct row ROWS[] = {MAP(0, 10), READ(0, 10), MAP(12, 80), READ(12, 80), MAP(16, 1280), READ(16, 1280)};

void bench_frame(void) {
    bench_rows(ROWS, sizeof ROWS / sizeof ROWS[0]);
}
