/* Uplink DPCCH slots and frames, mapped and read: all formats are compared and timed as slots, two of them as frames. */
#include "draw.h"
#include "row.h"
#include "uplink.h"
#include "yardsticks.h"

enum { LONGEST_TFCI = SLOTS * 2, LONGEST_FBI = SLOTS, LONGEST_RUN = SLOTS * DPCCH_SLOT };

/* Lengths are those of a slot or of a frame. Slot number and commands move on from call to call, as they do in a frame. */
struct dpcch_row {
    size_t format, n_tfci, n_fbi, n_run, n_commands, number[SETS], command[SETS];
    uint8_t commands[SETS][SLOTS + 1], tfci[LONGEST_TFCI + 1], fbi[LONGEST_FBI + 1], run[LONGEST_RUN + 1];
    uint8_t tfci_back[LONGEST_TFCI + 1], fbi_back[LONGEST_FBI + 1], commands_back[SLOTS + 1];
};

WAYS(dpcch_map, dpcch_row, r->format, r->number[i % SETS], r->command[i % SETS], r->tfci, r->n_tfci, r->fbi, r->n_fbi, r->run,
     r->n_run)
WAYS(dpcch_read, dpcch_row, r->format, r->number[0], r->run, r->n_run, r->tfci_back, r->n_tfci, r->fbi_back, r->n_fbi)
WAYS(dpcch_frame_map, dpcch_row, r->format, r->tfci, r->n_tfci, r->fbi, r->n_fbi, r->run, r->n_run, r->commands[i % SETS],
     r->n_commands)
WAYS(dpcch_frame_read, dpcch_row, r->format, r->run, r->n_run, r->tfci_back, r->n_tfci, r->fbi_back, r->n_fbi, r->commands_back,
     r->n_commands)

static void draw_fields(struct dpcch_row *r, size_t format, size_t slots) {
    r->format = format;
    r->n_tfci = slots * DPCCH[format].tfci;
    r->n_fbi = slots * DPCCH[format].fbi;
    r->n_run = slots * DPCCH_SLOT;
    r->n_commands = SLOTS;
    for (size_t i = 0; i < SETS; i++) {
        r->number[i] = (i + draw_below(SLOTS)) % SLOTS;
        r->command[i] = draw_below(2);
        draw_digits(r->commands[i], SLOTS, 2);
    }
    draw_digits(r->tfci, r->n_tfci, 2);
    draw_digits(r->fbi, r->n_fbi, 2);
}

static void damage_numbers(struct dpcch_row *r) {
    r->format = damaged_number(r->format);
    r->number[0] = damaged_number(r->number[0]);
    r->command[0] = damaged_number(r->command[0]);
    r->n_tfci = damaged_length(r->n_tfci);
    r->n_fbi = damaged_length(r->n_fbi);
    r->n_run = damaged_length(r->n_run);
    r->n_commands = damaged_length(r->n_commands);
}

/* Of a slot the commands of a frame are left out of account, and of a frame the slot number: no call looks at both. */
static void draw_map(struct dpcch_row *r, size_t format, size_t slots) {
    draw_fields(r, format, slots);
    damage_digits(r->tfci, r->n_tfci);
    damage_digits(r->fbi, r->n_fbi);
    damage_digits(r->commands[0], SLOTS);
    damage_numbers(r);
}

static void draw_slot_map(void *context, size_t format) {
    draw_map(context, format, 1);
}

static void draw_frame_map(void *context, size_t format) {
    draw_map(context, format, SLOTS);
}

static void draw_slot_read(void *context, size_t format) {
    struct dpcch_row *r = context;
    draw_fields(r, format, 1);
    slt_dpcch_map(format, r->number[0], r->command[0], r->tfci, r->n_tfci, r->fbi, r->n_fbi, r->run, r->n_run);
    damage_digits(r->run, r->n_run);
    damage_numbers(r);
}

static void draw_frame_read(void *context, size_t format) {
    struct dpcch_row *r = context;
    draw_fields(r, format, SLOTS);
    slt_dpcch_frame_map(format, r->tfci, r->n_tfci, r->fbi, r->n_fbi, r->run, r->n_run, r->commands[0], SLOTS);
    damage_digits(r->run, r->n_run);
    damage_numbers(r);
}

static struct dpcch_row context;

#define MAP(FORMAT) \
    {"DPCCH map, format " #FORMAT, &dpcch_map, draw_slot_map, &context, sizeof context, FORMAT, DPCCH_SLOT}
#define READ(FORMAT) \
    {"DPCCH read, format " #FORMAT, &dpcch_read, draw_slot_read, &context, sizeof context, FORMAT, DPCCH_SLOT}
#define FRAME_MAP(FORMAT) \
    {"DPCCH frame map, format " #FORMAT, &dpcch_frame_map, draw_frame_map, &context, sizeof context, FORMAT, SLOTS * DPCCH_SLOT}
#define FRAME_READ(FORMAT) \
    {"DPCCH frame read, format " #FORMAT, &dpcch_frame_read, draw_frame_read, &context, sizeof context, FORMAT, SLOTS * DPCCH_SLOT}

static const struct row ROWS[] = {
    MAP(0), READ(0), MAP(1), READ(1), MAP(2), READ(2), MAP(3), READ(3),
    FRAME_MAP(0), FRAME_READ(0), FRAME_MAP(2), FRAME_READ(2),
};

/* The frames that are compared and not timed. */
static const struct row OTHERS[] = {FRAME_MAP(1), FRAME_READ(1), FRAME_MAP(3), FRAME_READ(3)};

void bench_dpcch(void) {
    for (size_t k = 0; k < sizeof OTHERS / sizeof OTHERS[0]; k++) compare_row(&OTHERS[k]);
    bench_rows(ROWS, sizeof ROWS / sizeof ROWS[0]);
}
