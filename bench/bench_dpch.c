/* DPCH slots on one antenna and on two, mapped and read: all formats are compared, and four or five of them timed. */
#include "draw.h"
#include "dpch.h"
#include "row.h"
#include "yardsticks.h"

enum { LONGEST_DATA = 1248, LONGEST_TFCI = 8, LONGEST_SLOT = 1280 };

/* The slot number and the command move on from call to call, as they do in a frame. Calls on one antenna leave the antenna's number and the second run
 * out of account. */
struct slot_row {
    size_t format, antenna, n_data, n_tfci, n_first, n_second, number[SETS], command[SETS];
    uint8_t data[LONGEST_DATA + 1], tfci[LONGEST_TFCI + 1], first[LONGEST_SLOT + 1], second[LONGEST_SLOT + 1];
    uint8_t data_back[LONGEST_DATA + 1], tfci_back[LONGEST_TFCI + 1];
};

WAYS(slot_map, slot_row, r->format, r->number[i % SETS], r->command[i % SETS], r->data, r->n_data, r->tfci, r->n_tfci, r->first,
     r->n_first)
WAYS(slot_read, slot_row, r->format, r->number[0], r->first, r->n_first, r->data_back, r->n_data, r->tfci_back, r->n_tfci)
WAYS(slot_map_antenna, slot_row, r->format, r->number[i % SETS], r->antenna, r->command[i % SETS], r->data, r->n_data, r->tfci,
     r->n_tfci, r->second, r->n_second)
WAYS(slot_read_antennas, slot_row, r->format, r->number[0], r->first, r->n_first, r->second, r->n_second, r->data_back,
     r->n_data, r->tfci_back, r->n_tfci)

static void draw_fields(struct slot_row *r, size_t format) {
    const struct format *f = &FORMATS[format];
    r->format = format;
    r->antenna = 1;
    r->n_data = data_of(f);
    r->n_tfci = f->tfci;
    r->n_first = r->n_second = f->slot;
    for (size_t i = 0; i < SETS; i++) {
        r->number[i] = (i + draw_below(SLOTS)) % SLOTS;
        r->command[i] = draw_below(2);
    }
    draw_digits(r->data, r->n_data, 3);
    draw_digits(r->tfci, r->n_tfci, 2);
    if (draw_below(4) == 0) memset(r->tfci, DTX, r->n_tfci);
}

static void damage_numbers(struct slot_row *r) {
    r->format = damaged_number(r->format);
    r->antenna = damaged_number(r->antenna);
    r->number[0] = damaged_number(r->number[0]);
    r->command[0] = damaged_number(r->command[0]);
    r->n_data = damaged_length(r->n_data);
    r->n_tfci = damaged_length(r->n_tfci);
    r->n_first = damaged_length(r->n_first);
    r->n_second = damaged_length(r->n_second);
}

static void draw_map(void *context, size_t format) {
    struct slot_row *r = context;
    draw_fields(r, format);
    damage_digits(r->data, r->n_data);
    damage_digits(r->tfci, r->n_tfci);
    damage_numbers(r);
}

/* Data is the longest field by far: what stands behind Data1 up to Data2, and the pilot, are damaged apart. */
static void draw_read(void *context, size_t format) {
    struct slot_row *r = context;
    const struct format *f = &FORMATS[format];
    draw_fields(r, format);
    for (size_t antenna = 0; antenna < 2; antenna++) {
        slt_slot_map_antenna(format, r->number[0], antenna, r->command[0], r->data, r->n_data, r->tfci, r->n_tfci,
                             antenna == 0 ? r->first : r->second, f->slot);
    }
    damage_digits(r->first, r->n_first);
    damage_digits(r->second, r->n_second);
    damage_digits(r->first + f->data1, (size_t)f->tpc + f->tfci);
    damage_digits(r->first + r->n_first - f->pilot, f->pilot);
    damage_numbers(r);
}

static struct slot_row context;

#define ROW(WORDS, CALL, DRAW, FORMAT, BYTES) {WORDS ", format " #FORMAT, &CALL, DRAW, &context, sizeof context, FORMAT, BYTES}
#define MAP(FORMAT, SLOT) ROW("slot map", slot_map, draw_map, FORMAT, SLOT)
#define READ(FORMAT, SLOT) ROW("slot read", slot_read, draw_read, FORMAT, SLOT)
#define MAP2(FORMAT, SLOT) ROW("antenna 2 map", slot_map_antenna, draw_map, FORMAT, SLOT)
#define READ2(FORMAT, SLOT) ROW("two antennas read", slot_read_antennas, draw_read, FORMAT, 2 * SLOT)

static const struct row ROWS[] = {
    MAP(0, 10),   READ(0, 10),   MAP(9, 40),    READ(9, 40),    MAP(12, 80),
    READ(12, 80), MAP(14, 320),  READ(14, 320), MAP(16, 1280),  READ(16, 1280),
};

static const struct row ROWS2[] = {
    MAP2(0, 10), READ2(0, 10), MAP2(9, 40), READ2(9, 40), MAP2(12, 80), READ2(12, 80), MAP2(16, 1280), READ2(16, 1280),
};

/* Compares a row for every format. */
static void compare_formats(struct row row, const char *name) {
    row.name = name;
    for (row.choice = 0; row.choice < FORMAT_COUNT; row.choice++) compare_row(&row);
}

void bench_dpch(void) {
    compare_formats(ROWS[0], "slot map, all formats");
    compare_formats(ROWS[1], "slot read, all formats");
    bench_rows(ROWS, sizeof ROWS / sizeof ROWS[0]);
}

void bench_antenna(void) {
    compare_formats(ROWS2[0], "antenna 2 map, all formats");
    compare_formats(ROWS2[1], "two antennas read, all formats");
    bench_rows(ROWS2, sizeof ROWS2 / sizeof ROWS2[0]);
}
