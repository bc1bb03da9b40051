/* Uplink DPDCH slots and frames, mapped and read: all formats are compared, and some of them timed. */
#include "draw.h"
#include "row.h"
#include "uplink.h"
#include "yardsticks.h"

enum { LONGEST = SLOTS * 640 };

/* Lengths are those of a slot or of a frame. */
struct dpdch_row {
    size_t format, n_given, n_to;
    uint8_t given[LONGEST + 1], to[LONGEST + 1];
};

WAYS(dpdch_map, dpdch_row, r->format, r->given, r->n_given, r->to, r->n_to)
WAYS(dpdch_read, dpdch_row, r->format, r->given, r->n_given, r->to, r->n_to)
WAYS(dpdch_frame_map, dpdch_row, r->format, r->given, r->n_given, r->to, r->n_to)
WAYS(dpdch_frame_read, dpdch_row, r->format, r->given, r->n_given, r->to, r->n_to)

static void draw_run(struct dpdch_row *r, size_t format, size_t n) {
    draw_digits(r->given, n, 2);
    damage_digits(r->given, n);
    r->format = damaged_number(format);
    r->n_given = damaged_length(n);
    r->n_to = damaged_length(n);
}

static void draw_slot(void *context, size_t format) {
    draw_run(context, format, DPDCH_SLOT[format]);
}

static void draw_frame(void *context, size_t format) {
    draw_run(context, format, (size_t)SLOTS * DPDCH_SLOT[format]);
}

static struct dpdch_row context;

#define SLOT(WHAT, FORMAT, N) \
    {"DPDCH " #WHAT ", format " #FORMAT, &dpdch_##WHAT, draw_slot, &context, sizeof context, FORMAT, N}
#define FRAME(WHAT, FORMAT, N) \
    {"DPDCH frame " #WHAT ", format " #FORMAT, &dpdch_frame_##WHAT, draw_frame, &context, sizeof context, FORMAT, (size_t)SLOTS * N}

static const struct row ROWS[] = {
    SLOT(map, 0, 10),   SLOT(read, 0, 10),   SLOT(map, 2, 40),   SLOT(read, 2, 40),   SLOT(map, 6, 640),   SLOT(read, 6, 640),
    FRAME(map, 0, 10),  FRAME(read, 0, 10),  FRAME(map, 6, 640), FRAME(read, 6, 640),
};

void bench_dpdch(void) {
    static const struct row ALL[] = {SLOT(map, 0, 0), SLOT(read, 0, 0), FRAME(map, 0, 0), FRAME(read, 0, 0)};
    for (size_t k = 0; k < sizeof ALL / sizeof ALL[0]; k++) {
        for (size_t format = 0; format < DPDCH_FORMATS; format++) {
            struct row row = ALL[k];
            row.name = "DPDCH, all formats";
            row.choice = format;
            compare_row(&row);
        }
    }
    bench_rows(ROWS, sizeof ROWS / sizeof ROWS[0]);
}
