/* The HS-PDSCH subframe on two antennas, mapped and read, in both formats. */
#include "draw.h"
#include "hspdsch.h"
#include "row.h"
#include "yardsticks.h"

/* The data moves on from call to call. */
struct hspdsch_row {
    size_t format, n_data, n1, n2;
    uint8_t data[SETS][QAM + 1], antenna1[QAM + 1], antenna2[QAM + 1], data_back[QAM + 1];
};

WAYS(hspdsch_map, hspdsch_row, r->format, r->data[i % SETS], r->n_data, r->antenna1, r->n1, r->antenna2, r->n2)
WAYS(hspdsch_read, hspdsch_row, r->format, r->antenna1, r->n1, r->antenna2, r->n2, r->data_back, r->n_data)

static void draw_data(struct hspdsch_row *r, size_t format) {
    size_t n = SUBFRAME[format];
    r->format = damaged_number(format);
    r->n_data = damaged_length(n);
    r->n1 = damaged_length(n);
    r->n2 = damaged_length(n);
    for (size_t i = 0; i < SETS; i++) draw_digits(r->data[i], n, 2);
}

static void draw_map(void *context, size_t format) {
    struct hspdsch_row *r = context;
    draw_data(r, format);
    damage_digits(r->data[0], SUBFRAME[format]);
}

static void draw_read(void *context, size_t format) {
    struct hspdsch_row *r = context;
    size_t n = SUBFRAME[format];
    draw_data(r, format);
    slt_hspdsch_map(format, r->data[0], n, r->antenna1, n, r->antenna2, n);
    damage_digits(r->antenna1, n);
    damage_digits(r->antenna2, n);
}

static struct hspdsch_row context;

#define ROW(WHAT, FORMAT, N) \
    {"HS-PDSCH " #WHAT ", format " #FORMAT, &hspdsch_##WHAT, draw_##WHAT, &context, sizeof context, FORMAT, 2 * N}

static const struct row ROWS[] = {ROW(map, 0, QPSK), ROW(read, 0, QPSK), ROW(map, 1, QAM), ROW(read, 1, QAM)};

void bench_hspdsch(void) {
    bench_rows(ROWS, sizeof ROWS / sizeof ROWS[0]);
}
