/* The P-CCPCH frame on two antennas, mapped and read. */
#include "draw.h"
#include "pccpch.h"
#include "row.h"
#include "yardsticks.h"

/* The data moves on from call to call. */
struct pccpch_row {
    size_t n_data, n1, n2;
    uint8_t data[SETS][DATA + 1], antenna1[FRAME + 1], antenna2[FRAME + 1], data_back[DATA + 1];
};

WAYS(pccpch_map, pccpch_row, r->data[i % SETS], r->n_data, r->antenna1, r->n1, r->antenna2, r->n2)
WAYS(pccpch_read, pccpch_row, r->antenna1, r->n1, r->antenna2, r->n2, r->data_back, r->n_data)

static void draw_data(struct pccpch_row *r) {
    r->n_data = damaged_length(DATA);
    r->n1 = damaged_length(FRAME);
    r->n2 = damaged_length(FRAME);
    for (size_t i = 0; i < SETS; i++) draw_digits(r->data[i], DATA, 2);
}

static void draw_map(void *context, size_t choice) {
    struct pccpch_row *r = context;
    (void)choice;
    draw_data(r);
    damage_digits(r->data[0], DATA);
}

static void draw_read(void *context, size_t choice) {
    struct pccpch_row *r = context;
    (void)choice;
    draw_data(r);
    slt_pccpch_map(r->data[0], DATA, r->antenna1, FRAME, r->antenna2, FRAME);
    damage_digits(r->antenna1, FRAME);
    damage_digits(r->antenna2, FRAME);
    damage_digits(r->antenna1 + SLOT * draw_below(SLOTS), 2);
    damage_digits(r->antenna2 + SLOT * draw_below(SLOTS), 2);
}

static struct pccpch_row context;

static const struct row ROWS[] = {
    {"P-CCPCH map", &pccpch_map, draw_map, &context, sizeof context, 0, 2 * FRAME},
    {"P-CCPCH read", &pccpch_read, draw_read, &context, sizeof context, 0, 2 * FRAME},
};

void bench_pccpch(void) {
    bench_rows(ROWS, sizeof ROWS / sizeof ROWS[0]);
}
