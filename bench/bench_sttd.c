/* STTD of digits, short and long, and of AICH values. */
#include "draw.h"
#include "row.h"
#include "yardsticks.h"

enum { LONGEST = 1280, VALUES = 32 };

/* Both inputs move on from call to call. */
struct sttd_row {
    size_t n_in, n_out;
    uint8_t digits[SETS][LONGEST + 1], digits_out[LONGEST + 1];
    int32_t values[SETS][VALUES + 1], values_out[VALUES + 1];
};

WAYS(sttd_digits, sttd_row, r->digits[i % SETS], r->n_in, r->digits_out, r->n_out)
WAYS(sttd_values, sttd_row, r->values[i % SETS], r->n_in, r->values_out, r->n_out)

static void draw_digit_runs(void *context, size_t length) {
    struct sttd_row *r = context;
    for (size_t i = 0; i < SETS; i++) draw_digits(r->digits[i], length, 3);
    damage_digits(r->digits[0], length);
    r->n_in = damaged_length(length);
    r->n_out = damaged_length(length);
}

static void draw_value_runs(void *context, size_t length) {
    struct sttd_row *r = context;
    for (size_t i = 0; i < SETS; i++) {
        for (size_t k = 0; k < length; k++) r->values[i][k] = draw_value(16);
    }
    damage_values(r->values[0], length);
    r->n_in = damaged_length(length);
    r->n_out = damaged_length(length);
}

static struct sttd_row context;

#define DIGITS(LENGTH) \
    {"STTD of " #LENGTH " digits", &sttd_digits, draw_digit_runs, &context, sizeof context, LENGTH, LENGTH}

static const struct row ROWS[] = {
    DIGITS(16),
    DIGITS(320),
    DIGITS(1280),
    {"STTD of values", &sttd_values, draw_value_runs, &context, sizeof context, VALUES, VALUES * sizeof(int32_t)},
};

void bench_sttd(void) {
    bench_rows(ROWS, sizeof ROWS / sizeof ROWS[0]);
}
