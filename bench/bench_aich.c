/* AICH values mapped and read, without and under a set of available signatures, and combined from two antennas. */
#include "aich.h"
#include "draw.h"
#include "row.h"
#include "yardsticks.h"

/* All inputs move on from call to call. */
struct aich_row {
    size_t n_indicators, n_values, n_results;
    uint16_t available[SETS];
    int64_t gains[SETS][4], results[SIGNATURES + 1];
    int32_t indicators[SETS][SIGNATURES + 1], values[SETS][VALUES + 1], received[SETS][VALUES + 1];
    int32_t values_out[VALUES + 1], indicators_back[SIGNATURES + 1];
};

WAYS(aich_map, aich_row, r->indicators[i % SETS], r->n_indicators, r->values_out, r->n_values)
WAYS(aich_read, aich_row, r->values[i % SETS], r->n_values, r->indicators_back, r->n_indicators)
WAYS(aich_map_available, aich_row, r->available[i % SETS], r->indicators[i % SETS], r->n_indicators, r->values_out, r->n_values)
WAYS(aich_read_available, aich_row, r->available[i % SETS], r->values[i % SETS], r->n_values, r->indicators_back,
     r->n_indicators)

#define COMBINE_ARGUMENTS                                                                               \
    r->gains[i % SETS][0], r->gains[i % SETS][1], r->gains[i % SETS][2], r->gains[i % SETS][3],         \
        r->received[i % SETS], r->n_values, r->results, r->n_results

WAYS(aich_combine, aich_row, COMBINE_ARGUMENTS)

/* The library against C that adds all 32 components for each signature: what folding is worth. */
WAY(by_terms_tight, aich_row, tight_aich_combine_by_terms(COMBINE_ARGUMENTS))
WAY(by_terms_plain, aich_row, plain_aich_combine_by_terms(COMBINE_ARGUMENTS))
static const struct ways against_terms = {aich_combine_library, by_terms_tight, by_terms_plain};

static void draw_run(int32_t *s, size_t n, int32_t limit) {
    for (size_t i = 0; i < n; i++) s[i] = draw_value(limit);
}

static void draw_lengths(struct aich_row *r) {
    r->n_indicators = damaged_length(SIGNATURES);
    r->n_values = damaged_length(VALUES);
    r->n_results = damaged_length(SIGNATURES);
}

static void draw_map(void *context, size_t choice) {
    struct aich_row *r = context;
    (void)choice;
    draw_lengths(r);
    for (size_t i = 0; i < SETS; i++) draw_run(r->indicators[i], SIGNATURES, 1);
    damage_values(r->indicators[0], SIGNATURES);
}

/* Some pairs are moved as a whole: what they then hold only the sums can refuse. */
static void draw_read(void *context, size_t choice) {
    struct aich_row *r = context;
    (void)choice;
    draw_lengths(r);
    for (size_t i = 0; i < SETS; i++) {
        draw_run(r->indicators[i], SIGNATURES, 1);
        slt_aich_map(r->indicators[i], SIGNATURES, r->values[i], VALUES);
    }
    damage_values(r->values[0], VALUES);
    size_t pair = 2 * draw_below(SIGNATURES);
    if (damaged_number(0) != 0) r->values[0][pair] = r->values[0][pair + 1] = draw_value(17);
}

/* Each set of indicators is one that its set of signatures allows; then the first may have one that is not allowed. */
static void draw_available(struct aich_row *r) {
    for (size_t i = 0; i < SETS; i++) {
        r->available[i] = (uint16_t)draw_below(65536);
        for (size_t s = 0; s < SIGNATURES; s++) {
            r->indicators[i][s] = r->available[i] >> s & 1 ? draw_value(1) : 0;
        }
    }
    if (damaged_number(0) != 0) r->available[0] = (uint16_t)draw_below(65536);
}

static void draw_map_available(void *context, size_t choice) {
    struct aich_row *r = context;
    (void)choice;
    draw_lengths(r);
    draw_available(r);
    damage_values(r->indicators[0], SIGNATURES);
}

static void draw_read_available(void *context, size_t choice) {
    struct aich_row *r = context;
    (void)choice;
    draw_lengths(r);
    draw_available(r);
    for (size_t i = 0; i < SETS; i++) slt_aich_map(r->indicators[i], SIGNATURES, r->values[i], VALUES);
    damage_values(r->values[0], VALUES);
}

static void draw_combine(void *context, size_t choice) {
    struct aich_row *r = context;
    (void)choice;
    draw_lengths(r);
    for (size_t i = 0; i < SETS; i++) {
        for (size_t part = 0; part < 4; part++) {
            r->gains[i][part] = damaged_value(draw_value(GAIN_LIMIT), GAIN_LIMIT);
        }
        draw_run(r->received[i], VALUES, RECEIVED_LIMIT);
    }
    if (damaged_number(0) != 0) r->gains[0][0] = r->gains[0][1] = r->gains[0][2] = r->gains[0][3] = 0;
    damage_values(r->received[0], VALUES);
}

static struct aich_row context;

#define ROW(NAME, WAYS, DRAW) {NAME, WAYS, DRAW, &context, sizeof context, 0, VALUES * sizeof(int32_t)}

static const struct row ROWS[] = {
    ROW("AICH map", &aich_map, draw_map),
    ROW("AICH read", &aich_read, draw_read),
    ROW("AICH map, set", &aich_map_available, draw_map_available),
    ROW("AICH read, set", &aich_read_available, draw_read_available),
    ROW("AICH combine", &aich_combine, draw_combine),
    ROW("AICH combine, C by terms", &against_terms, draw_combine),
};

void bench_aich(void) {
    bench_rows(ROWS, sizeof ROWS / sizeof ROWS[0]);
}
