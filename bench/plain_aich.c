/* AICH and its combiner in plain C. */
#include "aich.h"
#include "yardsticks.h"

/* Takes the indicators, or answers the refusal. */
static uint64_t take_indicators(const int32_t *indicators, size_t n_indicators, size_t n_values, int32_t *taken) {
    if (n_indicators != SIGNATURES) return refuse(3, 0);
    if (n_values != VALUES) return refuse(3, 1);
    for (size_t s = 0; s < SIGNATURES; s++) {
        if (indicators[s] < -1 || indicators[s] > 1) return refuse(11, s);
        taken[s] = indicators[s];
    }
    return 0;
}

/* The refusal of the first that is not 0 though its signature is not available. */
static uint64_t ask_set(uint16_t available, const int32_t *indicators) {
    for (size_t s = 0; s < SIGNATURES; s++) {
        if (indicators[s] != 0 && (available >> s & 1) == 0) return refuse(26, s);
    }
    return 0;
}

uint64_t plain_aich_map(const int32_t *indicators, size_t n_indicators, int32_t *values, size_t n_values) {
    int32_t taken[SIGNATURES];
    uint64_t refused = take_indicators(indicators, n_indicators, n_values, taken);
    if (refused != 0) return refused;
    write_pairs(taken, values);
    return 0;
}

uint64_t plain_aich_map_available(uint16_t available, const int32_t *indicators, size_t n_indicators, int32_t *values,
                                  size_t n_values) {
    int32_t taken[SIGNATURES];
    uint64_t refused = take_indicators(indicators, n_indicators, n_values, taken);
    if (refused == 0) refused = ask_set(available, taken);
    if (refused != 0) return refused;
    write_pairs(taken, values);
    return 0;
}

/* Finds 16 times the indicators, or answers the refusal. The transform of the transform is 16 times what it was, so values are given by
 * indicators exactly when their transform is -16, 0 and 16. No indicators give a value beyond 16, and within it no sum overflows. */
static uint64_t find_indicators(const int32_t *values, size_t n_values, size_t n_indicators, int32_t *found) {
    if (n_values != VALUES) return refuse(3, 0);
    if (n_indicators != SIGNATURES) return refuse(3, 1);
    for (size_t k = 0; k < SIGNATURES; k++) {
        int32_t value = values[2 * k];
        if (value != values[2 * k + 1] || value < -16 || value > 16) return refuse(10, 0);
        found[k] = value;
    }
    transform(found);
    for (size_t s = 0; s < SIGNATURES; s++) {
        if (found[s] != -16 && found[s] != 0 && found[s] != 16) return refuse(10, 0);
    }
    return 0;
}

uint64_t plain_aich_read(const int32_t *values, size_t n_values, int32_t *indicators, size_t n_indicators) {
    int32_t found[SIGNATURES];
    uint64_t refused = find_indicators(values, n_values, n_indicators, found);
    if (refused != 0) return refused;
    for (size_t s = 0; s < SIGNATURES; s++) indicators[s] = found[s] / 16;
    return 0;
}

uint64_t plain_aich_read_available(uint16_t available, const int32_t *values, size_t n_values, int32_t *indicators,
                                   size_t n_indicators) {
    int32_t found[SIGNATURES];
    uint64_t refused = find_indicators(values, n_values, n_indicators, found);
    if (refused == 0) refused = ask_set(available, found);
    if (refused != 0) return refused;
    for (size_t s = 0; s < SIGNATURES; s++) indicators[s] = found[s] / 16;
    return 0;
}

static uint64_t combine_refusal(const int64_t *h, const int32_t *received, size_t n_received, size_t n_results) {
    if (n_received != VALUES) return refuse(3, 0);
    if (n_results != SIGNATURES) return refuse(3, 1);
    for (size_t i = 0; i < 4; i++) {
        if (h[i] < -GAIN_LIMIT || h[i] > GAIN_LIMIT) return refuse(11, i);
    }
    for (size_t i = 0; i < VALUES; i++) {
        if (received[i] < -RECEIVED_LIMIT || received[i] > RECEIVED_LIMIT) return refuse(11, 4 + i);
    }
    if (h[0] == 0 && h[1] == 0 && h[2] == 0 && h[3] == 0) return refuse(12, 0);
    return 0;
}

uint64_t plain_aich_combine(int64_t h1_re, int64_t h1_im, int64_t h2_re, int64_t h2_im, const int32_t *received,
                            size_t n_received, int64_t *results, size_t n_results) {
    int64_t h[4] = {h1_re, h1_im, h2_re, h2_im};
    uint64_t refusal = combine_refusal(h, received, n_received, n_results);
    if (refusal == 0) correlate(h, received, results);
    return refusal;
}

uint64_t plain_aich_combine_by_terms(int64_t h1_re, int64_t h1_im, int64_t h2_re, int64_t h2_im, const int32_t *received,
                                     size_t n_received, int64_t *results, size_t n_results) {
    int64_t h[4] = {h1_re, h1_im, h2_re, h2_im};
    uint64_t refusal = combine_refusal(h, received, n_received, n_results);
    if (refusal == 0) correlate_by_terms(h, received, results);
    return refusal;
}
