/* AICH and its combiner in tight C. */
#include "aich.h"
#include "yardsticks.h"

uint64_t tight_aich_map(const int32_t *indicators, size_t n_indicators, int32_t *values, size_t n_values) {
    int32_t sums[SIGNATURES];
    if (n_indicators != SIGNATURES || n_values != VALUES || any_outside(indicators, SIGNATURES, 1)) {
        return plain_aich_map(indicators, n_indicators, values, n_values);
    }
    for (size_t s = 0; s < SIGNATURES; s++) sums[s] = indicators[s];
    write_pairs(sums, values);
    return 0;
}

/* Whether some number is not 0 though its signature is not available. */
static inline bool any_stray(uint16_t available, const int32_t *s) {
    int32_t stray = 0;
    for (size_t i = 0; i < SIGNATURES; i++) stray |= (available & 1u << i) == 0 ? s[i] : 0;
    return stray;
}

uint64_t tight_aich_map_available(uint16_t available, const int32_t *indicators, size_t n_indicators, int32_t *values,
                                  size_t n_values) {
    int32_t sums[SIGNATURES];
    if (n_indicators != SIGNATURES || n_values != VALUES || any_outside(indicators, SIGNATURES, 1) ||
        any_stray(available, indicators)) {
        return plain_aich_map_available(available, indicators, n_indicators, values, n_values);
    }
    for (size_t s = 0; s < SIGNATURES; s++) sums[s] = indicators[s];
    write_pairs(sums, values);
    return 0;
}

/* Takes one value of each pair. Whether some pair is unlike. */
static inline bool any_unlike(const int32_t *values, int32_t *each) {
    int32_t unlike = 0;
    for (size_t k = 0; k < SIGNATURES; k++) {
        unlike |= values[2 * k] ^ values[2 * k + 1];
        each[k] = values[2 * k];
    }
    return unlike;
}

/* Within -256 to 256: whether some sum is none of -16, 0 and 16. */
static inline bool any_between(const int32_t *sums) {
    int32_t between = 0;
    for (size_t s = 0; s < SIGNATURES; s++) between |= (sums[s] & 15) | (sums[s] < -16) | (sums[s] > 16);
    return between;
}

/* Finds the sums; whether they are of values that some indicators give. */
static inline bool finds_sums(const int32_t *values, size_t n_values, size_t n_indicators, int32_t *sums) {
    if (n_values != VALUES || n_indicators != SIGNATURES || any_unlike(values, sums) || any_outside(sums, SIGNATURES, 16)) {
        return false;
    }
    transform(sums);
    return !any_between(sums);
}

uint64_t tight_aich_read(const int32_t *values, size_t n_values, int32_t *indicators, size_t n_indicators) {
    int32_t sums[SIGNATURES];
    if (!finds_sums(values, n_values, n_indicators, sums)) return plain_aich_read(values, n_values, indicators, n_indicators);
    for (size_t s = 0; s < SIGNATURES; s++) indicators[s] = (sums[s] > 0) - (sums[s] < 0);
    return 0;
}

uint64_t tight_aich_read_available(uint16_t available, const int32_t *values, size_t n_values, int32_t *indicators,
                                   size_t n_indicators) {
    int32_t sums[SIGNATURES];
    if (!finds_sums(values, n_values, n_indicators, sums) || any_stray(available, sums)) {
        return plain_aich_read_available(available, values, n_values, indicators, n_indicators);
    }
    for (size_t s = 0; s < SIGNATURES; s++) indicators[s] = (sums[s] > 0) - (sums[s] < 0);
    return 0;
}

static inline bool is_gain(int64_t part) {
    return part >= -GAIN_LIMIT && part <= GAIN_LIMIT;
}

static inline bool combine_takes(const int64_t *h, const int32_t *received, size_t n_received, size_t n_results) {
    return n_received == VALUES && n_results == SIGNATURES && (is_gain(h[0]) & is_gain(h[1]) & is_gain(h[2]) & is_gain(h[3])) &&
           !any_outside(received, VALUES, RECEIVED_LIMIT) && (h[0] | h[1] | h[2] | h[3]) != 0;
}

uint64_t tight_aich_combine(int64_t h1_re, int64_t h1_im, int64_t h2_re, int64_t h2_im, const int32_t *received,
                            size_t n_received, int64_t *results, size_t n_results) {
    int64_t h[4] = {h1_re, h1_im, h2_re, h2_im}, sums[SIGNATURES];
    if (!combine_takes(h, received, n_received, n_results)) {
        return plain_aich_combine(h1_re, h1_im, h2_re, h2_im, received, n_received, results, n_results);
    }
    correlate(h, received, sums);
    for (size_t s = 0; s < SIGNATURES; s++) results[s] = sums[s];
    return 0;
}

uint64_t tight_aich_combine_by_terms(int64_t h1_re, int64_t h1_im, int64_t h2_re, int64_t h2_im, const int32_t *received,
                                     size_t n_received, int64_t *results, size_t n_results) {
    int64_t h[4] = {h1_re, h1_im, h2_re, h2_im};
    if (!combine_takes(h, received, n_received, n_results)) {
        return plain_aich_combine_by_terms(h1_re, h1_im, h2_re, h2_im, received, n_received, results, n_results);
    }
    correlate_by_terms(h, received, results);
    return 0;
}
