/* What AICH and its combiner share in C: the sums over all signatures, and the components of T. b(s,j) depends on s and floor(j/2)
 * alone and is the sign of a 16 by 16 Hadamard matrix, so sums over it are four rounds of sums and differences. */
#ifndef AICH_H
#define AICH_H

#include "parts.h"

enum { SIGNATURES = 16, VALUES = 32, GAIN_LIMIT = 4096, RECEIVED_LIMIT = 1048576 };

/* Four rounds over numbers of one type: in each the sums of neighbours, and behind them their differences. */
#define ROUNDS(number, fold, transform)                             \
    static inline void fold(const number *x, number *y) {           \
        for (size_t i = 0; i < SIGNATURES / 2; i++) {               \
            y[i] = x[2 * i] + x[2 * i + 1];                         \
            y[i + SIGNATURES / 2] = x[2 * i] - x[2 * i + 1];        \
        }                                                           \
    }                                                               \
                                                                    \
    static inline void transform(number *x) {                       \
        number y[SIGNATURES];                                       \
        fold(x, y);                                                 \
        fold(y, x);                                                 \
        fold(x, y);                                                 \
        fold(y, x);                                                 \
    }

ROUNDS(int32_t, fold, transform)
ROUNDS(int64_t, fold_wide, transform_wide)

/* The values of indicators: the sum of each pair. */
static inline void write_pairs(int32_t *indicators, int32_t *values) {
    transform(indicators);
    for (size_t k = 0; k < SIGNATURES; k++) {
        values[2 * k] = indicators[k];
        values[2 * k + 1] = indicators[k];
    }
}

/* The four components of two symbols of T. */
static inline void combine_pair(const int64_t *h, const int32_t *received, int64_t *t) {
    int64_t r1_re = received[0], r1_im = received[1], r2_re = received[2], r2_im = received[3];
    t[0] = h[0] * r1_re + h[1] * r1_im + h[2] * r2_re + h[3] * r2_im;
    t[1] = h[0] * r1_im - h[1] * r1_re + h[3] * r2_re - h[2] * r2_im;
    t[2] = h[0] * r2_re + h[1] * r2_im - h[2] * r1_re - h[3] * r1_im;
    t[3] = h[0] * r2_im - h[1] * r2_re - h[3] * r1_re + h[2] * r1_im;
}

/* By folding. Of each symbol of T the real part plus the imaginary part: both meet the same signs. */
static inline void correlate(const int64_t *h, const int32_t *received, int64_t *results) {
    for (size_t m = 0; m < SIGNATURES / 2; m++) {
        int64_t t[4];
        combine_pair(h, received + 4 * m, t);
        results[2 * m] = t[0] + t[1];
        results[2 * m + 1] = t[2] + t[3];
    }
    transform_wide(results);
}

/* With no folding: for each signature all 32 components are added or subtracted, as a row of the table says. */
#define PLUS(s, k) ((__builtin_popcount((s) & (k)) & 1) == 0)
#define PAIR(s, k) PLUS(s, k), PLUS(s, k)
#define PAIRS(s, k) PAIR(s, k), PAIR(s, k + 1), PAIR(s, k + 2), PAIR(s, k + 3)
#define SIGNATURE(s) {PAIRS(s, 0), PAIRS(s, 4), PAIRS(s, 8), PAIRS(s, 12)}
#define FOUR_FROM(s) SIGNATURE(s), SIGNATURE(s + 1), SIGNATURE(s + 2), SIGNATURE(s + 3)

static inline void correlate_by_terms(const int64_t *h, const int32_t *received, int64_t *results) {
    static const bool plus[SIGNATURES][VALUES] = {FOUR_FROM(0), FOUR_FROM(4), FOUR_FROM(8), FOUR_FROM(12)};
    int64_t t[VALUES];
    for (size_t m = 0; m < SIGNATURES / 2; m++) combine_pair(h, received + 4 * m, t + 4 * m);
    for (size_t s = 0; s < SIGNATURES; s++) {
        int64_t sum = 0;
        for (size_t j = 0; j < VALUES; j++) sum += plus[s][j] ? t[j] : -t[j];
        results[s] = sum;
    }
}

#endif
