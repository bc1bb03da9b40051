/* STTD in tight C. The runs are told apart by restrict, so that blocks can be done many at a time. */
#include "yardsticks.h"

#include "parts.h"

/* 0 and 1 change places, by their lowest bit; DTX stays. */
static inline uint8_t bar(uint8_t digit) {
    return digit ^ (digit < 2);
}

uint64_t tight_sttd_digits(const uint8_t *restrict input, size_t n_input, uint8_t *restrict out, size_t n_out) {
    if (n_input > UINT32_MAX || n_input % 4 != 0 || n_out != n_input || any_above(input, n_input, 2)) {
        return plain_sttd_digits(input, n_input, out, n_out);
    }
    for (size_t i = 0; i < n_input; i += 4) {
        out[i] = bar(input[i + 2]);
        out[i + 1] = input[i + 3];
        out[i + 2] = input[i];
        out[i + 3] = bar(input[i + 1]);
    }
    return 0;
}

uint64_t tight_sttd_values(const int32_t *restrict input, size_t n_input, int32_t *restrict out, size_t n_out) {
    enum { VALUES = 32, LIMIT = 16 };
    if (n_input != VALUES || n_out != VALUES || any_outside(input, VALUES, LIMIT)) {
        return plain_sttd_values(input, n_input, out, n_out);
    }
    for (size_t i = 0; i < VALUES; i += 4) {
        out[i] = -input[i + 2];
        out[i + 1] = input[i + 3];
        out[i + 2] = input[i];
        out[i + 3] = -input[i + 1];
    }
    return 0;
}
