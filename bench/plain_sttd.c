/* STTD in plain C. */
#include "yardsticks.h"

#include "parts.h"

static uint8_t bar(uint8_t digit) {
    return digit == 2 ? 2 : 1 - digit;
}

uint64_t plain_sttd_digits(const uint8_t *input, size_t n_input, uint8_t *out, size_t n_out) {
    if (n_input > UINT32_MAX || n_input % 4 != 0) return refuse(3, 0);
    if (n_out != n_input) return refuse(3, 1);
    size_t i = first_above(input, n_input, 2);
    if (i < n_input) return refuse(4, i);
    for (i = 0; i < n_input; i += 4) {
        out[i] = bar(input[i + 2]);
        out[i + 1] = input[i + 3];
        out[i + 2] = input[i];
        out[i + 3] = bar(input[i + 1]);
    }
    return 0;
}

uint64_t plain_sttd_values(const int32_t *input, size_t n_input, int32_t *out, size_t n_out) {
    enum { VALUES = 32, LIMIT = 16 };
    if (n_input != VALUES) return refuse(3, 0);
    if (n_out != VALUES) return refuse(3, 1);
    for (size_t i = 0; i < VALUES; i++) {
        if (input[i] < -LIMIT || input[i] > LIMIT) return refuse(11, i);
    }
    for (size_t i = 0; i < VALUES; i += 4) {
        out[i] = -input[i + 2];
        out[i + 1] = input[i + 3];
        out[i + 2] = input[i];
        out[i + 3] = -input[i + 1];
    }
    return 0;
}
