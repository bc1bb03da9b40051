/* The HS-PDSCH subframe on two antennas in plain C. */
#include "hspdsch.h"
#include "yardsticks.h"

/* QPSK: STTD in fours. */
static void second_in_fours(const uint8_t *data, uint8_t *other) {
    for (size_t d = 0; d < QPSK; d += 4) {
        other[d] = data[d + 2] ^ 1;
        other[d + 1] = data[d + 3];
        other[d + 2] = data[d];
        other[d + 3] = data[d + 1] ^ 1;
    }
}

/* 16QAM: in eights. */
static void second_in_eights(const uint8_t *data, uint8_t *other) {
    for (size_t d = 0; d < QAM; d += 8) {
        other[d] = data[d + 4] ^ 1;
        other[d + 1] = data[d + 5];
        other[d + 2] = data[d + 6];
        other[d + 3] = data[d + 7];
        other[d + 4] = data[d];
        other[d + 5] = data[d + 1] ^ 1;
        other[d + 6] = data[d + 2];
        other[d + 7] = data[d + 3];
    }
}

static void second_of(size_t format, const uint8_t *data, uint8_t *other) {
    if (format == 0) {
        second_in_fours(data, other);
    } else {
        second_in_eights(data, other);
    }
}

uint64_t plain_hspdsch_map(size_t format, const uint8_t *data, size_t n_data, uint8_t *antenna1, size_t n1, uint8_t *antenna2,
                           size_t n2) {
    if (format >= HSPDSCH_FORMATS) return refuse(1, 0);
    size_t n = SUBFRAME[format];
    if (n_data != n) return refuse(3, 0);
    if (n1 != n) return refuse(3, 1);
    if (n2 != n) return refuse(3, 2);
    size_t i = first_above(data, n, 1);
    if (i < n) return refuse(4, i);
    memcpy(antenna1, data, n);
    second_of(format, data, antenna2);
    return 0;
}

uint64_t plain_hspdsch_read(size_t format, const uint8_t *antenna1, size_t n1, const uint8_t *antenna2, size_t n2, uint8_t *data,
                            size_t n_data) {
    uint8_t implied[QAM];
    if (format >= HSPDSCH_FORMATS) return refuse(1, 0);
    size_t n = SUBFRAME[format];
    if (n1 != n) return refuse(3, 0);
    if (n2 != n) return refuse(3, 1);
    if (n_data != n) return refuse(3, 2);
    size_t i = first_above(antenna1, n, 1);
    if (i < n) return refuse(4, i);
    i = first_above(antenna2, n, 1);
    if (i < n) return refuse(4, n + i);
    second_of(format, antenna1, implied);
    for (i = 0; i < n; i++) {
        if (antenna2[i] != implied[i]) return refuse(9, n + i);
    }
    memcpy(data, antenna1, n);
    return 0;
}

uint64_t plain_hspdsch_lengths(size_t format, size_t run) {
    if (format >= HSPDSCH_FORMATS) return refuse(1, 0);
    return tell_length((size_t[]){SUBFRAME[format], SUBFRAME[format], SUBFRAME[format]}, 3, run);
}
