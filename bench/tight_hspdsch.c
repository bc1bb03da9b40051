/* The HS-PDSCH subframe on two antennas in tight C. A block is one word: its halves change places, and a few of its bits change. */
#include "hspdsch.h"
#include "yardsticks.h"

static inline void second_in_fours(const uint8_t *restrict data, uint8_t *restrict other) {
    static const uint8_t BARS[4] = {1, 0, 0, 1};
    uint32_t bars, word;
    memcpy(&bars, BARS, sizeof bars);
    for (size_t d = 0; d < QPSK; d += sizeof word) {
        memcpy(&word, data + d, sizeof word);
        word = (word >> 16 | word << 16) ^ bars;
        memcpy(other + d, &word, sizeof word);
    }
}

static inline void second_in_eights(const uint8_t *restrict data, uint8_t *restrict other) {
    static const uint8_t BARS[8] = {1, 0, 0, 0, 0, 1, 0, 0};
    uint64_t bars, word;
    memcpy(&bars, BARS, sizeof bars);
    for (size_t d = 0; d < QAM; d += sizeof word) {
        memcpy(&word, data + d, sizeof word);
        word = (word >> 32 | word << 32) ^ bars;
        memcpy(other + d, &word, sizeof word);
    }
}

static inline void second_of(size_t format, const uint8_t *data, uint8_t *other) {
    if (format == 0) {
        second_in_fours(data, other);
    } else {
        second_in_eights(data, other);
    }
}

uint64_t tight_hspdsch_map(size_t format, const uint8_t *data, size_t n_data, uint8_t *antenna1, size_t n1, uint8_t *antenna2,
                           size_t n2) {
    size_t n = format < HSPDSCH_FORMATS ? SUBFRAME[format] : 0;
    if (n == 0 || n_data != n || n1 != n || n2 != n || any_above(data, n, 1)) {
        return plain_hspdsch_map(format, data, n_data, antenna1, n1, antenna2, n2);
    }
    memcpy(antenna1, data, n);
    second_of(format, data, antenna2);
    return 0;
}

/* Where antenna 1 has bits and antenna 2 is what they imply, it has bits too. */
uint64_t tight_hspdsch_read(size_t format, const uint8_t *antenna1, size_t n1, const uint8_t *antenna2, size_t n2, uint8_t *data,
                            size_t n_data) {
    uint8_t implied[QAM];
    size_t n = format < HSPDSCH_FORMATS ? SUBFRAME[format] : 0;
    if (n == 0 || n1 != n || n2 != n || n_data != n || any_above(antenna1, n, 1)) {
        return plain_hspdsch_read(format, antenna1, n1, antenna2, n2, data, n_data);
    }
    second_of(format, antenna1, implied);
    if (memcmp(antenna2, implied, n) != 0) {
        return plain_hspdsch_read(format, antenna1, n1, antenna2, n2, data, n_data);
    }
    memcpy(data, antenna1, n);
    return 0;
}

uint64_t tight_hspdsch_lengths(size_t format, size_t run) {
    return format < HSPDSCH_FORMATS && run < 3 ? (uint64_t)QPSK << format << 48 : plain_hspdsch_lengths(format, run);
}
