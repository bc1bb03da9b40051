/* The P-CCPCH frame on two antennas in tight C. */
#include "pccpch.h"
#include "yardsticks.h"

uint64_t tight_pccpch_map(const uint8_t *data, size_t n_data, uint8_t *antenna1, size_t n1, uint8_t *antenna2,
                          size_t n2) {
    uint8_t other[DATA];
    if (n_data != DATA || n1 != FRAME || n2 != FRAME || any_above(data, DATA, 1)) {
        return plain_pccpch_map(data, n_data, antenna1, n1, antenna2, n2);
    }
    second_antenna(data, other);
    put_frame(data, antenna1);
    put_frame(other, antenna2);
    return 0;
}

/* Whether a slot does not begin with DTX. */
static inline bool any_sent(const uint8_t *frame) {
    uint8_t sent = 0;
    for (size_t slot = 0; slot < SLOTS; slot++) {
        sent |= (frame[SLOT * slot] ^ DTX) | (frame[SLOT * slot + 1] ^ DTX);
    }
    return sent;
}

/* Where antenna 1 is good and antenna 2 is what it implies, no digit of either is above 2. */
uint64_t tight_pccpch_read(const uint8_t *antenna1, size_t n1, const uint8_t *antenna2, size_t n2, uint8_t *data,
                           size_t n_data) {
    uint8_t found[DATA], other[DATA], implied[FRAME];
    if (n1 != FRAME || n2 != FRAME || n_data != DATA || any_sent(antenna1)) {
        return plain_pccpch_read(antenna1, n1, antenna2, n2, data, n_data);
    }
    take_data(antenna1, found);
    second_antenna(found, other);
    put_frame(other, implied);
    if (any_above(found, DATA, 1) || memcmp(antenna2, implied, FRAME) != 0) {
        return plain_pccpch_read(antenna1, n1, antenna2, n2, data, n_data);
    }
    memcpy(data, found, DATA);
    return 0;
}
