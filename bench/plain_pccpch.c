/* The P-CCPCH frame on two antennas in plain C. */
#include "pccpch.h"
#include "yardsticks.h"

/* The first digit that is DTX where it should not be, or not where it should, or FRAME. */
static size_t first_of_wrong_kind(const uint8_t *frame) {
    for (size_t slot = 0; slot < SLOTS; slot++) {
        for (size_t i = 0; i < SLOT; i++) {
            if ((frame[SLOT * slot + i] == DTX) != (i < 2)) return SLOT * slot + i;
        }
    }
    return FRAME;
}

uint64_t plain_pccpch_map(const uint8_t *data, size_t n_data, uint8_t *antenna1, size_t n1, uint8_t *antenna2,
                          size_t n2) {
    uint8_t other[DATA];
    if (n_data != DATA) return refuse(3, 0);
    if (n1 != FRAME) return refuse(3, 1);
    if (n2 != FRAME) return refuse(3, 2);
    size_t i = first_above(data, DATA, 1);
    if (i < DATA) return refuse(4, i);
    second_antenna(data, other);
    put_frame(data, antenna1);
    put_frame(other, antenna2);
    return 0;
}

uint64_t plain_pccpch_read(const uint8_t *antenna1, size_t n1, const uint8_t *antenna2, size_t n2, uint8_t *data,
                           size_t n_data) {
    uint8_t found[DATA], other[DATA], implied[FRAME];
    if (n1 != FRAME) return refuse(3, 0);
    if (n2 != FRAME) return refuse(3, 1);
    if (n_data != DATA) return refuse(3, 2);
    size_t i = first_above(antenna1, FRAME, 2);
    if (i < FRAME) return refuse(4, i);
    i = first_above(antenna2, FRAME, 2);
    if (i < FRAME) return refuse(4, FRAME + i);
    i = first_of_wrong_kind(antenna1);
    if (i < FRAME) return refuse(9, i);
    take_data(antenna1, found);
    second_antenna(found, other);
    put_frame(other, implied);
    for (i = 0; i < FRAME; i++) {
        if (antenna2[i] != implied[i]) return refuse(9, FRAME + i);
    }
    memcpy(data, found, DATA);
    return 0;
}
