/* What both yardsticks of the P-CCPCH share: the frames of its data. */
#ifndef PCCPCH_H
#define PCCPCH_H

#include <string.h>

#include "parts.h"

enum { SLOTS = 15, SLOT = 20, SLOT_DATA = 18, DATA = SLOTS * SLOT_DATA, FRAME = SLOTS * SLOT, IN_FOURS = 268 };

/* What antenna 2 sends for data of 0 and 1: STTD in fours over the whole frame's data, the last two as they are. */
static inline void second_antenna(const uint8_t *data, uint8_t *other) {
    for (size_t d = 0; d < IN_FOURS; d += 4) {
        other[d] = data[d + 2] ^ 1;
        other[d + 1] = data[d + 3];
        other[d + 2] = data[d];
        other[d + 3] = data[d + 1] ^ 1;
    }
    memcpy(other + IN_FOURS, data + IN_FOURS, DATA - IN_FOURS);
}

/* Each slot begins with two digits of DTX. */
static inline void put_frame(const uint8_t *data, uint8_t *frame) {
    for (size_t slot = 0; slot < SLOTS; slot++) {
        frame[SLOT * slot] = DTX;
        frame[SLOT * slot + 1] = DTX;
        memcpy(frame + SLOT * slot + 2, data + SLOT_DATA * slot, SLOT_DATA);
    }
}

/* The data of a frame. */
static inline void take_data(const uint8_t *frame, uint8_t *data) {
    for (size_t slot = 0; slot < SLOTS; slot++) {
        memcpy(data + SLOT_DATA * slot, frame + SLOT * slot + 2, SLOT_DATA);
    }
}

#endif
