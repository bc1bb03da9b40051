/* What both yardsticks of DPCH slots on two antennas share: table 14, and antenna 2's slot for antenna 1's. */
#ifndef ANTENNA_H
#define ANTENNA_H

#include "dpch.h"

enum { LONGEST = 1280 };

static const uint8_t PILOT2[SLOTS][16] = {
    {1, 1, 0, 0, 0, 0, 1, 0, 1, 1, 0, 0, 0, 0, 1, 0}, {1, 1, 0, 0, 0, 0, 0, 1, 1, 1, 1, 0, 0, 0, 1, 0},
    {1, 1, 1, 1, 0, 0, 0, 0, 1, 1, 1, 0, 0, 0, 1, 1}, {1, 1, 1, 0, 0, 0, 0, 1, 1, 1, 0, 0, 0, 0, 0, 0},
    {1, 1, 1, 1, 0, 0, 1, 1, 1, 1, 0, 1, 0, 0, 1, 0}, {1, 1, 0, 0, 0, 0, 1, 0, 1, 1, 1, 1, 0, 0, 0, 0},
    {1, 1, 1, 0, 0, 0, 1, 0, 1, 1, 0, 1, 0, 0, 1, 1}, {1, 1, 1, 0, 0, 0, 1, 1, 1, 1, 1, 0, 0, 0, 1, 1},
    {1, 1, 0, 0, 0, 0, 0, 0, 1, 1, 0, 1, 0, 0, 0, 1}, {1, 1, 0, 1, 0, 0, 1, 0, 1, 1, 0, 1, 0, 0, 0, 1},
    {1, 1, 1, 1, 0, 0, 0, 0, 1, 1, 0, 0, 0, 0, 1, 0}, {1, 1, 0, 1, 0, 0, 1, 1, 1, 1, 0, 0, 0, 0, 0, 1},
    {1, 1, 1, 0, 0, 0, 1, 1, 1, 1, 1, 1, 0, 0, 0, 0}, {1, 1, 0, 1, 0, 0, 0, 1, 1, 1, 1, 0, 0, 0, 0, 1},
    {1, 1, 0, 1, 0, 0, 0, 1, 1, 1, 1, 1, 0, 0, 1, 1},
};

static const uint8_t FOUR2[SLOTS][4] = {
    {0, 1, 1, 0}, {1, 0, 1, 0}, {1, 1, 1, 0}, {1, 0, 1, 0}, {0, 0, 1, 0}, {0, 1, 1, 0},
    {0, 1, 1, 0}, {0, 0, 1, 0}, {1, 1, 1, 0}, {0, 1, 1, 0}, {1, 1, 1, 0}, {0, 0, 1, 0},
    {0, 0, 1, 0}, {1, 0, 1, 0}, {1, 0, 1, 0},
};

/* The bar of a digit that is not above 2. The lowest bit changes, and what would be 3 is 2 again. */
static inline uint8_t bar_of(uint8_t digit) {
    uint8_t changed = digit ^ 1;
    return changed < 2 ? changed : 2;
}

static inline void encode(const uint8_t *first, size_t n, uint8_t *second) {
    for (size_t i = 0; i + 4 <= n; i += 4) {
        second[i] = bar_of(first[i + 2]);
        second[i + 1] = first[i + 3];
        second[i + 2] = first[i];
        second[i + 3] = bar_of(first[i + 1]);
    }
}

/* At spreading factor 512 TPC is the same on both antennas; a pilot of two bits is encoded with the data before it. */
static inline void second_slot(const struct format *f, size_t slot, const uint8_t *first, uint8_t *second) {
    size_t from = f->slot == 10 ? 2 : 0, to = f->pilot == 2 ? f->slot : (size_t)(f->slot - f->pilot);
    memcpy(second, first, from);
    encode(first + from, to - from, second + from);
    memcpy(second + to, f->pilot == 4 ? FOUR2[slot] : PILOT2[slot], f->slot - to);
}

static inline void write_antenna(const struct format *f, size_t slot, size_t antenna, size_t tpc, const uint8_t *data,
                                 const uint8_t *tfci, uint8_t *out) {
    if (antenna == 0) {
        write_slot(f, slot, tpc, data, tfci, out);
        return;
    }
    uint8_t first[LONGEST];
    write_slot(f, slot, tpc, data, tfci, first);
    second_slot(f, slot, first, out);
}

#endif
