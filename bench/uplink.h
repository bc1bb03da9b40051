/* What the uplink's slots and frames share in C: the tables, and the copies of one DPCCH slot. */
#ifndef UPLINK_H
#define UPLINK_H

#include <string.h>

#include "parts.h"

enum { SLOTS = 15, DPDCH_FORMATS = 7, DPCCH_FORMATS = 4, DPCCH_SLOT = 10, DPCCH_TPC = 8 };

/* Data digits of a DPDCH slot. */
static const uint16_t DPDCH_SLOT[DPDCH_FORMATS] = {10, 20, 40, 80, 160, 320, 640};

/* Fields of a DPCCH slot in their order; behind them stand two TPC digits, the last of the slot. */
struct dpcch_format {
    uint8_t pilot, tfci, fbi;
};

static const struct dpcch_format DPCCH[DPCCH_FORMATS] = {{6, 2, 0}, {8, 0, 0}, {5, 2, 1}, {7, 0, 1}};

static const uint8_t DPCCH_PILOT[DPCCH_FORMATS][SLOTS][8] = {
    {{1, 1, 1, 1, 1, 0}, {1, 0, 0, 1, 1, 0}, {1, 0, 1, 1, 0, 1}, {1, 0, 0, 1, 0, 0}, {1, 1, 0, 1, 0, 1},
     {1, 1, 1, 1, 1, 0}, {1, 1, 1, 1, 0, 0}, {1, 1, 0, 1, 0, 0}, {1, 0, 1, 1, 1, 0}, {1, 1, 1, 1, 1, 1},
     {1, 0, 1, 1, 0, 1}, {1, 1, 0, 1, 1, 1}, {1, 1, 0, 1, 0, 0}, {1, 0, 0, 1, 1, 1}, {1, 0, 0, 1, 1, 1}},
    {{1, 1, 1, 1, 1, 1, 1, 0}, {1, 0, 1, 0, 1, 1, 1, 0}, {1, 0, 1, 1, 1, 0, 1, 1}, {1, 0, 1, 0, 1, 0, 1, 0},
     {1, 1, 1, 0, 1, 0, 1, 1}, {1, 1, 1, 1, 1, 1, 1, 0}, {1, 1, 1, 1, 1, 0, 1, 0}, {1, 1, 1, 0, 1, 0, 1, 0},
     {1, 0, 1, 1, 1, 1, 1, 0}, {1, 1, 1, 1, 1, 1, 1, 1}, {1, 0, 1, 1, 1, 0, 1, 1}, {1, 1, 1, 0, 1, 1, 1, 1},
     {1, 1, 1, 0, 1, 0, 1, 0}, {1, 0, 1, 0, 1, 1, 1, 1}, {1, 0, 1, 0, 1, 1, 1, 1}},
    {{1, 1, 1, 1, 0}, {0, 0, 1, 1, 0}, {0, 1, 1, 0, 1}, {0, 0, 1, 0, 0}, {1, 0, 1, 0, 1},
     {1, 1, 1, 1, 0}, {1, 1, 1, 0, 0}, {1, 0, 1, 0, 0}, {0, 1, 1, 1, 0}, {1, 1, 1, 1, 1},
     {0, 1, 1, 0, 1}, {1, 0, 1, 1, 1}, {1, 0, 1, 0, 0}, {0, 0, 1, 1, 1}, {0, 0, 1, 1, 1}},
    {{1, 1, 1, 1, 1, 0, 1}, {1, 0, 0, 1, 1, 0, 1}, {1, 0, 1, 1, 0, 1, 1}, {1, 0, 0, 1, 0, 0, 1}, {1, 1, 0, 1, 0, 1, 1},
     {1, 1, 1, 1, 1, 0, 1}, {1, 1, 1, 1, 0, 0, 1}, {1, 1, 0, 1, 0, 0, 1}, {1, 0, 1, 1, 1, 0, 1}, {1, 1, 1, 1, 1, 1, 1},
     {1, 0, 1, 1, 0, 1, 1}, {1, 1, 0, 1, 1, 1, 1}, {1, 1, 0, 1, 0, 0, 1}, {1, 0, 0, 1, 1, 1, 1}, {1, 0, 0, 1, 1, 1, 1}},
};

static inline void write_dpcch(size_t format, size_t slot, size_t tpc, const uint8_t *tfci, const uint8_t *fbi, uint8_t *out) {
    const struct dpcch_format *f = &DPCCH[format];
    memcpy(out, DPCCH_PILOT[format][slot], f->pilot);
    memcpy(out + f->pilot, tfci, f->tfci);
    memcpy(out + f->pilot + f->tfci, fbi, f->fbi);
    memset(out + DPCCH_TPC, (int)tpc, DPCCH_SLOT - DPCCH_TPC);
}

static inline void take_dpcch(size_t format, const uint8_t *run, uint8_t *tfci, uint8_t *fbi) {
    const struct dpcch_format *f = &DPCCH[format];
    memcpy(tfci, run + f->pilot, f->tfci);
    memcpy(fbi, run + f->pilot + f->tfci, f->fbi);
}

#endif
