/* Whether the fields of DPCH slots are good, in tight C. A digit is 0 or 1, or 2 for DTX: its bit 1 says which of the two. */
#ifndef TIGHT_DPCH_H
#define TIGHT_DPCH_H

#include "dpch.h"

/* Of digits that are not above 2: whether a TFCI field mixes DTX with others. */
static inline bool is_mixed(const uint8_t *s, size_t n) {
    uint8_t other = 0;
    for (size_t i = 0; i < n; i++) {
        other |= s[i] ^ s[0];
    }
    return other & 2;
}

/* Of digits that are not above 2: whether TPC, TFCI or pilot of a slot with this pilot is none that some fields give. */
static inline bool misfits(const struct format *f, const uint8_t *wanted, const uint8_t *run) {
    const uint8_t *tpc = run + f->data1, *tfci = tpc + f->tpc, *pilot = tfci + f->tfci + f->data2;
    uint8_t unlike = tpc[0] & 2;
    for (size_t i = 0; i < f->tpc; i++) {
        unlike |= tpc[i] ^ tpc[0];
    }
    return unlike || is_mixed(tfci, f->tfci) || memcmp(pilot, wanted, f->pilot) != 0;
}

static inline bool is_misfit(const struct format *f, size_t slot, const uint8_t *run) {
    return misfits(f, pilot_of(f, slot), run);
}

#endif
