/* The checks of DPCH slots in plain C. */
#ifndef PLAIN_DPCH_H
#define PLAIN_DPCH_H

#include "dpch.h"

/* The first TFCI digit whose kind, DTX or not, is not the first one's, or n. */
static inline size_t first_mixed(const uint8_t *s, size_t n) {
    for (size_t i = 0; i < n; i++) {
        if ((s[i] == 2) != (s[0] == 2)) {
            return i;
        }
    }
    return n;
}

/* The checks of a slot's fields before it is mapped. The fields are number k of their runs, and places count from
 * the start of those; for a slot alone k is 0. */
static inline uint64_t check_fields(const struct format *f, size_t k, size_t tpc, const uint8_t *data,
                                    const uint8_t *tfci) {
    size_t n_data = data_of(f), n_tfci = f->tfci;
    size_t data_at = k * n_data, tfci_at = k * n_tfci;
    if (tpc > 1) return refuse(5, k);
    size_t i = first_above(tfci + tfci_at, n_tfci, 2);
    if (i < n_tfci) return refuse(4, tfci_at + i);
    i = first_mixed(tfci + tfci_at, n_tfci);
    if (i < n_tfci) return refuse(6, tfci_at + i);
    i = first_above(data + data_at, n_data, 2);
    if (i < n_data) return refuse(4, data_at + i);
    return 0;
}

/* The checks of a slot with this pilot before it is read. It begins at `begin` of the run that places count in. */
static inline uint64_t check_digits(const struct format *f, const uint8_t *pilot, const uint8_t *run, size_t begin) {
    size_t i = first_above(run, f->slot, 2);
    if (i < f->slot) return refuse(4, begin + i);
    size_t at = f->data1;
    for (i = 0; i < f->tpc; i++) {
        if (run[at + i] == 2 || run[at + i] != run[at]) return refuse(5, begin + at + i);
    }
    at += f->tpc;
    i = first_mixed(run + at, f->tfci);
    if (i < f->tfci) return refuse(6, begin + at + i);
    at += (size_t)f->tfci + f->data2;
    for (i = 0; i < f->pilot; i++) {
        if (run[at + i] != pilot[i]) return refuse(7, begin + at + i);
    }
    return 0;
}

static inline uint64_t check_slot(const struct format *f, size_t slot, const uint8_t *run, size_t begin) {
    return check_digits(f, pilot_of(f, slot), run, begin);
}

#endif
