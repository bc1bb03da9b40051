/* DPCH slots in tight C. */
#include "tight_dpch.h"

#include "yardsticks.h"

uint64_t tight_slot_map(size_t format, size_t slot, size_t tpc, const uint8_t *data, size_t n_data, const uint8_t *tfci,
                        size_t n_tfci, uint8_t *out, size_t n_out) {
    const struct format *f = &FORMATS[format < FORMAT_COUNT ? format : 0];
    if (format >= FORMAT_COUNT || slot >= SLOTS || n_data != data_of(f) || n_tfci != f->tfci || n_out != f->slot || tpc > 1 ||
        any_above(tfci, n_tfci, 2) || is_mixed(tfci, n_tfci) || any_above(data, n_data, 2)) {
        return plain_slot_map(format, slot, tpc, data, n_data, tfci, n_tfci, out, n_out);
    }
    write_slot(f, slot, tpc, data, tfci, out);
    return 0;
}

uint64_t tight_slot_read(size_t format, size_t slot, const uint8_t *run, size_t n_run, uint8_t *data, size_t n_data,
                         uint8_t *tfci, size_t n_tfci) {
    const struct format *f = &FORMATS[format < FORMAT_COUNT ? format : 0];
    if (format >= FORMAT_COUNT || slot >= SLOTS || n_run != f->slot || n_data != data_of(f) || n_tfci != f->tfci ||
        any_above(run, n_run, 2) || is_misfit(f, slot, run)) {
        return plain_slot_read(format, slot, run, n_run, data, n_data, tfci, n_tfci);
    }
    take_fields(f, run, data, tfci);
    return (uint64_t)run[f->data1] << 48;
}

uint64_t tight_slot_lengths(size_t format, size_t run) {
    if (format >= FORMAT_COUNT || run > 2) return plain_slot_lengths(format, run);
    const struct format *f = &FORMATS[format];
    return (uint64_t)(run == 0 ? data_of(f) : run == 1 ? f->tfci : f->slot) << 48;
}
