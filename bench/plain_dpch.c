/* DPCH slots in plain C. */
#include "yardsticks.h"

#include "plain_dpch.h"

uint64_t plain_slot_map(size_t format, size_t slot, size_t tpc, const uint8_t *data, size_t n_data, const uint8_t *tfci,
                        size_t n_tfci, uint8_t *out, size_t n_out) {
    if (format > 16) return refuse(1, 0);
    if (slot > 14) return refuse(2, 0);
    const struct format *f = &FORMATS[format];
    if (n_data != data_of(f)) return refuse(3, 0);
    if (n_tfci != f->tfci) return refuse(3, 1);
    if (n_out != f->slot) return refuse(3, 2);
    uint64_t refusal = check_fields(f, 0, tpc, data, tfci);
    if (refusal) return refusal;
    write_slot(f, slot, tpc, data, tfci, out);
    return 0;
}

uint64_t plain_slot_read(size_t format, size_t slot, const uint8_t *run, size_t n_run, uint8_t *data, size_t n_data,
                         uint8_t *tfci, size_t n_tfci) {
    if (format > 16) return refuse(1, 0);
    if (slot > 14) return refuse(2, 0);
    const struct format *f = &FORMATS[format];
    if (n_run != f->slot) return refuse(3, 0);
    if (n_data != data_of(f)) return refuse(3, 1);
    if (n_tfci != f->tfci) return refuse(3, 2);
    uint64_t refusal = check_slot(f, slot, run, 0);
    if (refusal) return refusal;
    take_fields(f, run, data, tfci);
    return (uint64_t)run[f->data1] << 48;
}

uint64_t plain_slot_lengths(size_t format, size_t run) {
    if (format >= FORMAT_COUNT) return refuse(1, 0);
    const struct format *f = &FORMATS[format];
    return tell_length((size_t[]){data_of(f), f->tfci, f->slot}, 3, run);
}
