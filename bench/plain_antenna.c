/* DPCH slots on two antennas in plain C. */
#include "antenna.h"
#include "plain_dpch.h"
#include "yardsticks.h"

uint64_t plain_slot_map_antenna(size_t format, size_t slot, size_t antenna, size_t tpc, const uint8_t *data, size_t n_data,
                                const uint8_t *tfci, size_t n_tfci, uint8_t *out, size_t n_out) {
    if (format > 16) return refuse(1, 0);
    if (slot > 14) return refuse(2, 0);
    if (antenna > 1) return refuse(11, 0);
    const struct format *f = &FORMATS[format];
    if (n_data != data_of(f)) return refuse(3, 0);
    if (n_tfci != f->tfci) return refuse(3, 1);
    if (n_out != f->slot) return refuse(3, 2);
    uint64_t refusal = check_fields(f, 0, tpc, data, tfci);
    if (refusal) return refusal;
    write_antenna(f, slot, antenna, tpc, data, tfci, out);
    return 0;
}

uint64_t plain_slot_read_antennas(size_t format, size_t slot, const uint8_t *first, size_t n_first, const uint8_t *second,
                                  size_t n_second, uint8_t *data, size_t n_data, uint8_t *tfci, size_t n_tfci) {
    if (format > 16) return refuse(1, 0);
    if (slot > 14) return refuse(2, 0);
    const struct format *f = &FORMATS[format];
    if (n_first != f->slot) return refuse(3, 0);
    if (n_second != f->slot) return refuse(3, 1);
    if (n_data != data_of(f)) return refuse(3, 2);
    if (n_tfci != f->tfci) return refuse(3, 3);
    size_t i = first_above(first, n_first, 2);
    if (i < n_first) return refuse(4, i);
    i = first_above(second, n_second, 2);
    if (i < n_second) return refuse(4, n_first + i);
    uint64_t refusal = check_slot(f, slot, first, 0);
    if (refusal) return refusal;
    uint8_t implied[LONGEST];
    second_slot(f, slot, first, implied);
    for (i = 0; i < n_second; i++) {
        if (second[i] != implied[i]) return refuse(9, n_first + i);
    }
    take_fields(f, first, data, tfci);
    return (uint64_t)first[f->data1] << 48;
}
