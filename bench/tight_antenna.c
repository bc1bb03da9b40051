/* DPCH slots on two antennas in tight C. */
#include "antenna.h"
#include "tight_dpch.h"
#include "yardsticks.h"

uint64_t tight_slot_map_antenna(size_t format, size_t slot, size_t antenna, size_t tpc, const uint8_t *data, size_t n_data,
                                const uint8_t *tfci, size_t n_tfci, uint8_t *out, size_t n_out) {
    const struct format *f = &FORMATS[format < FORMAT_COUNT ? format : 0];
    if (format >= FORMAT_COUNT || slot >= SLOTS || antenna > 1 || n_data != data_of(f) || n_tfci != f->tfci ||
        n_out != f->slot || tpc > 1 || any_above(tfci, n_tfci, 2) || is_mixed(tfci, n_tfci) || any_above(data, n_data, 2)) {
        return plain_slot_map_antenna(format, slot, antenna, tpc, data, n_data, tfci, n_tfci, out, n_out);
    }
    write_antenna(f, slot, antenna, tpc, data, tfci, out);
    return 0;
}

uint64_t tight_slot_read_antennas(size_t format, size_t slot, const uint8_t *first, size_t n_first, const uint8_t *second,
                                  size_t n_second, uint8_t *data, size_t n_data, uint8_t *tfci, size_t n_tfci) {
    const struct format *f = &FORMATS[format < FORMAT_COUNT ? format : 0];
    if (format >= FORMAT_COUNT || slot >= SLOTS || n_first != f->slot || n_second != f->slot || n_data != data_of(f) ||
        n_tfci != f->tfci || any_above(first, n_first, 2) || is_misfit(f, slot, first)) {
        return plain_slot_read_antennas(format, slot, first, n_first, second, n_second, data, n_data, tfci, n_tfci);
    }
    uint8_t implied[LONGEST];
    second_slot(f, slot, first, implied);
    if (memcmp(implied, second, n_second) != 0) {
        return plain_slot_read_antennas(format, slot, first, n_first, second, n_second, data, n_data, tfci, n_tfci);
    }
    take_fields(f, first, data, tfci);
    return (uint64_t)first[f->data1] << 48;
}
