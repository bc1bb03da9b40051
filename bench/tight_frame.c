/* DPCH frames in tight C: the digits of all slots are checked in one go. */
#include "tight_dpch.h"

#include "yardsticks.h"

static bool any_mixed(const uint8_t *tfci, size_t n) {
    bool mixed = false;
    for (size_t slot = 0; slot < SLOTS; slot++) {
        mixed |= is_mixed(tfci + slot * n, n);
    }
    return mixed;
}

uint64_t tight_frame_map(size_t format, const uint8_t *data, size_t n_data, const uint8_t *tfci, size_t n_tfci,
                         uint8_t *out, size_t n_out, const uint8_t *commands, size_t n_commands) {
    const struct format *f = &FORMATS[format < FORMAT_COUNT ? format : 0];
    size_t n = data_of(f);
    if (format >= FORMAT_COUNT || n_data != SLOTS * n || n_tfci != (size_t)SLOTS * f->tfci ||
        n_out != (size_t)SLOTS * f->slot || n_commands != SLOTS || any_above(commands, SLOTS, 1) ||
        any_above(tfci, n_tfci, 2) || any_mixed(tfci, f->tfci) || any_above(data, n_data, 2)) {
        return plain_frame_map(format, data, n_data, tfci, n_tfci, out, n_out, commands, n_commands);
    }
    for (size_t slot = 0; slot < SLOTS; slot++) {
        write_slot(f, slot, commands[slot], data + slot * n, tfci + slot * f->tfci, out + slot * f->slot);
    }
    return 0;
}

static bool any_misfit(const struct format *f, const uint8_t *frame) {
    bool misfit = false;
    for (size_t slot = 0; slot < SLOTS; slot++) {
        misfit |= is_misfit(f, slot, frame + slot * f->slot);
    }
    return misfit;
}

uint64_t tight_frame_read(size_t format, const uint8_t *frame, size_t n_frame, uint8_t *data, size_t n_data,
                          uint8_t *tfci, size_t n_tfci, uint8_t *commands, size_t n_commands) {
    const struct format *f = &FORMATS[format < FORMAT_COUNT ? format : 0];
    size_t n = data_of(f);
    if (format >= FORMAT_COUNT || n_frame != (size_t)SLOTS * f->slot || n_data != SLOTS * n ||
        n_tfci != (size_t)SLOTS * f->tfci || n_commands != SLOTS || any_above(frame, n_frame, 2) ||
        any_misfit(f, frame)) {
        return plain_frame_read(format, frame, n_frame, data, n_data, tfci, n_tfci, commands, n_commands);
    }
    for (size_t slot = 0; slot < SLOTS; slot++) take_slot(f, frame, slot, slot, data, tfci, commands);
    return 0;
}

uint64_t tight_frame_lengths(size_t format, size_t run) {
    if (format >= FORMAT_COUNT || run > 3) return plain_frame_lengths(format, run);
    const struct format *f = &FORMATS[format];
    return (uint64_t)(SLOTS * (run == 0 ? data_of(f) : run == 1 ? f->tfci : run == 2 ? f->slot : 1)) << 48;
}
