/* DPCH frames in plain C: slots 0 to 14 of one format. All slots are checked before the first is written. */
#include "yardsticks.h"

#include "plain_dpch.h"

uint64_t plain_frame_map(size_t format, const uint8_t *data, size_t n_data, const uint8_t *tfci, size_t n_tfci,
                         uint8_t *out, size_t n_out, const uint8_t *commands, size_t n_commands) {
    if (format > 16) return refuse(1, 0);
    const struct format *f = &FORMATS[format];
    size_t slot_data = data_of(f);
    if (n_data != SLOTS * slot_data) return refuse(3, 0);
    if (n_tfci != (size_t)SLOTS * f->tfci) return refuse(3, 1);
    if (n_out != (size_t)SLOTS * f->slot) return refuse(3, 2);
    if (n_commands != SLOTS) return refuse(3, 3);
    for (size_t slot = 0; slot < SLOTS; slot++) {
        uint64_t refusal = check_fields(f, slot, commands[slot], data, tfci);
        if (refusal) return refusal;
    }
    for (size_t slot = 0; slot < SLOTS; slot++) {
        write_slot(f, slot, commands[slot], data + slot * slot_data, tfci + slot * f->tfci, out + slot * f->slot);
    }
    return 0;
}

uint64_t plain_frame_read(size_t format, const uint8_t *frame, size_t n_frame, uint8_t *data, size_t n_data,
                          uint8_t *tfci, size_t n_tfci, uint8_t *commands, size_t n_commands) {
    if (format > 16) return refuse(1, 0);
    const struct format *f = &FORMATS[format];
    size_t slot_data = data_of(f);
    if (n_frame != (size_t)SLOTS * f->slot) return refuse(3, 0);
    if (n_data != SLOTS * slot_data) return refuse(3, 1);
    if (n_tfci != (size_t)SLOTS * f->tfci) return refuse(3, 2);
    if (n_commands != SLOTS) return refuse(3, 3);
    for (size_t slot = 0; slot < SLOTS; slot++) {
        uint64_t refusal = check_slot(f, slot, frame + slot * f->slot, slot * f->slot);
        if (refusal) return refusal;
    }
    for (size_t slot = 0; slot < SLOTS; slot++) take_slot(f, frame, slot, slot, data, tfci, commands);
    return 0;
}

uint64_t plain_frame_lengths(size_t format, size_t run) {
    if (format >= FORMAT_COUNT) return refuse(1, 0);
    const struct format *f = &FORMATS[format];
    return tell_length((size_t[]){SLOTS * data_of(f), (size_t)SLOTS * f->tfci, (size_t)SLOTS * f->slot, SLOTS}, 4, run);
}
