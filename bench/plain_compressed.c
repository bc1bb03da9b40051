/* Compressed DPCH frames in plain C. All slots are checked before the first is written. */
#include "yardsticks.h"

#include "compressed.h"
#include "plain_dpch.h"

uint64_t plain_compressed_map(size_t format, size_t kind, size_t first, size_t missing, const uint8_t *data, size_t n_data,
                              const uint8_t *tfci, size_t n_tfci, uint8_t *out, size_t n_out, const uint8_t *commands,
                              size_t n_commands) {
    const struct format *f = compressed_row(format, kind);
    if (f->slot == 0) return refuse(1, 0);
    if (!gap_stands(first, missing)) return refuse(27, 0);
    size_t sent = SLOTS - missing, slot_data = data_of(f);
    if (n_data != sent * slot_data) return refuse(3, 0);
    if (n_tfci != sent * f->tfci) return refuse(3, 1);
    if (n_out != (size_t)SLOTS * f->slot) return refuse(3, 2);
    if (n_commands != sent) return refuse(3, 3);
    for (size_t i = 0; i < sent; i++) {
        uint64_t refusal = check_fields(f, i, commands[i], data, tfci);
        if (refusal) return refusal;
    }
    for (size_t slot = 0, i = 0; slot < SLOTS; slot++) {
        if (is_missing(first, missing, slot)) {
            memset(out + slot * f->slot, DTX, f->slot);
            continue;
        }
        write_fields(f, compressed_pilot(f, kind, slot), commands[i], data + i * slot_data, tfci + i * f->tfci, out + slot * f->slot);
        i++;
    }
    return 0;
}

/* The checks of a missing slot that begins at `begin` of the frame. */
static uint64_t check_missing(const struct format *f, const uint8_t *run, size_t begin) {
    size_t i = first_above(run, f->slot, 2);
    if (i < f->slot) return refuse(4, begin + i);
    for (i = 0; i < f->slot; i++) {
        if (run[i] != DTX) return refuse(9, begin + i);
    }
    return 0;
}

uint64_t plain_compressed_read(size_t format, size_t kind, size_t first, size_t missing, const uint8_t *frame, size_t n_frame,
                               uint8_t *data, size_t n_data, uint8_t *tfci, size_t n_tfci, uint8_t *commands,
                               size_t n_commands) {
    const struct format *f = compressed_row(format, kind);
    if (f->slot == 0) return refuse(1, 0);
    if (!gap_stands(first, missing)) return refuse(27, 0);
    size_t sent = SLOTS - missing, slot_data = data_of(f);
    if (n_frame != (size_t)SLOTS * f->slot) return refuse(3, 0);
    if (n_data != sent * slot_data) return refuse(3, 1);
    if (n_tfci != sent * f->tfci) return refuse(3, 2);
    if (n_commands != sent) return refuse(3, 3);
    for (size_t slot = 0; slot < SLOTS; slot++) {
        const uint8_t *run = frame + slot * f->slot;
        uint64_t refusal = is_missing(first, missing, slot) ? check_missing(f, run, slot * f->slot)
                                                            : check_digits(f, compressed_pilot(f, kind, slot), run, slot * f->slot);
        if (refusal) return refusal;
    }
    for (size_t slot = 0, i = 0; slot < SLOTS; slot++) {
        if (!is_missing(first, missing, slot)) take_slot(f, frame, slot, i++, data, tfci, commands);
    }
    return 0;
}

uint64_t plain_compressed_lengths(size_t format, size_t kind, size_t first, size_t missing, size_t run) {
    const struct format *f = compressed_row(format, kind);
    if (f->slot == 0) return refuse(1, 0);
    if (!gap_stands(first, missing)) return refuse(27, 0);
    size_t sent = SLOTS - missing;
    return tell_length((size_t[]){sent * data_of(f), sent * f->tfci, (size_t)SLOTS * f->slot, sent}, 4, run);
}
