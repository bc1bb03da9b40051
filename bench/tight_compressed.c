/* Compressed DPCH frames in tight C: the digits of all slots are checked in one go. */
#include "compressed.h"
#include "tight_dpch.h"

#include "yardsticks.h"

static bool any_mixed(const uint8_t *tfci, size_t n, size_t slots) {
    bool mixed = false;
    for (size_t i = 0; i < slots; i++) {
        mixed |= is_mixed(tfci + i * n, n);
    }
    return mixed;
}

uint64_t tight_compressed_map(size_t format, size_t kind, size_t first, size_t missing, const uint8_t *data, size_t n_data,
                              const uint8_t *tfci, size_t n_tfci, uint8_t *out, size_t n_out, const uint8_t *commands,
                              size_t n_commands) {
    const struct format *f = compressed_row(format, kind);
    size_t sent = SLOTS - missing, n = data_of(f);
    if (f->slot == 0 || !gap_stands(first, missing) || n_data != sent * n || n_tfci != sent * f->tfci ||
        n_out != (size_t)SLOTS * f->slot || n_commands != sent || any_above(commands, sent, 1) || any_above(tfci, n_tfci, 2) ||
        any_mixed(tfci, f->tfci, sent) || any_above(data, n_data, 2)) {
        return plain_compressed_map(format, kind, first, missing, data, n_data, tfci, n_tfci, out, n_out, commands, n_commands);
    }
    for (size_t slot = 0, i = 0; slot < SLOTS; slot++) {
        uint8_t *run = out + slot * f->slot;
        if (is_missing(first, missing, slot)) {
            memset(run, DTX, f->slot);
            continue;
        }
        write_fields(f, compressed_pilot(f, kind, slot), commands[i], data + i * n, tfci + i * f->tfci, run);
        i++;
    }
    return 0;
}

/* Of digits that are not above 2: whether some are not DTX. */
static bool any_spoken(const uint8_t *s, size_t n) {
    uint8_t other = 0;
    for (size_t i = 0; i < n; i++) {
        other |= s[i] ^ DTX;
    }
    return other;
}

static bool any_misfit(const struct format *f, size_t kind, size_t first, size_t missing, const uint8_t *frame) {
    bool misfit = false;
    for (size_t slot = 0; slot < SLOTS; slot++) {
        const uint8_t *run = frame + slot * f->slot;
        misfit |= is_missing(first, missing, slot) ? any_spoken(run, f->slot) : misfits(f, compressed_pilot(f, kind, slot), run);
    }
    return misfit;
}

uint64_t tight_compressed_read(size_t format, size_t kind, size_t first, size_t missing, const uint8_t *frame, size_t n_frame,
                               uint8_t *data, size_t n_data, uint8_t *tfci, size_t n_tfci, uint8_t *commands,
                               size_t n_commands) {
    const struct format *f = compressed_row(format, kind);
    size_t sent = SLOTS - missing, n = data_of(f);
    if (f->slot == 0 || !gap_stands(first, missing) || n_frame != (size_t)SLOTS * f->slot || n_data != sent * n ||
        n_tfci != sent * f->tfci || n_commands != sent || any_above(frame, n_frame, 2) ||
        any_misfit(f, kind, first, missing, frame)) {
        return plain_compressed_read(format, kind, first, missing, frame, n_frame, data, n_data, tfci, n_tfci, commands, n_commands);
    }
    for (size_t slot = 0, i = 0; slot < SLOTS; slot++) {
        if (!is_missing(first, missing, slot)) take_slot(f, frame, slot, i++, data, tfci, commands);
    }
    return 0;
}

uint64_t tight_compressed_lengths(size_t format, size_t kind, size_t first, size_t missing, size_t run) {
    const struct format *f = compressed_row(format, kind);
    if (f->slot == 0 || !gap_stands(first, missing) || run > 3) return plain_compressed_lengths(format, kind, first, missing, run);
    size_t slots = run == 2 ? SLOTS : SLOTS - missing;
    return (uint64_t)(slots * (run == 0 ? data_of(f) : run == 1 ? f->tfci : run == 2 ? f->slot : 1)) << 48;
}
