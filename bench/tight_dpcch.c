/* The uplink DPCCH in tight C: the digits of all slots are checked in one go. */
#include "uplink.h"

#include "yardsticks.h"

/* Of digits that are not above 1: whether TPC or pilot of a slot is none that some fields give. */
static inline bool is_misfit(size_t format, size_t slot, const uint8_t *run) {
    return run[DPCCH_TPC] != run[DPCCH_TPC + 1] || memcmp(run, DPCCH_PILOT[format][slot], DPCCH[format].pilot) != 0;
}

static bool any_misfit(size_t format, const uint8_t *frame) {
    bool misfit = false;
    for (size_t slot = 0; slot < SLOTS; slot++) {
        misfit |= is_misfit(format, slot, frame + slot * DPCCH_SLOT);
    }
    return misfit;
}

uint64_t tight_dpcch_map(size_t format, size_t slot, size_t tpc, const uint8_t *tfci, size_t n_tfci, const uint8_t *fbi,
                         size_t n_fbi, uint8_t *out, size_t n_out) {
    const struct dpcch_format *f = &DPCCH[format < DPCCH_FORMATS ? format : 0];
    if (format >= DPCCH_FORMATS || slot >= SLOTS || n_tfci != f->tfci || n_fbi != f->fbi || n_out != DPCCH_SLOT || tpc > 1 ||
        any_above(tfci, n_tfci, 1) || any_above(fbi, n_fbi, 1)) {
        return plain_dpcch_map(format, slot, tpc, tfci, n_tfci, fbi, n_fbi, out, n_out);
    }
    write_dpcch(format, slot, tpc, tfci, fbi, out);
    return 0;
}

uint64_t tight_dpcch_read(size_t format, size_t slot, const uint8_t *run, size_t n_run, uint8_t *tfci, size_t n_tfci,
                          uint8_t *fbi, size_t n_fbi) {
    const struct dpcch_format *f = &DPCCH[format < DPCCH_FORMATS ? format : 0];
    if (format >= DPCCH_FORMATS || slot >= SLOTS || n_run != DPCCH_SLOT || n_tfci != f->tfci || n_fbi != f->fbi ||
        any_above(run, DPCCH_SLOT, 1) || is_misfit(format, slot, run)) {
        return plain_dpcch_read(format, slot, run, n_run, tfci, n_tfci, fbi, n_fbi);
    }
    take_dpcch(format, run, tfci, fbi);
    return (uint64_t)run[DPCCH_TPC] << 48;
}

uint64_t tight_dpcch_frame_map(size_t format, const uint8_t *tfci, size_t n_tfci, const uint8_t *fbi, size_t n_fbi,
                               uint8_t *out, size_t n_out, const uint8_t *commands, size_t n_commands) {
    const struct dpcch_format *f = &DPCCH[format < DPCCH_FORMATS ? format : 0];
    if (format >= DPCCH_FORMATS || n_tfci != (size_t)SLOTS * f->tfci || n_fbi != (size_t)SLOTS * f->fbi ||
        n_out != SLOTS * DPCCH_SLOT || n_commands != SLOTS || any_above(commands, SLOTS, 1) || any_above(tfci, n_tfci, 1) ||
        any_above(fbi, n_fbi, 1)) {
        return plain_dpcch_frame_map(format, tfci, n_tfci, fbi, n_fbi, out, n_out, commands, n_commands);
    }
    for (size_t slot = 0; slot < SLOTS; slot++) {
        write_dpcch(format, slot, commands[slot], tfci + slot * f->tfci, fbi + slot * f->fbi, out + slot * DPCCH_SLOT);
    }
    return 0;
}

uint64_t tight_dpcch_frame_read(size_t format, const uint8_t *frame, size_t n_frame, uint8_t *tfci, size_t n_tfci,
                                uint8_t *fbi, size_t n_fbi, uint8_t *commands, size_t n_commands) {
    const struct dpcch_format *f = &DPCCH[format < DPCCH_FORMATS ? format : 0];
    if (format >= DPCCH_FORMATS || n_frame != SLOTS * DPCCH_SLOT || n_tfci != (size_t)SLOTS * f->tfci ||
        n_fbi != (size_t)SLOTS * f->fbi || n_commands != SLOTS || any_above(frame, n_frame, 1) || any_misfit(format, frame)) {
        return plain_dpcch_frame_read(format, frame, n_frame, tfci, n_tfci, fbi, n_fbi, commands, n_commands);
    }
    for (size_t slot = 0; slot < SLOTS; slot++) {
        const uint8_t *run = frame + slot * DPCCH_SLOT;
        take_dpcch(format, run, tfci + slot * f->tfci, fbi + slot * f->fbi);
        commands[slot] = run[DPCCH_TPC];
    }
    return 0;
}

uint64_t tight_dpcch_lengths(size_t format, size_t run) {
    if (format >= DPCCH_FORMATS || run > 2) return plain_dpcch_lengths(format, run);
    const struct dpcch_format *f = &DPCCH[format];
    return (uint64_t)(run == 0 ? f->tfci : run == 1 ? f->fbi : DPCCH_SLOT) << 48;
}

uint64_t tight_dpcch_frame_lengths(size_t format, size_t run) {
    if (format >= DPCCH_FORMATS || run > 3) return plain_dpcch_frame_lengths(format, run);
    const struct dpcch_format *f = &DPCCH[format];
    return (uint64_t)SLOTS * (run == 0 ? f->tfci : run == 1 ? f->fbi : run == 2 ? DPCCH_SLOT : 1) << 48;
}
