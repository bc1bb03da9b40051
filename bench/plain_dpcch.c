/* The uplink DPCCH in plain C. All slots of a frame are checked before the first is written. */
#include "uplink.h"

#include "yardsticks.h"

/* The checks of a slot's fields before it is mapped. The fields are number k of their runs, and places count from the
 * start of those; for a slot alone k is 0. */
static uint64_t check_fields(const struct dpcch_format *f, size_t k, size_t tpc, const uint8_t *tfci, const uint8_t *fbi) {
    size_t tfci_at = k * f->tfci, fbi_at = k * f->fbi;
    if (tpc > 1) return refuse(5, k);
    size_t i = first_above(tfci + tfci_at, f->tfci, 1);
    if (i < f->tfci) return refuse(4, tfci_at + i);
    i = first_above(fbi + fbi_at, f->fbi, 1);
    if (i < f->fbi) return refuse(4, fbi_at + i);
    return 0;
}

/* The checks of a slot before it is read. It begins at `begin` of the run that places count in. */
static uint64_t check_slot(size_t format, size_t slot, const uint8_t *run, size_t begin) {
    size_t i = first_above(run, DPCCH_SLOT, 1);
    if (i < DPCCH_SLOT) return refuse(4, begin + i);
    for (i = DPCCH_TPC; i < DPCCH_SLOT; i++) {
        if (run[i] != run[DPCCH_TPC]) return refuse(5, begin + i);
    }
    for (i = 0; i < DPCCH[format].pilot; i++) {
        if (run[i] != DPCCH_PILOT[format][slot][i]) return refuse(7, begin + i);
    }
    return 0;
}

uint64_t plain_dpcch_map(size_t format, size_t slot, size_t tpc, const uint8_t *tfci, size_t n_tfci, const uint8_t *fbi,
                         size_t n_fbi, uint8_t *out, size_t n_out) {
    if (format > 3) return refuse(1, 0);
    if (slot > 14) return refuse(2, 0);
    const struct dpcch_format *f = &DPCCH[format];
    if (n_tfci != f->tfci) return refuse(3, 0);
    if (n_fbi != f->fbi) return refuse(3, 1);
    if (n_out != DPCCH_SLOT) return refuse(3, 2);
    uint64_t refusal = check_fields(f, 0, tpc, tfci, fbi);
    if (refusal) return refusal;
    write_dpcch(format, slot, tpc, tfci, fbi, out);
    return 0;
}

uint64_t plain_dpcch_read(size_t format, size_t slot, const uint8_t *run, size_t n_run, uint8_t *tfci, size_t n_tfci,
                          uint8_t *fbi, size_t n_fbi) {
    if (format > 3) return refuse(1, 0);
    if (slot > 14) return refuse(2, 0);
    const struct dpcch_format *f = &DPCCH[format];
    if (n_run != DPCCH_SLOT) return refuse(3, 0);
    if (n_tfci != f->tfci) return refuse(3, 1);
    if (n_fbi != f->fbi) return refuse(3, 2);
    uint64_t refusal = check_slot(format, slot, run, 0);
    if (refusal) return refusal;
    take_dpcch(format, run, tfci, fbi);
    return (uint64_t)run[DPCCH_TPC] << 48;
}

uint64_t plain_dpcch_frame_map(size_t format, const uint8_t *tfci, size_t n_tfci, const uint8_t *fbi, size_t n_fbi,
                               uint8_t *out, size_t n_out, const uint8_t *commands, size_t n_commands) {
    if (format > 3) return refuse(1, 0);
    const struct dpcch_format *f = &DPCCH[format];
    if (n_tfci != (size_t)SLOTS * f->tfci) return refuse(3, 0);
    if (n_fbi != (size_t)SLOTS * f->fbi) return refuse(3, 1);
    if (n_out != SLOTS * DPCCH_SLOT) return refuse(3, 2);
    if (n_commands != SLOTS) return refuse(3, 3);
    for (size_t slot = 0; slot < SLOTS; slot++) {
        uint64_t refusal = check_fields(f, slot, commands[slot], tfci, fbi);
        if (refusal) return refusal;
    }
    for (size_t slot = 0; slot < SLOTS; slot++) {
        write_dpcch(format, slot, commands[slot], tfci + slot * f->tfci, fbi + slot * f->fbi, out + slot * DPCCH_SLOT);
    }
    return 0;
}

uint64_t plain_dpcch_frame_read(size_t format, const uint8_t *frame, size_t n_frame, uint8_t *tfci, size_t n_tfci,
                                uint8_t *fbi, size_t n_fbi, uint8_t *commands, size_t n_commands) {
    if (format > 3) return refuse(1, 0);
    const struct dpcch_format *f = &DPCCH[format];
    if (n_frame != SLOTS * DPCCH_SLOT) return refuse(3, 0);
    if (n_tfci != (size_t)SLOTS * f->tfci) return refuse(3, 1);
    if (n_fbi != (size_t)SLOTS * f->fbi) return refuse(3, 2);
    if (n_commands != SLOTS) return refuse(3, 3);
    for (size_t slot = 0; slot < SLOTS; slot++) {
        uint64_t refusal = check_slot(format, slot, frame + slot * DPCCH_SLOT, slot * DPCCH_SLOT);
        if (refusal) return refusal;
    }
    for (size_t slot = 0; slot < SLOTS; slot++) {
        const uint8_t *run = frame + slot * DPCCH_SLOT;
        take_dpcch(format, run, tfci + slot * f->tfci, fbi + slot * f->fbi);
        commands[slot] = run[DPCCH_TPC];
    }
    return 0;
}

uint64_t plain_dpcch_lengths(size_t format, size_t run) {
    if (format >= DPCCH_FORMATS) return refuse(1, 0);
    const struct dpcch_format *f = &DPCCH[format];
    return tell_length((size_t[]){f->tfci, f->fbi, DPCCH_SLOT}, 3, run);
}

uint64_t plain_dpcch_frame_lengths(size_t format, size_t run) {
    if (format >= DPCCH_FORMATS) return refuse(1, 0);
    const struct dpcch_format *f = &DPCCH[format];
    return tell_length((size_t[]){(size_t)SLOTS * f->tfci, (size_t)SLOTS * f->fbi, SLOTS * DPCCH_SLOT, SLOTS}, 4, run);
}
