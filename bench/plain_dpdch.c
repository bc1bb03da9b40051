/* The uplink DPDCH in plain C: a slot is its data, and a frame fifteen slots. */
#include "uplink.h"

#include "yardsticks.h"

static uint64_t carry(size_t format, size_t slots, const uint8_t *given, size_t n_given, uint8_t *to, size_t n_to) {
    if (format > 6) return refuse(1, 0);
    size_t n = slots * DPDCH_SLOT[format];
    if (n_given != n) return refuse(3, 0);
    if (n_to != n) return refuse(3, 1);
    size_t i = first_above(given, n, 1);
    if (i < n) return refuse(4, i);
    memcpy(to, given, n);
    return 0;
}

uint64_t plain_dpdch_map(size_t format, const uint8_t *data, size_t n_data, uint8_t *out, size_t n_out) {
    return carry(format, 1, data, n_data, out, n_out);
}

uint64_t plain_dpdch_read(size_t format, const uint8_t *run, size_t n_run, uint8_t *data, size_t n_data) {
    return carry(format, 1, run, n_run, data, n_data);
}

uint64_t plain_dpdch_frame_map(size_t format, const uint8_t *data, size_t n_data, uint8_t *out, size_t n_out) {
    return carry(format, SLOTS, data, n_data, out, n_out);
}

uint64_t plain_dpdch_frame_read(size_t format, const uint8_t *frame, size_t n_frame, uint8_t *data, size_t n_data) {
    return carry(format, SLOTS, frame, n_frame, data, n_data);
}

static uint64_t length(size_t format, size_t slots, size_t run) {
    if (format >= DPDCH_FORMATS) return refuse(1, 0);
    size_t n = slots * DPDCH_SLOT[format];
    return tell_length((size_t[]){n, n}, 2, run);
}

uint64_t plain_dpdch_lengths(size_t format, size_t run) {
    return length(format, 1, run);
}

uint64_t plain_dpdch_frame_lengths(size_t format, size_t run) {
    return length(format, SLOTS, run);
}
