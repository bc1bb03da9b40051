/* The uplink DPDCH in tight C. */
#include "uplink.h"

#include "yardsticks.h"

/* Whether all is good; then the run is copied. */
static inline bool carried(size_t format, size_t slots, const uint8_t *given, size_t n_given, uint8_t *to, size_t n_to) {
    if (format >= DPDCH_FORMATS) return false;
    size_t n = slots * DPDCH_SLOT[format];
    if (n_given != n || n_to != n || any_above(given, n, 1)) return false;
    memcpy(to, given, n);
    return true;
}

uint64_t tight_dpdch_map(size_t format, const uint8_t *data, size_t n_data, uint8_t *out, size_t n_out) {
    return carried(format, 1, data, n_data, out, n_out) ? 0 : plain_dpdch_map(format, data, n_data, out, n_out);
}

uint64_t tight_dpdch_read(size_t format, const uint8_t *run, size_t n_run, uint8_t *data, size_t n_data) {
    return carried(format, 1, run, n_run, data, n_data) ? 0 : plain_dpdch_read(format, run, n_run, data, n_data);
}

uint64_t tight_dpdch_frame_map(size_t format, const uint8_t *data, size_t n_data, uint8_t *out, size_t n_out) {
    return carried(format, SLOTS, data, n_data, out, n_out) ? 0 : plain_dpdch_frame_map(format, data, n_data, out, n_out);
}

uint64_t tight_dpdch_frame_read(size_t format, const uint8_t *frame, size_t n_frame, uint8_t *data, size_t n_data) {
    return carried(format, SLOTS, frame, n_frame, data, n_data) ? 0 : plain_dpdch_frame_read(format, frame, n_frame, data, n_data);
}

uint64_t tight_dpdch_lengths(size_t format, size_t run) {
    return format < DPDCH_FORMATS && run < 2 ? (uint64_t)10 << format << 48 : plain_dpdch_lengths(format, run);
}

uint64_t tight_dpdch_frame_lengths(size_t format, size_t run) {
    return format < DPDCH_FORMATS && run < 2 ? (uint64_t)150 << format << 48 : plain_dpdch_frame_lengths(format, run);
}
