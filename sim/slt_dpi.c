/* The library for a SystemVerilog simulator: each call of slt.h behind DPI-C (slt_pkg.sv imports them). C and C++ at once, since Verilator
 * compiles a .c file with the C++ compiler.
 *
 * A simulator hands over arrays of fixed size, and how long a run is depends on a format, so a count stands beside each array. Where an
 * array has fewer elements than its count says, or its elements do not stand side by side as the C type has them, the library is owed
 * something that is not there: it is not called, and the answer is SLT_DPI_ARRAY. */
#include <stddef.h>
#include <stdint.h>

#include "slt.h"
#include "svdpi.h"

#define SLT_DPI_ARRAY 0xffffu

#ifdef __cplusplus
extern "C" {
#endif

/* Whether an array has the elements that are lent of it; then *run is the first of them. */
static int lent(const svOpenArrayHandle array, unsigned n, size_t element, void **run) {
    *run = n == 0 ? NULL : svGetArrayPtr(array);
    if (n == 0) return 1;
    return svDimensions(array) == 1 && *run != NULL && n <= (unsigned)svSize(array, 1) &&
           (size_t)svSizeOfArray(array) == (size_t)svSize(array, 1) * element;
}

/* A run as a parameter, an array and its count; the look at it; and the run as the library takes it. */
#define ARRAY(run) const svOpenArrayHandle run, unsigned n_##run
#define LENT(type, run)                                                             \
    void *run##_array;                                                              \
    if (!lent(run, n_##run, sizeof(type), &run##_array)) return SLT_DPI_ARRAY;      \
    type *const run##_ = (type *)run##_array
#define RUN(run) run##_, n_##run

uint64_t slt_dpi_pich_q(uint64_t np, uint64_t pi, uint64_t sfn) {
    return slt_pich_q(np, pi, sfn);
}

uint64_t slt_dpi_pich_map(uint64_t np, ARRAY(indicators), ARRAY(frame)) {
    LENT(uint8_t, indicators); LENT(uint8_t, frame);
    return slt_pich_map(np, RUN(indicators), RUN(frame));
}

uint64_t slt_dpi_pich_read(uint64_t np, ARRAY(frame), ARRAY(indicators)) {
    LENT(uint8_t, frame); LENT(uint8_t, indicators);
    return slt_pich_read(np, RUN(frame), RUN(indicators));
}

uint64_t slt_dpi_wake_run(uint64_t np, uint64_t pi, ARRAY(frames), uint32_t *read, uint32_t *woke, uint32_t *next_sfn) {
    LENT(uint8_t, frames);
    return slt_wake_run(np, pi, RUN(frames), read, woke, next_sfn);
}

uint64_t slt_dpi_wake_step(uint32_t *read, uint32_t *woke, uint32_t *next_sfn, uint64_t np, uint64_t pi, ARRAY(frame)) {
    LENT(uint8_t, frame);
    slt_tally tally = {*read, *woke, *next_sfn};
    uint64_t answer = slt_wake_step(&tally, np, pi, RUN(frame));
    *read = tally.read;
    *woke = tally.woke;
    *next_sfn = tally.next_sfn;
    return answer;
}

uint64_t slt_dpi_slot_map(uint64_t format, uint64_t slot, uint64_t tpc, ARRAY(data), ARRAY(tfci), ARRAY(out)) {
    LENT(uint8_t, data); LENT(uint8_t, tfci); LENT(uint8_t, out);
    return slt_slot_map(format, slot, tpc, RUN(data), RUN(tfci), RUN(out));
}

uint64_t slt_dpi_slot_read(uint64_t format, uint64_t slot, ARRAY(run), ARRAY(data), ARRAY(tfci)) {
    LENT(uint8_t, run); LENT(uint8_t, data); LENT(uint8_t, tfci);
    return slt_slot_read(format, slot, RUN(run), RUN(data), RUN(tfci));
}

uint64_t slt_dpi_slot_map_antenna(uint64_t format, uint64_t slot, uint64_t antenna, uint64_t tpc, ARRAY(data), ARRAY(tfci), ARRAY(out)) {
    LENT(uint8_t, data); LENT(uint8_t, tfci); LENT(uint8_t, out);
    return slt_slot_map_antenna(format, slot, antenna, tpc, RUN(data), RUN(tfci), RUN(out));
}

uint64_t slt_dpi_slot_read_antennas(uint64_t format, uint64_t slot, ARRAY(first), ARRAY(second), ARRAY(data), ARRAY(tfci)) {
    LENT(uint8_t, first); LENT(uint8_t, second); LENT(uint8_t, data); LENT(uint8_t, tfci);
    return slt_slot_read_antennas(format, slot, RUN(first), RUN(second), RUN(data), RUN(tfci));
}

uint64_t slt_dpi_frame_map(uint64_t format, ARRAY(data), ARRAY(tfci), ARRAY(out), ARRAY(commands)) {
    LENT(uint8_t, data); LENT(uint8_t, tfci); LENT(uint8_t, out); LENT(uint8_t, commands);
    return slt_frame_map(format, RUN(data), RUN(tfci), RUN(out), RUN(commands));
}

uint64_t slt_dpi_frame_read(uint64_t format, ARRAY(frame), ARRAY(data), ARRAY(tfci), ARRAY(commands)) {
    LENT(uint8_t, frame); LENT(uint8_t, data); LENT(uint8_t, tfci); LENT(uint8_t, commands);
    return slt_frame_read(format, RUN(frame), RUN(data), RUN(tfci), RUN(commands));
}

uint64_t slt_dpi_compressed_map(uint64_t format, uint64_t kind, uint64_t first, uint64_t missing, ARRAY(data), ARRAY(tfci),
        ARRAY(out), ARRAY(commands)) {
    LENT(uint8_t, data); LENT(uint8_t, tfci); LENT(uint8_t, out); LENT(uint8_t, commands);
    return slt_compressed_map(format, kind, first, missing, RUN(data), RUN(tfci), RUN(out), RUN(commands));
}

uint64_t slt_dpi_compressed_read(uint64_t format, uint64_t kind, uint64_t first, uint64_t missing, ARRAY(frame), ARRAY(data),
        ARRAY(tfci), ARRAY(commands)) {
    LENT(uint8_t, frame); LENT(uint8_t, data); LENT(uint8_t, tfci); LENT(uint8_t, commands);
    return slt_compressed_read(format, kind, first, missing, RUN(frame), RUN(data), RUN(tfci), RUN(commands));
}

uint64_t slt_dpi_dpdch_map(uint64_t format, ARRAY(data), ARRAY(out)) {
    LENT(uint8_t, data); LENT(uint8_t, out);
    return slt_dpdch_map(format, RUN(data), RUN(out));
}

uint64_t slt_dpi_dpdch_read(uint64_t format, ARRAY(run), ARRAY(data)) {
    LENT(uint8_t, run); LENT(uint8_t, data);
    return slt_dpdch_read(format, RUN(run), RUN(data));
}

uint64_t slt_dpi_dpdch_frame_map(uint64_t format, ARRAY(data), ARRAY(out)) {
    LENT(uint8_t, data); LENT(uint8_t, out);
    return slt_dpdch_frame_map(format, RUN(data), RUN(out));
}

uint64_t slt_dpi_dpdch_frame_read(uint64_t format, ARRAY(frame), ARRAY(data)) {
    LENT(uint8_t, frame); LENT(uint8_t, data);
    return slt_dpdch_frame_read(format, RUN(frame), RUN(data));
}

uint64_t slt_dpi_dpcch_map(uint64_t format, uint64_t slot, uint64_t tpc, ARRAY(tfci), ARRAY(fbi), ARRAY(out)) {
    LENT(uint8_t, tfci); LENT(uint8_t, fbi); LENT(uint8_t, out);
    return slt_dpcch_map(format, slot, tpc, RUN(tfci), RUN(fbi), RUN(out));
}

uint64_t slt_dpi_dpcch_read(uint64_t format, uint64_t slot, ARRAY(run), ARRAY(tfci), ARRAY(fbi)) {
    LENT(uint8_t, run); LENT(uint8_t, tfci); LENT(uint8_t, fbi);
    return slt_dpcch_read(format, slot, RUN(run), RUN(tfci), RUN(fbi));
}

uint64_t slt_dpi_dpcch_frame_map(uint64_t format, ARRAY(tfci), ARRAY(fbi), ARRAY(out), ARRAY(commands)) {
    LENT(uint8_t, tfci); LENT(uint8_t, fbi); LENT(uint8_t, out); LENT(uint8_t, commands);
    return slt_dpcch_frame_map(format, RUN(tfci), RUN(fbi), RUN(out), RUN(commands));
}

uint64_t slt_dpi_dpcch_frame_read(uint64_t format, ARRAY(frame), ARRAY(tfci), ARRAY(fbi), ARRAY(commands)) {
    LENT(uint8_t, frame); LENT(uint8_t, tfci); LENT(uint8_t, fbi); LENT(uint8_t, commands);
    return slt_dpcch_frame_read(format, RUN(frame), RUN(tfci), RUN(fbi), RUN(commands));
}

uint64_t slt_dpi_slot_lengths(uint64_t format, uint64_t run) {
    return slt_slot_lengths(format, run);
}

uint64_t slt_dpi_frame_lengths(uint64_t format, uint64_t run) {
    return slt_frame_lengths(format, run);
}

uint64_t slt_dpi_compressed_lengths(uint64_t format, uint64_t kind, uint64_t first, uint64_t missing, uint64_t run) {
    return slt_compressed_lengths(format, kind, first, missing, run);
}

uint64_t slt_dpi_dpdch_lengths(uint64_t format, uint64_t run) {
    return slt_dpdch_lengths(format, run);
}

uint64_t slt_dpi_dpdch_frame_lengths(uint64_t format, uint64_t run) {
    return slt_dpdch_frame_lengths(format, run);
}

uint64_t slt_dpi_dpcch_lengths(uint64_t format, uint64_t run) {
    return slt_dpcch_lengths(format, run);
}

uint64_t slt_dpi_dpcch_frame_lengths(uint64_t format, uint64_t run) {
    return slt_dpcch_frame_lengths(format, run);
}

uint64_t slt_dpi_hspdsch_lengths(uint64_t format, uint64_t run) {
    return slt_hspdsch_lengths(format, run);
}

uint64_t slt_dpi_bank_empty(ARRAY(bank)) {
    LENT(uint8_t, bank);
    return slt_bank_empty(RUN(bank));
}

uint64_t slt_dpi_bank_store(ARRAY(bank), uint64_t number, ARRAY(slot)) {
    LENT(uint8_t, bank); LENT(uint8_t, slot);
    return slt_bank_store(RUN(bank), number, RUN(slot));
}

uint64_t slt_dpi_bank_fetch(ARRAY(bank), uint64_t number, ARRAY(out)) {
    LENT(uint8_t, bank); LENT(uint8_t, out);
    return slt_bank_fetch(RUN(bank), number, RUN(out));
}

uint64_t slt_dpi_bank_drop(ARRAY(bank), uint64_t number) {
    LENT(uint8_t, bank);
    return slt_bank_drop(RUN(bank), number);
}

uint64_t slt_dpi_bank_length(ARRAY(bank), uint64_t number) {
    LENT(uint8_t, bank);
    return slt_bank_length(RUN(bank), number);
}

uint64_t slt_dpi_bank_room(ARRAY(bank)) {
    LENT(uint8_t, bank);
    return slt_bank_room(RUN(bank));
}

uint64_t slt_dpi_sttd_digits(ARRAY(source), ARRAY(out)) {
    LENT(uint8_t, source); LENT(uint8_t, out);
    return slt_sttd_digits(RUN(source), RUN(out));
}

uint64_t slt_dpi_sttd_values(ARRAY(source), ARRAY(out)) {
    LENT(int32_t, source); LENT(int32_t, out);
    return slt_sttd_values(RUN(source), RUN(out));
}

uint64_t slt_dpi_pccpch_map(ARRAY(data), ARRAY(antenna1), ARRAY(antenna2)) {
    LENT(uint8_t, data); LENT(uint8_t, antenna1); LENT(uint8_t, antenna2);
    return slt_pccpch_map(RUN(data), RUN(antenna1), RUN(antenna2));
}

uint64_t slt_dpi_pccpch_read(ARRAY(antenna1), ARRAY(antenna2), ARRAY(data)) {
    LENT(uint8_t, antenna1); LENT(uint8_t, antenna2); LENT(uint8_t, data);
    return slt_pccpch_read(RUN(antenna1), RUN(antenna2), RUN(data));
}

uint64_t slt_dpi_hspdsch_map(uint64_t format, ARRAY(data), ARRAY(antenna1), ARRAY(antenna2)) {
    LENT(uint8_t, data); LENT(uint8_t, antenna1); LENT(uint8_t, antenna2);
    return slt_hspdsch_map(format, RUN(data), RUN(antenna1), RUN(antenna2));
}

uint64_t slt_dpi_hspdsch_read(uint64_t format, ARRAY(antenna1), ARRAY(antenna2), ARRAY(data)) {
    LENT(uint8_t, antenna1); LENT(uint8_t, antenna2); LENT(uint8_t, data);
    return slt_hspdsch_read(format, RUN(antenna1), RUN(antenna2), RUN(data));
}

uint64_t slt_dpi_aich_map(ARRAY(indicators), ARRAY(values)) {
    LENT(int32_t, indicators); LENT(int32_t, values);
    return slt_aich_map(RUN(indicators), RUN(values));
}

uint64_t slt_dpi_aich_read(ARRAY(values), ARRAY(indicators)) {
    LENT(int32_t, values); LENT(int32_t, indicators);
    return slt_aich_read(RUN(values), RUN(indicators));
}

uint64_t slt_dpi_aich_map_available(uint16_t available, ARRAY(indicators), ARRAY(values)) {
    LENT(int32_t, indicators); LENT(int32_t, values);
    return slt_aich_map_available(available, RUN(indicators), RUN(values));
}

uint64_t slt_dpi_aich_read_available(uint16_t available, ARRAY(values), ARRAY(indicators)) {
    LENT(int32_t, values); LENT(int32_t, indicators);
    return slt_aich_read_available(available, RUN(values), RUN(indicators));
}

uint64_t slt_dpi_desk_serve(uint64_t *last, uint16_t heard, uint16_t available, uint64_t n, ARRAY(values)) {
    LENT(int32_t, values);
    size_t last_ = (size_t)*last;
    uint64_t answer = slt_desk_serve(&last_, heard, available, n, RUN(values));
    *last = last_;
    return answer;
}

uint64_t slt_dpi_desk_to_aich(uint64_t timing) {
    return slt_desk_to_aich(timing);
}

uint64_t slt_dpi_desk_to_message(uint64_t timing) {
    return slt_desk_to_message(timing);
}

uint64_t slt_dpi_aich_combine(int64_t h1_re, int64_t h1_im, int64_t h2_re, int64_t h2_im, ARRAY(received), ARRAY(results)) {
    LENT(int32_t, received); LENT(int64_t, results);
    return slt_aich_combine(h1_re, h1_im, h2_re, h2_im, RUN(received), RUN(results));
}

/* A sample comes by value: its parts go where they are asked for. */
static uint64_t parted(slt_sample sample, double *inphase, double *quadrature) {
    *inphase = sample.inphase;
    *quadrature = sample.quadrature;
    return sample.answer;
}

uint64_t slt_dpi_sample_off(int64_t i, int64_t q, uint64_t antenna, double *inphase, double *quadrature) {
    return parted(slt_sample_off(i, q, antenna), inphase, quadrature);
}

uint64_t slt_dpi_sample_shared(int64_t i, int64_t q, double level, uint64_t antenna, double *inphase, double *quadrature) {
    return parted(slt_sample_shared(i, q, (float)level, antenna), inphase, quadrature);
}

uint64_t slt_dpi_sample_each(int64_t i, int64_t q, double first, double second, uint64_t antenna, double *inphase, double *quadrature) {
    return parted(slt_sample_each(i, q, (float)first, (float)second, antenna), inphase, quadrature);
}

#ifdef __cplusplus
}
#endif
