/* The two yardsticks: the calls of slt.h in C, with the same checks and refusals. Names and answers are those of slt.h, with plain_
 * or tight_ for slt_.
 *
 * Plain C is written the ordinary way: its loops leave at the first bad digit. Tight C is written as the library is: it asks first
 * whether all is good, by loops with no early way out, which the compiler does many digits at a time, and does its work; where
 * something is wrong it leaves the refusal to plain C, which finds the place.
 *
 * The combiner stands twice: by folding, as the library does it, and by terms, as the rule has it. */
#ifndef YARDSTICKS_H
#define YARDSTICKS_H

#include "slt.h"

#define YARDSTICK(whose)                                                                                                        \
    uint64_t whose##_slot_map(size_t format, size_t slot, size_t tpc, const uint8_t *data, size_t n_data, const uint8_t *tfci,  \
                              size_t n_tfci, uint8_t *out, size_t n_out);                                                       \
    uint64_t whose##_slot_read(size_t format, size_t slot, const uint8_t *run, size_t n_run, uint8_t *data, size_t n_data,      \
                               uint8_t *tfci, size_t n_tfci);                                                                   \
    uint64_t whose##_slot_map_antenna(size_t format, size_t slot, size_t antenna, size_t tpc, const uint8_t *data,              \
                                      size_t n_data, const uint8_t *tfci, size_t n_tfci, uint8_t *out, size_t n_out);           \
    uint64_t whose##_slot_read_antennas(size_t format, size_t slot, const uint8_t *first, size_t n_first,                       \
                                        const uint8_t *second, size_t n_second, uint8_t *data, size_t n_data,                   \
                                        uint8_t *tfci, size_t n_tfci);                                                          \
    uint64_t whose##_frame_map(size_t format, const uint8_t *data, size_t n_data, const uint8_t *tfci, size_t n_tfci,           \
                               uint8_t *out, size_t n_out, const uint8_t *commands, size_t n_commands);                         \
    uint64_t whose##_frame_read(size_t format, const uint8_t *frame, size_t n_frame, uint8_t *data, size_t n_data,              \
                                uint8_t *tfci, size_t n_tfci, uint8_t *commands, size_t n_commands);                            \
    uint64_t whose##_compressed_map(size_t format, size_t kind, size_t first, size_t missing, const uint8_t *data,              \
                                    size_t n_data, const uint8_t *tfci, size_t n_tfci, uint8_t *out, size_t n_out,              \
                                    const uint8_t *commands, size_t n_commands);                                                \
    uint64_t whose##_compressed_read(size_t format, size_t kind, size_t first, size_t missing, const uint8_t *frame,            \
                                     size_t n_frame, uint8_t *data, size_t n_data, uint8_t *tfci, size_t n_tfci,                \
                                     uint8_t *commands, size_t n_commands);                                                     \
    uint64_t whose##_dpdch_map(size_t format, const uint8_t *data, size_t n_data, uint8_t *out, size_t n_out);                  \
    uint64_t whose##_dpdch_read(size_t format, const uint8_t *run, size_t n_run, uint8_t *data, size_t n_data);                 \
    uint64_t whose##_dpdch_frame_map(size_t format, const uint8_t *data, size_t n_data, uint8_t *out, size_t n_out);            \
    uint64_t whose##_dpdch_frame_read(size_t format, const uint8_t *frame, size_t n_frame, uint8_t *data, size_t n_data);       \
    uint64_t whose##_dpcch_map(size_t format, size_t slot, size_t tpc, const uint8_t *tfci, size_t n_tfci, const uint8_t *fbi,  \
                               size_t n_fbi, uint8_t *out, size_t n_out);                                                       \
    uint64_t whose##_dpcch_read(size_t format, size_t slot, const uint8_t *run, size_t n_run, uint8_t *tfci, size_t n_tfci,     \
                                uint8_t *fbi, size_t n_fbi);                                                                    \
    uint64_t whose##_dpcch_frame_map(size_t format, const uint8_t *tfci, size_t n_tfci, const uint8_t *fbi, size_t n_fbi,       \
                                     uint8_t *out, size_t n_out, const uint8_t *commands, size_t n_commands);                   \
    uint64_t whose##_dpcch_frame_read(size_t format, const uint8_t *frame, size_t n_frame, uint8_t *tfci, size_t n_tfci,        \
                                      uint8_t *fbi, size_t n_fbi, uint8_t *commands, size_t n_commands);                        \
    uint64_t whose##_pich_q(size_t np, size_t pi, size_t sfn);                                                                  \
    uint64_t whose##_pich_map(size_t np, const uint8_t *indicators, size_t n_indicators, uint8_t *frame, size_t n_frame);       \
    uint64_t whose##_pich_read(size_t np, const uint8_t *frame, size_t n_frame, uint8_t *indicators, size_t n_indicators);      \
    uint64_t whose##_wake_run(size_t np, size_t pi, const uint8_t *frames, size_t n, uint32_t *read, uint32_t *woke,            \
                              uint32_t *next_sfn);                                                                              \
    uint64_t whose##_wake_step(slt_tally *tally, size_t np, size_t pi, const uint8_t *frame, size_t n);                         \
    uint64_t whose##_pccpch_map(const uint8_t *data, size_t n_data, uint8_t *antenna1, size_t n1, uint8_t *antenna2,            \
                                size_t n2);                                                                                     \
    uint64_t whose##_pccpch_read(const uint8_t *antenna1, size_t n1, const uint8_t *antenna2, size_t n2, uint8_t *data,         \
                                 size_t n_data);                                                                                \
    uint64_t whose##_hspdsch_map(size_t format, const uint8_t *data, size_t n_data, uint8_t *antenna1, size_t n1,               \
                                 uint8_t *antenna2, size_t n2);                                                                 \
    uint64_t whose##_hspdsch_read(size_t format, const uint8_t *antenna1, size_t n1, const uint8_t *antenna2, size_t n2,        \
                                  uint8_t *data, size_t n_data);                                                                \
    uint64_t whose##_slot_lengths(size_t format, size_t run);                                                                   \
    uint64_t whose##_frame_lengths(size_t format, size_t run);                                                                  \
    uint64_t whose##_compressed_lengths(size_t format, size_t kind, size_t first, size_t missing, size_t run);                  \
    uint64_t whose##_dpdch_lengths(size_t format, size_t run);                                                                  \
    uint64_t whose##_dpdch_frame_lengths(size_t format, size_t run);                                                            \
    uint64_t whose##_dpcch_lengths(size_t format, size_t run);                                                                  \
    uint64_t whose##_dpcch_frame_lengths(size_t format, size_t run);                                                            \
    uint64_t whose##_hspdsch_lengths(size_t format, size_t run);                                                                \
    uint64_t whose##_sttd_digits(const uint8_t *input, size_t n_input, uint8_t *out, size_t n_out);                             \
    uint64_t whose##_sttd_values(const int32_t *input, size_t n_input, int32_t *out, size_t n_out);                             \
    uint64_t whose##_aich_map(const int32_t *indicators, size_t n_indicators, int32_t *values, size_t n_values);                \
    uint64_t whose##_aich_read(const int32_t *values, size_t n_values, int32_t *indicators, size_t n_indicators);               \
    uint64_t whose##_aich_map_available(uint16_t available, const int32_t *indicators, size_t n_indicators,                     \
                                        int32_t *values, size_t n_values);                                                      \
    uint64_t whose##_aich_read_available(uint16_t available, const int32_t *values, size_t n_values,                            \
                                         int32_t *indicators, size_t n_indicators);                                             \
    uint64_t whose##_desk_serve(size_t *last, uint16_t heard, uint16_t available, size_t n, int32_t *values,                    \
                                size_t n_values);                                                                               \
    uint64_t whose##_desk_to_aich(size_t timing);                                                                               \
    uint64_t whose##_desk_to_message(size_t timing);                                                                            \
    uint64_t whose##_aich_combine(int64_t h1_re, int64_t h1_im, int64_t h2_re, int64_t h2_im, const int32_t *received,          \
                                  size_t n_received, int64_t *results, size_t n_results);                                       \
    uint64_t whose##_aich_combine_by_terms(int64_t h1_re, int64_t h1_im, int64_t h2_re, int64_t h2_im, const int32_t *received, \
                                           size_t n_received, int64_t *results, size_t n_results);                              \
    slt_sample whose##_sample_off(int64_t i, int64_t q, size_t antenna);                                                        \
    slt_sample whose##_sample_shared(int64_t i, int64_t q, float level, size_t antenna);                                        \
    slt_sample whose##_sample_each(int64_t i, int64_t q, float first, float second, size_t antenna);                            \
    uint64_t whose##_bank_empty(uint8_t *bank, size_t n_bank);                                                                  \
    uint64_t whose##_bank_store(uint8_t *bank, size_t n_bank, size_t number, const uint8_t *slot, size_t n_slot);               \
    uint64_t whose##_bank_fetch(const uint8_t *bank, size_t n_bank, size_t number, uint8_t *out, size_t n_out);                 \
    uint64_t whose##_bank_drop(uint8_t *bank, size_t n_bank, size_t number);                                                    \
    uint64_t whose##_bank_length(const uint8_t *bank, size_t n_bank, size_t number);                                            \
    uint64_t whose##_bank_room(const uint8_t *bank, size_t n_bank);

YARDSTICK(plain)
YARDSTICK(tight)

#endif
