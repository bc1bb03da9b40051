/* slt.h: the slot mapper for a C or C++ host. docs/INTERFACE.md says the same at length.
 *
 * Every call but those for samples answers one 64-bit number that holds a number, a place and a value; a sample call answers
 * such a number beside the two parts of its sample:
 *
 *     bits  0 to 15   number   0 done, else the refusal (the table of docs/INTERFACE.md)
 *     bits 16 to 47   place    where, 0 where done
 *     bits 48 to 63   value    what the call answers beside it, 0 where refused
 *
 * What a caller owes, for every pointer that is passed with a length:
 *   - the length is in elements, and that many elements stand behind the pointer, aligned for their type;
 *   - NULL is allowed only with length 0;
 *   - a run that is written does not overlap any other run of the call;
 *   - nobody else writes a run during the call, or reads one that the call writes.
 * For a pointer that comes without a length (the desk's, and those of the wake simulation): it is not NULL, it is aligned for its type, what it
 * points to lies apart from every run of the call and from what every other such pointer points to, and nobody else reads or writes
 * it during the call.
 *
 * What a caller gets: for all contents, lengths and numbers the call ends without undefined behaviour;
 * a refused call writes to no run (slt_wake_run alone leaves its tally as the frames before the refused one left it). A digit is 0, 1, or 2 for DTX; any other byte is refused, never misread.
 * The calls keep no state (a desk is the caller's) and may be made from any thread.
 */
#ifndef SLT_H
#define SLT_H

#include <stddef.h>
#include <stdint.h>

#ifdef __cplusplus
extern "C" {
#endif

#define SLT_NUMBER(answer) ((unsigned)((answer) & 0xffffu))
#define SLT_PLACE(answer) ((uint32_t)(((answer) >> 16) & 0xffffffffu))
#define SLT_VALUE(answer) ((unsigned)((answer) >> 48))

/* The numbers of a refusal. */
#define SLT_DONE 0u
#define SLT_REFUSED_FORMAT 1u  /* a format that the channel's own table lacks: DPCH above 16, DPDCH above 6, DPCCH above 3, HS-PDSCH above 1; of a compressed frame, a kind that it lacks */
#define SLT_REFUSED_SLOT 2u    /* slot number above 14 */
#define SLT_REFUSED_LENGTH 3u  /* a lent run has the wrong length; the place says which run */
#define SLT_REFUSED_DIGIT 4u   /* digit not allowed */
#define SLT_REFUSED_TPC 5u     /* TPC command not 0 or 1; reading: TPC digits DTX or unlike */
#define SLT_REFUSED_TFCI 6u    /* TFCI digits mixed, some bits and some DTX; no call of the uplink gives it */
#define SLT_REFUSED_PILOT 7u   /* pilot differs from the table */
#define SLT_REFUSED_NP 8u      /* Np not 18, 36, 72, 144 */
#define SLT_REFUSED_FRAME 9u   /* PICH or P-CCPCH frame, second stream of a DPCH slot or HS-PDSCH subframe, or missing slot of a compressed frame, that no fields give */
#define SLT_REFUSED_VALUES 10u /* AICH values that no indicators give */
#define SLT_REFUSED_RANGE 11u  /* a number outside its range */
#define SLT_REFUSED_GAINS 12u  /* both gains zero */

/* Of a job file, which the program slotline reads: no call gives them. The place is a byte offset. */
#define SLT_REFUSED_OVER_LONG 20u   /* more bytes than its version may have */
#define SLT_REFUSED_MARK 21u        /* wrong mark */
#define SLT_REFUSED_VERSION 22u     /* version not known */
#define SLT_REFUSED_KIND 23u        /* kind not known */
#define SLT_REFUSED_ENDS_EARLY 24u  /* the file ends early, in its header or in a record */
#define SLT_REFUSED_BYTES_AFTER 25u /* bytes after the last record */

/* Of the calls under a set of available signatures. */
#define SLT_REFUSED_SIGNATURE 26u /* a nonzero indicator of a signature that is not available; the place is the lowest */

/* Of compressed frames. */
#define SLT_REFUSED_GAP 27u /* a gap that leaves too few or too many slots of a compressed frame, or runs past slot 14 */

/* Of a bank of slots. The place is 0. */
#define SLT_REFUSED_BANK 28u    /* a buffer under 8 or over 65536 bytes, or bytes that are no bank */
#define SLT_REFUSED_ABSENT 29u  /* no slot with the number in the bank */
#define SLT_REFUSED_PRESENT 30u /* a slot with the number is already in the bank */
#define SLT_REFUSED_ROOM 31u    /* no room: the total taken plus the new slot plus 4 exceeds the buffer */

/* Of the wake simulation. */
#define SLT_REFUSED_COUNT 32u /* frames read or frames that woke stand at 4294967295 */

/* PICH (TS 25.211, 5.3.3.10). np is 18, 36, 72 or 144. */

/* The paging indicator q of a higher-layer PI (0 to np - 1) in the frame of an SFN (0 to 4095), as the value. */
uint64_t slt_pich_q(size_t np, size_t pi, size_t sfn);

/* np indicators, 0 or 1, into a frame of 300 digits. */
uint64_t slt_pich_map(size_t np, const uint8_t *indicators, size_t n_indicators, uint8_t *frame, size_t n_frame);

/* The np indicators of a frame of 300 digits. */
uint64_t slt_pich_read(size_t np, const uint8_t *frame, size_t n_frame, uint8_t *indicators, size_t n_indicators);

/* Wake simulation: when the handset with a PI (0 to np - 1) would wake to recorded PICH frames, one after the other in one run of 300
 * digits each. At each frame q is worked out for the next SFN, the indicator there is read, and the tally moves on: frames read,
 * frames that woke the handset (its indicator is 1), the SFN of the next frame (0 to 4095; 4095 is followed by 0). */
typedef struct {
    uint32_t read;
    uint32_t woke;
    uint32_t next_sfn;
} slt_tally;

/* All frames, n digits of them, 0 included. A run stops at the first frame that is refused, and the three numbers are as the frames
 * before it left them: how far *read went up tells which frame it was. The place is within that frame. */
uint64_t slt_wake_run(size_t np, size_t pi, const uint8_t *frames, size_t n, uint32_t *read, uint32_t *woke, uint32_t *next_sfn);

/* One frame; n is 300. A refused step leaves the tally as it was. */
uint64_t slt_wake_step(slt_tally *tally, size_t np, size_t pi, const uint8_t *frame, size_t n);

/* Downlink DPCH slots (TS 25.211, 5.3.2), normal formats 0 to 16, slots 0 to 14. Field order: Data1, TPC, TFCI, Data2, pilot.
 * A slot's TFCI digits are all bits or all DTX (2), in every format that has some. */

/* Command, data (Data1 before Data2 in one run) and TFCI into a slot. Order of runs for refusal 3: data, TFCI, output. */
uint64_t slt_slot_map(size_t format, size_t slot, size_t tpc, const uint8_t *data, size_t n_data, const uint8_t *tfci,
                      size_t n_tfci, uint8_t *out, size_t n_out);

/* Data and TFCI of a slot, and its TPC command as the value. Order of runs for refusal 3: slot, data, TFCI. */
uint64_t slt_slot_read(size_t format, size_t slot, const uint8_t *run, size_t n_run, uint8_t *data, size_t n_data,
                       uint8_t *tfci, size_t n_tfci);

/* The same on two antennas (TS 25.211, 5.3.2.1), one stream a call: antenna 0 is antenna 1, whose slot is that of slt_slot_map, and 1 is antenna 2; any
 * other is refused with 11. Order of runs for refusal 3: data, TFCI, output. */
uint64_t slt_slot_map_antenna(size_t format, size_t slot, size_t antenna, size_t tpc, const uint8_t *data, size_t n_data,
                              const uint8_t *tfci, size_t n_tfci, uint8_t *out, size_t n_out);

/* Data and TFCI of a slot that both antennas sent, and its TPC command as the value. Places of the second stream count from the slot length.
 * Order of runs for refusal 3: first stream, second stream, data, TFCI. */
uint64_t slt_slot_read_antennas(size_t format, size_t slot, const uint8_t *first, size_t n_first, const uint8_t *second,
                                size_t n_second, uint8_t *data, size_t n_data, uint8_t *tfci, size_t n_tfci);

/* Downlink DPCH frames: slots 0 to 14 of one format. Data, TFCI and output are fifteen times a slot's; commands are 15 bytes, 0 or 1.
 * Order of runs for refusal 3: map data, TFCI, output, commands; read frame, data, TFCI, commands. */
uint64_t slt_frame_map(size_t format, const uint8_t *data, size_t n_data, const uint8_t *tfci, size_t n_tfci, uint8_t *out,
                       size_t n_out, const uint8_t *commands, size_t n_commands);
uint64_t slt_frame_read(size_t format, const uint8_t *frame, size_t n_frame, uint8_t *data, size_t n_data, uint8_t *tfci,
                        size_t n_tfci, uint8_t *commands, size_t n_commands);

/* Compressed downlink DPCH frames (TS 25.211, 5.3.2, formats A and B): kind 1 is A, kind 2 is B. Slots first to first + missing - 1
 * are missing, all DTX; 8 to 14 slots are transmitted. Data, TFCI and commands have the transmitted slots only, one after the other;
 * the frame has all fifteen. Order of runs for refusal 3: map data, TFCI, output, commands; read frame, data, TFCI, commands. */
uint64_t slt_compressed_map(size_t format, size_t kind, size_t first, size_t missing, const uint8_t *data, size_t n_data,
                            const uint8_t *tfci, size_t n_tfci, uint8_t *out, size_t n_out, const uint8_t *commands,
                            size_t n_commands);
uint64_t slt_compressed_read(size_t format, size_t kind, size_t first, size_t missing, const uint8_t *frame, size_t n_frame,
                             uint8_t *data, size_t n_data, uint8_t *tfci, size_t n_tfci, uint8_t *commands, size_t n_commands);

/* Uplink DPDCH (TS 25.211, 5.2.1.1), formats 0 to 6: a slot is 10, 20, 40, 80, 160, 320 or 640 data digits, each 0 or 1, and a frame
 * is fifteen slots. No slot number is needed. Order of runs for refusal 3: map data, output; read slot or frame, data. */
uint64_t slt_dpdch_map(size_t format, const uint8_t *data, size_t n_data, uint8_t *out, size_t n_out);
uint64_t slt_dpdch_read(size_t format, const uint8_t *run, size_t n_run, uint8_t *data, size_t n_data);
uint64_t slt_dpdch_frame_map(size_t format, const uint8_t *data, size_t n_data, uint8_t *out, size_t n_out);
uint64_t slt_dpdch_frame_read(size_t format, const uint8_t *frame, size_t n_frame, uint8_t *data, size_t n_data);

/* Uplink DPCCH (TS 25.211, 5.2.1.1), normal formats 0 to 3, slots 0 to 14. Field order: pilot, TFCI, FBI, TPC; ten digits a slot, each 0
 * or 1. Formats 0 and 2 have two TFCI digits, formats 2 and 3 one FBI digit. */

/* Command, TFCI and FBI into a slot. Order of runs for refusal 3: TFCI, FBI, output. */
uint64_t slt_dpcch_map(size_t format, size_t slot, size_t tpc, const uint8_t *tfci, size_t n_tfci, const uint8_t *fbi,
                       size_t n_fbi, uint8_t *out, size_t n_out);

/* TFCI and FBI of a slot, and its TPC command as the value. Order of runs for refusal 3: slot, TFCI, FBI. */
uint64_t slt_dpcch_read(size_t format, size_t slot, const uint8_t *run, size_t n_run, uint8_t *tfci, size_t n_tfci, uint8_t *fbi,
                        size_t n_fbi);

/* DPCCH frames: slots 0 to 14 of one format. TFCI, FBI and output are fifteen times a slot's; commands are 15 bytes, 0 or 1.
 * Order of runs for refusal 3: map TFCI, FBI, output, commands; read frame, TFCI, FBI, commands. */
uint64_t slt_dpcch_frame_map(size_t format, const uint8_t *tfci, size_t n_tfci, const uint8_t *fbi, size_t n_fbi, uint8_t *out,
                             size_t n_out, const uint8_t *commands, size_t n_commands);
uint64_t slt_dpcch_frame_read(size_t format, const uint8_t *frame, size_t n_frame, uint8_t *tfci, size_t n_tfci, uint8_t *fbi,
                              size_t n_fbi, uint8_t *commands, size_t n_commands);

/* STTD (TS 25.211, 5.3.1.1.1). Digits: a multiple of 4, at most 4294967295 of them, the output as long as the input. */
uint64_t slt_sttd_digits(const uint8_t *input, size_t n_input, uint8_t *out, size_t n_out);

/* AICH values: exactly 32, each -16 to 16. */
uint64_t slt_sttd_values(const int32_t *input, size_t n_input, int32_t *out, size_t n_out);

/* P-CCPCH (TS 25.211, 5.3.3.3.1): 270 data digits, 0 or 1, and a frame of 300 digits for each antenna. */
uint64_t slt_pccpch_map(const uint8_t *data, size_t n_data, uint8_t *antenna1, size_t n_antenna1, uint8_t *antenna2,
                        size_t n_antenna2);
uint64_t slt_pccpch_read(const uint8_t *antenna1, size_t n_antenna1, const uint8_t *antenna2, size_t n_antenna2, uint8_t *data,
                         size_t n_data);

/* HS-PDSCH (TS 25.211, 5.3.3.13): formats 0, QPSK, and 1, 16QAM; data, 0 or 1, and a subframe of three slots for each antenna, 960 digits
 * each in format 0 and 1920 in format 1. In reading, antenna 2's places start at that length. Lengths are asked in the order of the arguments. */
uint64_t slt_hspdsch_map(size_t format, const uint8_t *data, size_t n_data, uint8_t *antenna1, size_t n_antenna1, uint8_t *antenna2,
                         size_t n_antenna2);
uint64_t slt_hspdsch_read(size_t format, const uint8_t *antenna1, size_t n_antenna1, const uint8_t *antenna2, size_t n_antenna2,
                          uint8_t *data, size_t n_data);

/* Lengths of runs: how many elements each run of a mapper has, as the value. Runs are counted from 0 in the order in which the mapper
 * tells refusal 3 of them; a run that there is not is refused with 11, place 0. So no caller needs a table of formats. */

/* A slot of the downlink DPCH, on either antenna: 0 data, 1 TFCI, 2 slot. */
uint64_t slt_slot_lengths(size_t format, size_t run);

/* A frame of it: 0 data, 1 TFCI, 2 frame, 3 commands. */
uint64_t slt_frame_lengths(size_t format, size_t run);

/* A compressed frame of it: 0 data, 1 TFCI, 2 frame, 3 commands. A gap that does not stand is refused with 27, as the mapper does. */
uint64_t slt_compressed_lengths(size_t format, size_t kind, size_t first, size_t missing, size_t run);

/* A slot and a frame of the uplink DPDCH: 0 data, 1 slot or frame. */
uint64_t slt_dpdch_lengths(size_t format, size_t run);
uint64_t slt_dpdch_frame_lengths(size_t format, size_t run);

/* A slot of the uplink DPCCH: 0 TFCI, 1 FBI, 2 slot. A frame of it: 0 TFCI, 1 FBI, 2 frame, 3 commands. */
uint64_t slt_dpcch_lengths(size_t format, size_t run);
uint64_t slt_dpcch_frame_lengths(size_t format, size_t run);

/* A subframe of the HS-PDSCH: 0 data, 1 antenna 1, 2 antenna 2. */
uint64_t slt_hspdsch_lengths(size_t format, size_t run);

/* AICH (TS 25.211, 5.3.3.7): 16 indicators -1, 0, +1 and 32 values. */
uint64_t slt_aich_map(const int32_t *indicators, size_t n_indicators, int32_t *values, size_t n_values);
uint64_t slt_aich_read(const int32_t *values, size_t n_values, int32_t *indicators, size_t n_indicators);

/* The same under a set of available signatures, bit s for signature s: the indicator of any other signature must be 0.
 * Lengths are asked in the order of the arguments, as without a set. */
uint64_t slt_aich_map_available(uint16_t available, const int32_t *indicators, size_t n_indicators, int32_t *values,
                                size_t n_values);
uint64_t slt_aich_read_available(uint16_t available, const int32_t *values, size_t n_values, int32_t *indicators,
                                 size_t n_indicators);

/* The random access desk (TS 25.211, 5.3.3.7 and 7.3): who is answered in an access slot, and how many chips later.
 *
 * A desk is one number, the signature that was served last; a fresh one is SLT_DESK_FRESH. Both sets have bit s for signature s.
 * Signatures that are heard and available get +1, up to n of them (1 to 16) in circular order from just after *last, and -1 behind
 * those; all others get 0. The 32 values are those of these indicators, all 0 where nobody is served. Where somebody is, *last
 * becomes the last one; else, and where the call is refused, it stays. last has no length: it is not NULL, is aligned for a
 * size_t, points at one that lies apart from the values, and nobody else reads or writes it during the call. */
#define SLT_DESK_FRESH 15u
uint64_t slt_desk_serve(size_t *last, uint16_t heard, uint16_t available, size_t n, int32_t *values, size_t n_values);

/* Chips from a preamble to its indicator and to the message, as the value, for AICH_Transmission_Timing 0 and 1. */
uint64_t slt_desk_to_aich(size_t timing);
uint64_t slt_desk_to_message(size_t timing);

/* The AICH of two antennas combined: gain parts -4096 to 4096, 32 received parts -1048576 to 1048576 (real and imaginary in turn),
 * one result for each of the 16 signatures. */
uint64_t slt_aich_combine(int64_t h1_re, int64_t h1_im, int64_t h2_re, int64_t h2_im, const int32_t *received,
                          size_t n_received, int64_t *results, size_t n_results);

/* Samples: two whole values -16 to 16 times a level 1/1024 to 1024, rounded once to nearest even; antenna 0 is antenna 1, 1 is antenna 2.
 * The answer is packed as everywhere, with value 0; a refused sample, and one of a transmitter that is off, is +0, +0.
 * The caller keeps the default rounding mode. */
typedef struct {
    uint64_t answer;
    float inphase;
    float quadrature;
} slt_sample;

slt_sample slt_sample_off(int64_t i, int64_t q, size_t antenna);
slt_sample slt_sample_shared(int64_t i, int64_t q, float level, size_t antenna);
slt_sample slt_sample_each(int64_t i, int64_t q, float first, float second, size_t antenna);

/* A bank of stimulus slots in a buffer of 8 to 65536 bytes (docs/BANK.md): slots of 10 to 1280 digits under the numbers 0 to 255. The bank itself
 * takes 8 bytes, and a slot 4 more than its digits. Nothing is kept outside the buffer, which may be moved and copied. */
uint64_t slt_bank_empty(uint8_t *bank, size_t n_bank);
uint64_t slt_bank_store(uint8_t *bank, size_t n_bank, size_t number, const uint8_t *slot, size_t n_slot);
uint64_t slt_bank_fetch(const uint8_t *bank, size_t n_bank, size_t number, uint8_t *out, size_t n_out);
uint64_t slt_bank_drop(uint8_t *bank, size_t n_bank, size_t number);

/* The value is the number of digits that slt_bank_fetch needs room for. */
uint64_t slt_bank_length(const uint8_t *bank, size_t n_bank, size_t number);

/* The value is the number of bytes that are not taken. */
uint64_t slt_bank_room(const uint8_t *bank, size_t n_bank);

#ifdef __cplusplus
}
#endif

#endif
