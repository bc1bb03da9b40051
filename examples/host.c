/* A host that calls the mapper as a simulator would, and prints what it got. */
#include <inttypes.h>
#include <stdio.h>
#include <string.h>

#include "slt.h"

static void print_answer(const char *call, uint64_t answer) {
    printf("%s: number %u place %" PRIu32 " value %u\n", call, SLT_NUMBER(answer), SLT_PLACE(answer), SLT_VALUE(answer));
}

static void print_digits(const char *name, const uint8_t *digits, size_t n) {
    printf("%s ", name);
    for (size_t i = 0; i < n; i++) {
        putchar(digits[i] == 2 ? '-' : '0' + digits[i]);
    }
    putchar('\n');
}

/* Which indicator a PI has, a frame with that indicator set, and the frame read back. */
static int paging(void) {
    uint8_t indicators[18] = {0};
    uint8_t frame[300];
    uint8_t back[18];

    uint64_t q = slt_pich_q(18, 5, 1);
    print_answer("slt_pich_q(18, 5, 1)", q);
    if (SLT_NUMBER(q) != SLT_DONE) {
        return 1;
    }
    indicators[SLT_VALUE(q)] = 1;

    uint64_t mapped = slt_pich_map(18, indicators, sizeof indicators, frame, sizeof frame);
    print_answer("slt_pich_map", mapped);
    if (SLT_NUMBER(mapped) != SLT_DONE) {
        return 1;
    }
    print_digits("frame", frame, sizeof frame);

    uint64_t read = slt_pich_read(18, frame, sizeof frame, back, sizeof back);
    print_answer("slt_pich_read", read);
    if (SLT_NUMBER(read) != SLT_DONE || memcmp(indicators, back, sizeof back) != 0) {
        return 1;
    }

    frame[288] = 0; /* a tail digit that is sent */
    print_answer("slt_pich_read of a damaged tail", slt_pich_read(18, frame, sizeof frame, back, sizeof back));
    print_answer("slt_pich_map with no indicators", slt_pich_map(18, NULL, 0, frame, sizeof frame));
    print_answer("slt_pich_q(18, 5, 4096)", slt_pich_q(18, 5, 4096));
    return 0;
}

/* A slot of every format: the library says how long its runs are, and no table of formats is needed here. */
static int every_format(void) {
    uint8_t data[2048] = {0}, tfci[2048] = {0}, digits[2048];
    size_t format = 0;

    while (SLT_NUMBER(slt_slot_lengths(format, 0)) == SLT_DONE) {
        unsigned n_data = SLT_VALUE(slt_slot_lengths(format, 0));
        unsigned n_tfci = SLT_VALUE(slt_slot_lengths(format, 1));
        unsigned n_slot = SLT_VALUE(slt_slot_lengths(format, 2));
        if (n_slot > sizeof digits) {
            return 1;
        }
        printf("format %zu: data %u, TFCI %u, slot %u digits\n", format, n_data, n_tfci, n_slot);
        if (SLT_NUMBER(slt_slot_map(format, 0, 0, data, n_data, tfci, n_tfci, digits, n_slot)) != SLT_DONE) {
            return 1;
        }
        format++;
    }
    print_answer("slt_slot_lengths of the next format", slt_slot_lengths(format, 0));
    print_answer("slt_slot_lengths of a fourth run", slt_slot_lengths(0, 3));
    return 0;
}

/* A slot of format 1 from its fields, read back, and with one pilot digit damaged. */
static int slot(void) {
    const uint8_t data[2] = {1, 0}, tfci[2] = {0, 1};
    uint8_t digits[10], data_back[2], tfci_back[2];

    uint64_t mapped = slt_slot_map(1, 1, 1, data, sizeof data, tfci, sizeof tfci, digits, sizeof digits);
    print_answer("slt_slot_map", mapped);
    if (SLT_NUMBER(mapped) != SLT_DONE) {
        return 1;
    }
    print_digits("slot", digits, sizeof digits);

    uint64_t read = slt_slot_read(1, 1, digits, sizeof digits, data_back, sizeof data_back, tfci_back, sizeof tfci_back);
    print_answer("slt_slot_read", read);
    if (SLT_NUMBER(read) != SLT_DONE || memcmp(data, data_back, sizeof data) != 0 || memcmp(tfci, tfci_back, sizeof tfci) != 0) {
        return 1;
    }

    digits[9] = 1;
    print_answer("slt_slot_read of a damaged pilot",
                 slt_slot_read(1, 1, digits, sizeof digits, data_back, sizeof data_back, tfci_back, sizeof tfci_back));
    print_answer("slt_slot_map of format 17", slt_slot_map(17, 1, 1, data, sizeof data, tfci, sizeof tfci, digits, sizeof digits));
    return 0;
}

/* The same fields on two antennas, read back from both streams, and with one digit of the second damaged. */
static int two_antennas(void) {
    const uint8_t data[2] = {1, 0}, tfci[2] = {0, 1};
    uint8_t streams[2][10], data_back[2], tfci_back[2];

    for (size_t antenna = 0; antenna < 2; antenna++) {
        uint64_t mapped = slt_slot_map_antenna(1, 1, antenna, 1, data, sizeof data, tfci, sizeof tfci, streams[antenna], 10);
        print_answer("slt_slot_map_antenna", mapped);
        if (SLT_NUMBER(mapped) != SLT_DONE) {
            return 1;
        }
        print_digits(antenna == 0 ? "antenna 1" : "antenna 2", streams[antenna], 10);
    }

    uint64_t read = slt_slot_read_antennas(1, 1, streams[0], 10, streams[1], 10, data_back, sizeof data_back, tfci_back,
                                           sizeof tfci_back);
    print_answer("slt_slot_read_antennas", read);
    if (SLT_NUMBER(read) != SLT_DONE || memcmp(data, data_back, sizeof data) != 0 || memcmp(tfci, tfci_back, sizeof tfci) != 0) {
        return 1;
    }

    streams[1][3] = 1;
    print_answer("slt_slot_read_antennas of a damaged second stream",
                 slt_slot_read_antennas(1, 1, streams[0], 10, streams[1], 10, data_back, sizeof data_back, tfci_back,
                                        sizeof tfci_back));
    return 0;
}

/* A compressed frame of format 0B with slots 4 to 6 missing, read back, and with a digit sent in the gap; and a gap that runs past slot 14. */
static int compressed(void) {
    enum { FORMAT = 0, KIND_B = 2, FIRST = 4, MISSING = 3, SENT = 15 - MISSING, SLOT = 20 };
    const uint8_t commands[SENT] = {0, 1, 1, 0, 1, 0, 0, 0, 1, 1, 1, 0};
    uint8_t data[SENT * 8], frame[15 * SLOT], data_back[sizeof data], commands_back[SENT];
    for (size_t i = 0; i < sizeof data; i++) {
        data[i] = i % 3;
    }

    uint64_t mapped = slt_compressed_map(FORMAT, KIND_B, FIRST, MISSING, data, sizeof data, NULL, 0, frame, sizeof frame,
                                         commands, sizeof commands);
    print_answer("slt_compressed_map", mapped);
    if (SLT_NUMBER(mapped) != SLT_DONE) {
        return 1;
    }
    for (size_t slot = FIRST - 1; slot <= FIRST + MISSING; slot++) {
        print_digits("slot", frame + slot * SLOT, SLOT);
    }

    uint64_t read = slt_compressed_read(FORMAT, KIND_B, FIRST, MISSING, frame, sizeof frame, data_back, sizeof data_back, NULL,
                                        0, commands_back, sizeof commands_back);
    print_answer("slt_compressed_read", read);
    if (SLT_NUMBER(read) != SLT_DONE || memcmp(data, data_back, sizeof data) != 0 ||
        memcmp(commands, commands_back, sizeof commands) != 0) {
        return 1;
    }

    frame[5 * SLOT + 7] = 0;
    print_answer("slt_compressed_read of a digit in the gap",
                 slt_compressed_read(FORMAT, KIND_B, FIRST, MISSING, frame, sizeof frame, data_back, sizeof data_back, NULL, 0,
                                     commands_back, sizeof commands_back));
    print_answer("slt_compressed_map past slot 14",
                 slt_compressed_map(FORMAT, KIND_B, 13, MISSING, data, sizeof data, NULL, 0, frame, sizeof frame, commands,
                                    sizeof commands));
    return 0;
}

/* A subframe of high-speed data in 16QAM on two antennas, read back, and with its last digit on the second damaged. */
static int high_speed(void) {
    enum { SUBFRAME = 1920 };
    static uint8_t data[SUBFRAME], antenna1[SUBFRAME], antenna2[SUBFRAME], data_back[SUBFRAME];

    for (size_t i = 0; i < SUBFRAME; i++) {
        data[i] = (uint8_t)(i / 2 % 2);
    }
    uint64_t mapped = slt_hspdsch_map(1, data, SUBFRAME, antenna1, SUBFRAME, antenna2, SUBFRAME);
    print_answer("slt_hspdsch_map", mapped);
    if (SLT_NUMBER(mapped) != SLT_DONE) {
        return 1;
    }
    print_digits("first block on antenna 1", antenna1, 8);
    print_digits("first block on antenna 2", antenna2, 8);

    uint64_t read = slt_hspdsch_read(1, antenna1, SUBFRAME, antenna2, SUBFRAME, data_back, SUBFRAME);
    print_answer("slt_hspdsch_read", read);
    if (SLT_NUMBER(read) != SLT_DONE || memcmp(data, data_back, SUBFRAME) != 0) {
        return 1;
    }

    antenna2[SUBFRAME - 1] ^= 1;
    print_answer("slt_hspdsch_read of a damaged second antenna",
                 slt_hspdsch_read(1, antenna1, SUBFRAME, antenna2, SUBFRAME, data_back, SUBFRAME));
    return 0;
}

/* An uplink control slot of format 2 from its fields, read back, and read as another slot; then ten digits of uplink data. */
static int uplink(void) {
    const uint8_t tfci[2] = {0, 1}, fbi[1] = {1}, data[10] = {0, 1, 1, 0, 0, 1, 0, 1, 1, 1};
    uint8_t digits[10], tfci_back[2], fbi_back[1];

    uint64_t mapped = slt_dpcch_map(2, 1, 1, tfci, sizeof tfci, fbi, sizeof fbi, digits, sizeof digits);
    print_answer("slt_dpcch_map", mapped);
    if (SLT_NUMBER(mapped) != SLT_DONE) {
        return 1;
    }
    print_digits("DPCCH slot", digits, sizeof digits);

    uint64_t read = slt_dpcch_read(2, 1, digits, sizeof digits, tfci_back, sizeof tfci_back, fbi_back, sizeof fbi_back);
    print_answer("slt_dpcch_read", read);
    if (SLT_NUMBER(read) != SLT_DONE || memcmp(tfci, tfci_back, sizeof tfci) != 0 || fbi_back[0] != fbi[0]) {
        return 1;
    }
    print_answer("slt_dpcch_read as slot 2",
                 slt_dpcch_read(2, 2, digits, sizeof digits, tfci_back, sizeof tfci_back, fbi_back, sizeof fbi_back));

    print_answer("slt_dpdch_map", slt_dpdch_map(0, data, sizeof data, digits, sizeof digits));
    print_digits("DPDCH slot", digits, sizeof digits);
    print_answer("slt_dpdch_map of format 7", slt_dpdch_map(7, data, sizeof data, digits, sizeof digits));
    return 0;
}

/* The three access slots of docs/DESK.md, the desk with them, and when a message may follow its preamble. */
static int random_access(void) {
    const uint16_t heard[3] = {0x4224, 0x4204, 0x0004}, available[3] = {0xffff, 0xffff, 0xfffb};
    size_t last = SLT_DESK_FRESH;
    int32_t values[32];

    for (size_t i = 0; i < 3; i++) {
        uint64_t served = slt_desk_serve(&last, heard[i], available[i], 2, values, 32);
        print_answer("slt_desk_serve", served);
        if (SLT_NUMBER(served) != SLT_DONE) {
            return 1;
        }
        printf("desk %zu, values 10 to 13 %" PRId32 " %" PRId32 " %" PRId32 " %" PRId32 "\n", last, values[10], values[11],
               values[12], values[13]);
    }
    print_answer("slt_desk_serve for 17", slt_desk_serve(&last, heard[0], available[0], 17, values, 32));
    printf("desk %zu\n", last);
    print_answer("slt_desk_to_aich(0)", slt_desk_to_aich(0));
    print_answer("slt_desk_to_message(1)", slt_desk_to_message(1));
    return 0;
}

/* Three recorded PICH frames from SFN 4095 on, of which the last is damaged: a step for the first, and then all in one run. */
static int waking(void) {
    const uint8_t ones[36] = {[7] = 1, [25] = 1};
    uint8_t frames[3 * 300];
    slt_tally tally = {0, 0, 4095};
    uint32_t read = 0, woke = 0, next_sfn = 4095;

    for (size_t k = 0; k < 3; k++) {
        if (SLT_NUMBER(slt_pich_map(36, ones, sizeof ones, frames + 300 * k, 300)) != SLT_DONE) {
            return 1;
        }
    }
    frames[2 * 300 + 299] = 0;

    print_answer("slt_wake_step", slt_wake_step(&tally, 36, 7, frames, 300));
    printf("read %" PRIu32 " woke %" PRIu32 " next SFN %" PRIu32 "\n", tally.read, tally.woke, tally.next_sfn);
    print_answer("slt_wake_run", slt_wake_run(36, 7, frames, sizeof frames, &read, &woke, &next_sfn));
    printf("read %" PRIu32 " woke %" PRIu32 " next SFN %" PRIu32 "\n", read, woke, next_sfn);
    return 0;
}

int main(void) {
    return paging() || every_format() || slot() || two_antennas() || compressed() || high_speed() || uplink() || random_access() || waking();
}
