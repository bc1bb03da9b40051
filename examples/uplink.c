/* A frame of a handset's uplink: control (DPCCH) and data (DPDCH) are two channels, each with slots of its own. The receiver under test must
 * find TFCI, feedback bits and power commands again, and know where the frame begins. docs/RULES.md, 'Uplink DPCCH' and 'Uplink DPDCH'. */
#include <stdio.h>
#include <string.h>

#include "slt.h"

enum { CONTROL = 2, DATA = 3, SLOTS = 15, DIGITS = 10, BITS = 80 };
static const uint8_t commands[SLOTS] = {1, 1, 0, 1, 0, 0, 0, 1, 1, 1, 0, 1, 0, 1, 1};

/* What the reader says of a control frame, and the power commands where it is good. */
static void judge(const char *receiver, const uint8_t *frame) {
    uint8_t tfci[2 * SLOTS], fbi[SLOTS], found[SLOTS];
    uint64_t answer = slt_dpcch_frame_read(CONTROL, frame, SLOTS * DIGITS, tfci, sizeof tfci, fbi, sizeof fbi, found, SLOTS);
    printf("%s: ", receiver);
    if (SLT_NUMBER(answer) != SLT_DONE) {
        printf("refused %u in slot %u, digit %u\n", SLT_NUMBER(answer), SLT_PLACE(answer) / DIGITS, SLT_PLACE(answer) % DIGITS);
        return;
    }
    for (size_t slot = 0; slot < SLOTS; slot++) {
        putchar(found[slot] ? '+' : '-'); /* raise the power, lower it */
    }
    printf(" %s\n", memcmp(found, commands, SLOTS) == 0 ? "as commanded" : "which nobody commanded");
}

int main(void) {
    uint8_t tfci[2 * SLOTS], fbi[SLOTS], control[SLOTS * DIGITS], wrong[SLOTS * DIGITS], data[SLOTS * BITS], sent[SLOTS * BITS];
    for (size_t i = 0; i < sizeof tfci; i++) {
        tfci[i] = i % 4 == 1;
    }
    for (size_t i = 0; i < sizeof fbi; i++) {
        fbi[i] = i % 2;
    }
    for (size_t i = 0; i < sizeof data; i++) {
        data[i] = i % 7 < 3;
    }
    if (slt_dpcch_frame_map(CONTROL, tfci, sizeof tfci, fbi, sizeof fbi, control, sizeof control, commands, SLOTS) != SLT_DONE ||
        slt_dpdch_frame_map(DATA, data, sizeof data, sent, sizeof sent) != SLT_DONE) {
        return 1;
    }
    judge("a good receiver", control);

    /* A receiver that begins the frame a slot late. Every slot is a good one, but its pilot is that of the slot behind it. */
    memcpy(wrong, control + DIGITS, sizeof wrong - DIGITS);
    memcpy(wrong + sizeof wrong - DIGITS, control, DIGITS);
    judge("a slot late", wrong);

    /* A command is sent twice; a noisy second digit is no command at all. */
    memcpy(wrong, control, sizeof wrong);
    wrong[6 * DIGITS + 9] ^= 1;
    judge("a noisy command", wrong);

    /* Nothing is DTX on the uplink: a data channel that pads with silence is refused. */
    data[100] = 2;
    uint64_t answer = slt_dpdch_frame_map(DATA, data, sizeof data, sent, sizeof sent);
    printf("silence in the data: refused %u at bit %u\n", SLT_NUMBER(answer), SLT_PLACE(answer));
    return 0;
}
