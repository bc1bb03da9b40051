/* The broadcast channel on two antennas: a circuit that feeds the second one. Data goes through STTD in fours, and 18 digits of a slot are no
 * multiple of four: so a block crosses from each even slot into the odd one behind it. docs/RULES.md, 'P-CCPCH'; docs/antennas.svg shows it. */
#include <stdio.h>
#include <string.h>

#include "slt.h"

enum { DATA = 270, FRAME = 300, SLOT = 20, SENT = 18 };
static uint8_t data[DATA], first[FRAME], second[FRAME], wrong[FRAME], back[DATA];

/* The first two slots of an antenna, with DTX as a hyphen. */
static void print_slots(const char *name, const uint8_t *frame) {
    printf("%s ", name);
    for (size_t i = 0; i < 2 * SLOT; i++) {
        printf("%s%c", i == SLOT ? " " : "", frame[i] == 2 ? '-' : '0' + frame[i]);
    }
    putchar('\n');
}

/* What the reader says of both frames. Places of the second antenna start at 300. */
static void judge(const char *circuit, const uint8_t *on_first, const uint8_t *on_second) {
    uint64_t answer = slt_pccpch_read(on_first, FRAME, on_second, FRAME, back, DATA);
    unsigned place = SLT_PLACE(answer);
    if (SLT_NUMBER(answer) == SLT_DONE) {
        printf("%s: data %s\n", circuit, memcmp(data, back, DATA) == 0 ? "as it was sent" : "is another");
    } else {
        printf("%s: refused %u, antenna %u, slot %u, digit %u\n", circuit, SLT_NUMBER(answer), place / FRAME + 1, place % FRAME / SLOT, place % SLOT);
    }
}

int main(void) {
    for (size_t i = 0; i < DATA; i++) {
        data[i] = i * i % 7 < 3;
    }
    if (slt_pccpch_map(data, DATA, first, FRAME, second, FRAME) != SLT_DONE) {
        return 1;
    }
    print_slots("antenna 1", first);
    print_slots("antenna 2", second);
    judge("a good circuit", first, second);

    /* A circuit that starts its blocks afresh in each slot. The first 16 of the 18 digits of slot 0 are right, so slot 0 is nearly good. */
    memcpy(wrong, first, FRAME);
    for (size_t slot = 0; slot < FRAME / SLOT; slot++) {
        uint8_t *digits = wrong + slot * SLOT + 2;
        if (slt_sttd_digits(first + slot * SLOT + 2, SENT / 4 * 4, digits, SENT / 4 * 4) != SLT_DONE) {
            return 1;
        }
    }
    judge("blocks slot by slot", first, wrong);

    /* The first two digits of a slot are silent, for the synchronisation channel is sent there. This circuit goes on sending. */
    memcpy(wrong, first, FRAME);
    wrong[5 * SLOT] = 0;
    judge("no silence in slot 5", wrong, second);
    return 0;
}
