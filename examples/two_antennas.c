/* Two transmit chains under test: both send one slot, each its own stream. A judge that looks at the first chain alone passes every mistake
 * of the second; the reader of both streams says which antenna is wrong, and where. docs/RULES.md, 'DPCH on the second antenna'. */
#include <stdio.h>
#include <string.h>

#include "slt.h"

enum { FORMAT = 4, SLOT = 3, COMMAND = 1, DIGITS = 20, DATA = 14 };
static const uint8_t data[DATA] = {0, 1, 1, 0, 0, 1, 2, 2, 1, 1, 0, 1, 0, 0}; /* 2 is DTX: nothing is sent */

static void print_stream(const char *name, const uint8_t *digits) {
    printf("%s ", name);
    for (size_t i = 0; i < DIGITS; i++) {
        putchar(digits[i] == 2 ? '-' : '0' + digits[i]);
    }
    putchar('\n');
}

/* What the reader says of the two streams. A place behind the first stream's digits is one of the second. */
static void judge(const char *chip, const uint8_t *first, const uint8_t *second) {
    uint8_t back[DATA];
    uint64_t answer = slt_slot_read_antennas(FORMAT, SLOT, first, DIGITS, second, DIGITS, back, DATA, NULL, 0);
    unsigned place = SLT_PLACE(answer);
    if (SLT_NUMBER(answer) == SLT_DONE) {
        printf("%s: command %u, data %s\n", chip, SLT_VALUE(answer), memcmp(back, data, DATA) == 0 ? "as it was sent" : "is another");
    } else {
        printf("%s: refused %u, antenna %u, digit %u\n", chip, SLT_NUMBER(answer), place / DIGITS + 1, place % DIGITS);
    }
}

int main(void) {
    uint8_t first[DIGITS], second[DIGITS], wrong[DIGITS];
    /* Antennas are numbered from 0, so antenna 2 is number 1. This format has no TFCI: its run is empty. */
    if (slt_slot_map_antenna(FORMAT, SLOT, 0, COMMAND, data, DATA, NULL, 0, first, DIGITS) != SLT_DONE ||
        slt_slot_map_antenna(FORMAT, SLOT, 1, COMMAND, data, DATA, NULL, 0, second, DIGITS) != SLT_DONE) {
        return 1;
    }
    print_stream("antenna 1", first);
    print_stream("antenna 2", second);
    judge("a good chip", first, second);

    /* STTD was forgotten: both chains send the same. */
    judge("no STTD", first, first);

    /* STTD goes on through the pilot, which has a table of its own in the standard; this chip sends antenna 1's pilot on both. */
    memcpy(wrong, second, DIGITS);
    memcpy(wrong + DIGITS - 4, first + DIGITS - 4, 4);
    judge("one pilot for both", first, wrong);

    /* The bar of a DTX digit is DTX. This chip turns it into a bit. */
    memcpy(wrong, second, DIGITS);
    *(uint8_t *)memchr(wrong, 2, DIGITS) = 1;
    judge("DTX as a bit", first, wrong);
    return 0;
}
