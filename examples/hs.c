/* HSDPA on two antennas. In 16QAM a symbol has four digits, i1 q1 i2 q2: two signs and two sizes. STTD works on eight digits there and puts a
 * bar on signs alone; an encoder made for QPSK puts one on sizes too. docs/RULES.md, 'HS-PDSCH'; docs/slots.svg shows both blocks. */
#include <stdio.h>
#include <string.h>

#include "slt.h"

enum { QPSK = 0, QAM16 = 1, ROOM = 1920 };
static uint8_t data[ROOM], back[ROOM], first[ROOM], second[ROOM], wrong[ROOM];

static void print_block(const char *name, const uint8_t *digits) {
    printf("%s ", name);
    for (size_t i = 0; i < 8; i++) {
        putchar('0' + digits[i]);
    }
    putchar('\n');
}

/* What the reader says of a subframe on both antennas. Places of the second antenna start at the subframe's length. */
static void judge(const char *chip, size_t format, size_t n, const uint8_t *on_second) {
    uint64_t answer = slt_hspdsch_read(format, first, n, on_second, n, back, n);
    size_t place = SLT_PLACE(answer);
    if (SLT_NUMBER(answer) == SLT_DONE) {
        printf("%s: %zu digits, data %s\n", chip, n, memcmp(data, back, n) == 0 ? "as it was sent" : "is another");
    } else {
        printf("%s: refused %u, antenna %zu, slot %zu, digit %zu\n", chip, SLT_NUMBER(answer), place / n + 1, place % n / (n / 3), place % (n / 3));
    }
}

int main(void) {
    for (size_t i = 0; i < ROOM; i++) {
        data[i] = i * i % 5 < 2;
    }
    for (size_t format = QPSK; format <= QAM16; format++) {
        size_t n = SLT_VALUE(slt_hspdsch_lengths(format, 0)); /* a subframe of three slots: 960 or 1920 digits */
        if (n > ROOM || slt_hspdsch_map(format, data, n, first, n, second, n) != SLT_DONE) {
            return 1;
        }
        printf("format %zu, %s\n", format, format == QPSK ? "QPSK" : "16QAM");
        print_block("  antenna 1", first);
        print_block("  antenna 2", second);
        judge("  a good chip", format, n, second);

        /* One encoder for both formats, that of QPSK. In 16QAM it is wrong from the first block on. */
        if (slt_sttd_digits(first, n, wrong, n) != SLT_DONE) {
            return 1;
        }
        judge("  STTD by fours", format, n, wrong);

        /* Blocks that are one block late in the last slot: the first two slots are good. */
        memcpy(wrong, second, n);
        memcpy(wrong + n / 3 * 2 + 8, second + n / 3 * 2, n / 3 - 8);
        judge("  a block late", format, n, wrong);
    }
    return 0;
}
