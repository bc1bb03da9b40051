/* Stimulus for a regression: mapped slots are kept in one buffer under numbers, fetched when a test needs them, and thrown away. The buffer is
 * the whole bank: it can be written to a file and read back. docs/BANK.md. */
#include <stdio.h>
#include <string.h>

#include "slt.h"

enum { ROOM = 768, LONGEST = 1280 };
static uint8_t bank[ROOM], copy[ROOM], data[LONGEST], tfci[8], slot[LONGEST], back[LONGEST];

/* The slot of a format with data of its own. Answers how many digits it has; 0 where something is refused. */
static size_t stimulus(size_t format) {
    size_t n_data = SLT_VALUE(slt_slot_lengths(format, 0)), n_tfci = SLT_VALUE(slt_slot_lengths(format, 1));
    size_t n = SLT_VALUE(slt_slot_lengths(format, 2));
    for (size_t i = 0; i < n_data; i++) {
        data[i] = (i * format) % 3;
    }
    return slt_slot_map(format, 4, 1, data, n_data, tfci, n_tfci, slot, n) == SLT_DONE ? n : 0;
}

int main(void) {
    if (slt_bank_empty(bank, ROOM) != SLT_DONE) {
        return 1;
    }
    /* Slots of longer and longer formats, each under its format's number, until one does not fit: that one is not stored, and nothing is lost. */
    size_t format = 0, n = stimulus(0);
    for (; slt_bank_store(bank, ROOM, format, slot, n) == SLT_DONE; n = stimulus(format)) {
        format++;
    }
    uint64_t answer = slt_bank_store(bank, ROOM, format, slot, n);
    printf("format %zu needs %zu bytes, %u are left: refused %u\n", format, n + 4, SLT_VALUE(slt_bank_room(bank, ROOM)), SLT_NUMBER(answer));

    /* Room that is dropped can be taken at once: the short slots go, and the long one fits. */
    for (size_t number = 0; number < 8; number++) {
        if (slt_bank_drop(bank, ROOM, number) != SLT_DONE) {
            return 1;
        }
    }
    answer = slt_bank_store(bank, ROOM, format, slot, n);
    printf("formats 0 to 7 dropped: %s, %u bytes left\n", answer == SLT_DONE ? "it fits" : "no room", SLT_VALUE(slt_bank_room(bank, ROOM)));

    /* Another test gets a copy of the bytes, and finds every slot as it was stored. */
    memcpy(copy, bank, ROOM);
    for (size_t number = 8; number <= format; number++) {
        n = SLT_VALUE(slt_bank_length(copy, ROOM, number));
        if (slt_bank_fetch(copy, ROOM, number, back, n) != SLT_DONE || n != stimulus(number) || memcmp(back, slot, n) != 0) {
            return 1;
        }
    }
    printf("formats 8 to %zu fetched from a copy, each as it was mapped\n", format);
    printf("format 3, which was dropped: refused %u\n", SLT_NUMBER(slt_bank_fetch(copy, ROOM, 3, back, 20)));
    copy[9] = 1; /* a byte of the layout is overwritten */
    printf("a bank with a damaged byte: refused %u\n", SLT_NUMBER(slt_bank_room(copy, ROOM)));
    return 0;
}
