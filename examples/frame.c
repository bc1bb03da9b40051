/* A frame of the downlink DPCH under test: fifteen slots, each with its own command and pilot. After an invalid combination of transport data
 * the TFCI field is silent, in some slots of a frame and not in others. docs/RULES.md, 'DPCH slot'. */
#include <stdio.h>
#include <string.h>

#include "slt.h"

enum { FORMAT = 9, SLOTS = 15, SLOT = 40, ROOM = SLOTS * SLOT };
static const uint8_t commands[SLOTS] = {1, 0, 0, 1, 1, 1, 0, 1, 0, 1, 0, 0, 1, 1, 0};
static uint8_t data[ROOM], tfci[ROOM], frame[ROOM], wrong[ROOM], data_back[ROOM], tfci_back[ROOM], commands_back[SLOTS];
static size_t n_data, n_tfci; /* the library is asked how long they are */

/* What the reader says of a frame. */
static void judge(const char *modulator, const uint8_t *digits) {
    uint64_t answer = slt_frame_read(FORMAT, digits, ROOM, data_back, n_data, tfci_back, n_tfci, commands_back, SLOTS);
    if (SLT_NUMBER(answer) != SLT_DONE) {
        printf("%s: refused %u in slot %u, digit %u\n", modulator, SLT_NUMBER(answer), SLT_PLACE(answer) / SLOT, SLT_PLACE(answer) % SLOT);
        return;
    }
    int same = memcmp(data, data_back, n_data) == 0 && memcmp(tfci, tfci_back, n_tfci) == 0 && memcmp(commands, commands_back, SLOTS) == 0;
    printf("%s: fields %s\n", modulator, same ? "as they were sent" : "are others");
}

int main(void) {
    n_data = SLT_VALUE(slt_frame_lengths(FORMAT, 0));
    n_tfci = SLT_VALUE(slt_frame_lengths(FORMAT, 1));
    for (size_t i = 0; i < n_data; i++) {
        data[i] = i % 11 % 3; /* some of it DTX */
    }
    for (size_t i = 0; i < n_tfci; i++) {
        tfci[i] = i < n_tfci / SLOTS * 5 ? i % 2 : 2; /* silent from slot 5 on */
    }
    if (slt_frame_map(FORMAT, data, n_data, tfci, n_tfci, frame, ROOM, commands, SLOTS) != SLT_DONE) {
        return 1;
    }
    judge("a good modulator", frame);

    /* Slot 0 fifteen times. Its own pilot is wrong in slot 1 already. */
    for (size_t slot = 0; slot < SLOTS; slot++) {
        memcpy(wrong + slot * SLOT, frame, SLOT);
    }
    judge("slot 0 repeated", wrong);

    /* A field of which one digit is silent and one is not: the fields before it are 6 digits of data and 2 of TPC. */
    memcpy(wrong, frame, ROOM);
    wrong[7 * SLOT + 8] = 0;
    judge("half a TFCI", wrong);

    /* The command of slot 12 is lost in its second digit. */
    memcpy(wrong, frame, ROOM);
    wrong[12 * SLOT + 7] = 2;
    judge("half a command", wrong);
    return 0;
}
