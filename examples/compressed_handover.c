/* A handover: the handset listens to another cell for eleven slots, in which the base station sends nothing. No frame may miss so many, so
 * the gap is the end of one frame and the beginning of the next. The first is compressed by scheduling (A: slots keep their length), the second
 * by half the spreading factor (B: slots are twice as long). docs/RULES.md, 'Compressed frames'. */
#include <stdio.h>
#include <string.h>

#include "slt.h"

enum { A = 1, B = 2, FORMAT = 9, ROOM = 2048 };
static uint8_t data[ROOM], tfci[ROOM], frame[ROOM], commands[15], data_back[ROOM], tfci_back[ROOM], commands_back[15];

/* How long a run of the frame is: 0 data, 1 TFCI, 2 frame, 3 commands. The library is asked, so that no table of formats is typed here. */
static size_t length(size_t kind, size_t first, size_t missing, size_t run) {
    return SLT_VALUE(slt_compressed_lengths(FORMAT, kind, first, missing, run));
}

static uint64_t read_back(size_t kind, size_t first, size_t missing) {
    return slt_compressed_read(FORMAT, kind, first, missing, frame, length(kind, first, missing, 2), data_back, length(kind, first, missing, 0),
                               tfci_back, length(kind, first, missing, 1), commands_back, length(kind, first, missing, 3));
}

/* Maps a frame with that gap, shows which slots are sent, and reads it. Data, TFCI and commands are those of the sent slots alone. */
static uint64_t send(size_t kind, size_t first, size_t missing) {
    size_t n_data = length(kind, first, missing, 0), n_tfci = length(kind, first, missing, 1), n = length(kind, first, missing, 2);
    uint64_t mapped = slt_compressed_map(FORMAT, kind, first, missing, data, n_data, tfci, n_tfci, frame, n, commands, 15 - missing);
    if (SLT_NUMBER(mapped) != SLT_DONE) {
        return mapped;
    }
    printf("%d%c: slots of %zu digits, ", FORMAT, kind == A ? 'A' : 'B', n / 15);
    for (size_t slot = 0; slot < 15; slot++) {
        putchar(frame[slot * (n / 15)] == 2 ? '-' : 's'); /* this data has no DTX */
    }
    uint64_t answer = read_back(kind, first, missing);
    printf(", data %s\n", memcmp(data, data_back, n_data) == 0 && memcmp(commands, commands_back, 15 - missing) == 0 ? "read back" : "lost");
    return answer;
}

int main(void) {
    for (size_t i = 0; i < ROOM; i++) {
        data[i] = i % 3 == 0;
    }
    if (send(A, 8, 7) != SLT_DONE || send(B, 0, 4) != SLT_DONE) {
        return 1;
    }

    /* A transmitter that is back one digit too early, in the last digit of the gap. */
    frame[4 * 80 - 1] = 1;
    uint64_t answer = read_back(B, 0, 4);
    printf("sent in the gap: refused %u in slot %u, digit %u\n", SLT_NUMBER(answer), SLT_PLACE(answer) / 80, SLT_PLACE(answer) % 80);

    /* A schedule with a gap that no compressed frame can have: 8 slots at least are sent. */
    printf("a gap of 8 slots: refused %u\n", SLT_NUMBER(send(A, 7, 8)));
    return 0;
}
