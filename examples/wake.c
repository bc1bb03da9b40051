/* How often does a handset wake for nothing? One paging indicator serves many handsets, and the more of them there are (Np), the fewer share
 * one. The same pages are sent with each Np; our handset is paged once. docs/WAKE.md. */
#include <stdio.h>

#include "slt.h"

enum { FRAMES = 64, FIRST_SFN = 4064, FRAME = 300, OURS = 1007 };

/* The handset that is paged in a frame: ours in frame 40, another one in each of the others. */
static size_t paged(size_t frame) {
    return frame == 40 ? OURS : 4211 + 977 * frame;
}

/* A recording: in each frame the indicator of one handset is set. Which one that is changes with the SFN, and 4095 is followed by 0. */
static int record(size_t np, uint8_t *frames) {
    for (size_t k = 0; k < FRAMES; k++) {
        uint8_t indicators[144] = {0};
        uint64_t q = slt_pich_q(np, paged(k) % np, (FIRST_SFN + k) % 4096); /* higher layers give a handset its PI by its number modulo Np */
        if (SLT_NUMBER(q) != SLT_DONE) {
            return 0;
        }
        indicators[SLT_VALUE(q)] = 1;
        if (slt_pich_map(np, indicators, np, frames + k * FRAME, FRAME) != SLT_DONE) {
            return 0;
        }
    }
    return 1;
}

int main(void) {
    static const size_t choices[4] = {18, 36, 72, 144};
    static uint8_t frames[FRAMES * FRAME];

    for (size_t i = 0; i < 4; i++) {
        size_t np = choices[i];
        uint32_t read = 0, woke = 0, sfn = FIRST_SFN;
        if (!record(np, frames) || slt_wake_run(np, OURS % np, frames, sizeof frames, &read, &woke, &sfn) != SLT_DONE) {
            return 1;
        }
        printf("Np %3zu: %u frames to SFN %u, wakes: %u, for nothing: %u\n", np, read, sfn - 1, woke, woke - 1);
    }

    /* A receiver that loses the end of a frame. The run stops there: the tally says how far it came, and the place is within that frame. */
    uint32_t read = 0, woke = 0, sfn = FIRST_SFN;
    frames[50 * FRAME + 292] = 0; /* the last 12 digits of a frame are never sent */
    uint64_t answer = slt_wake_run(144, OURS % 144, frames, sizeof frames, &read, &woke, &sfn);
    printf("a noisy tail: refused %u in frame %u, digit %u, wakes before: %u\n", SLT_NUMBER(answer), read, SLT_PLACE(answer), woke);

    /* Leave that frame out, move the SFN on, and go on behind it. */
    sfn = (sfn + 1) % 4096;
    answer = slt_wake_run(144, OURS % 144, frames + 51 * FRAME, sizeof frames - 51 * FRAME, &read, &woke, &sfn);
    printf("and behind it: %s, %u frames read, next SFN %u\n", SLT_NUMBER(answer) == SLT_DONE ? "done" : "refused", read, sfn);
    return 0;
}
