/* Wake simulation in tight C: a loop of its own for each width of an indicator asks whether all of a frame is good, and one digit is taken. */
#include "wake.h"
#include "yardsticks.h"

/* Each digit against the first of its indicator, which is no DTX. Whether something is wrong. */
static inline bool unlike(size_t width, const uint8_t *frame) {
    uint8_t wrong = 0;
    for (size_t q = 0; q < PICH_TAIL / width; q++) {
        uint8_t first = frame[width * q];
        wrong |= first & 2;
        for (size_t i = 1; i < width; i++) wrong |= frame[width * q + i] ^ first;
    }
    for (size_t i = PICH_TAIL; i < PICH_FRAME; i++) wrong |= frame[i] ^ DTX;
    return wrong;
}

static inline bool wrong_digits(size_t np, const uint8_t *frame) {
    if (any_above(frame, PICH_FRAME, 2)) return true;
    switch (np) {
    case 18: return unlike(16, frame);
    case 36: return unlike(8, frame);
    case 72: return unlike(4, frame);
    default: return unlike(2, frame);
    }
}

uint64_t tight_wake_step(slt_tally *tally, size_t np, size_t pi, const uint8_t *frame, size_t n) {
    if (n != PICH_FRAME || tally->read == FULL || tally->woke == FULL) return plain_wake_step(tally, np, pi, frame, n);
    uint64_t q = tight_pich_q(np, pi, tally->next_sfn);
    if (SLT_NUMBER(q) != 0 || wrong_digits(np, frame)) return plain_wake_step(tally, np, pi, frame, n);
    tally->read++;
    tally->woke += frame[PICH_TAIL / np * SLT_VALUE(q)];
    tally->next_sfn = (tally->next_sfn + 1) % SFNS;
    return 0;
}

uint64_t tight_wake_run(size_t np, size_t pi, const uint8_t *frames, size_t n, uint32_t *read, uint32_t *woke, uint32_t *next_sfn) {
    if (n % PICH_FRAME != 0) return refuse(3, 0);
    slt_tally tally = {*read, *woke, *next_sfn};
    uint64_t answer = 0;
    for (size_t begin = 0; begin < n && answer == 0; begin += PICH_FRAME) {
        answer = tight_wake_step(&tally, np, pi, frames + begin, PICH_FRAME);
    }
    *read = tally.read;
    *woke = tally.woke;
    *next_sfn = tally.next_sfn;
    return answer;
}
