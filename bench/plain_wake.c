/* Wake simulation in plain C: frame by frame, with the reader and q of plain C. */
#include "wake.h"
#include "yardsticks.h"

uint64_t plain_wake_step(slt_tally *tally, size_t np, size_t pi, const uint8_t *frame, size_t n) {
    uint8_t indicators[144];
    if (n != PICH_FRAME) return refuse(3, 0);
    if (tally->read == FULL || tally->woke == FULL) return refuse(32, 0);
    uint64_t q = plain_pich_q(np, pi, tally->next_sfn);
    if (SLT_NUMBER(q) != 0) return q;
    uint64_t read = plain_pich_read(np, frame, PICH_FRAME, indicators, np);
    if (SLT_NUMBER(read) != 0) return read;
    tally->read++;
    tally->woke += indicators[SLT_VALUE(q)];
    tally->next_sfn = tally->next_sfn == LAST_SFN ? 0 : tally->next_sfn + 1;
    return 0;
}

uint64_t plain_wake_run(size_t np, size_t pi, const uint8_t *frames, size_t n, uint32_t *read, uint32_t *woke, uint32_t *next_sfn) {
    if (n % PICH_FRAME != 0) return refuse(3, 0);
    slt_tally tally = {*read, *woke, *next_sfn};
    uint64_t answer = 0;
    for (size_t begin = 0; begin < n && answer == 0; begin += PICH_FRAME) {
        answer = plain_wake_step(&tally, np, pi, frames + begin, PICH_FRAME);
    }
    *read = tally.read;
    *woke = tally.woke;
    *next_sfn = tally.next_sfn;
    return answer;
}
