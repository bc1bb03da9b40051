/* PICH in tight C: a loop of its own for each width of an indicator. */
#include <string.h>

#include "pich.h"
#include "yardsticks.h"

/* x of 144 parts in Np parts is less than Np, so that no division by Np is needed. */
uint64_t tight_pich_q(size_t np, size_t pi, size_t sfn) {
    if (!is_np(np) || pi >= np || sfn > LAST_SFN) return plain_pich_q(np, pi, sfn);
    size_t x = 18 * (sfn + sfn / 8 + sfn / 64 + sfn / 512) % 144;
    size_t q = pi + x * np / 144;
    return (uint64_t)(q < np ? q : q - np) << 48;
}

static inline void spread(size_t width, const uint8_t *indicators, uint8_t *frame) {
    for (size_t q = 0; q < PICH_TAIL / width; q++) memset(frame + width * q, indicators[q], width);
}

uint64_t tight_pich_map(size_t np, const uint8_t *indicators, size_t n_indicators, uint8_t *frame, size_t n_frame) {
    if (!is_np(np) || n_indicators != np || n_frame != PICH_FRAME || any_above(indicators, np, 1)) {
        return plain_pich_map(np, indicators, n_indicators, frame, n_frame);
    }
    switch (np) {
    case 18: spread(16, indicators, frame); break;
    case 36: spread(8, indicators, frame); break;
    case 72: spread(4, indicators, frame); break;
    default: spread(2, indicators, frame);
    }
    memset(frame + PICH_TAIL, DTX, PICH_FRAME - PICH_TAIL);
    return 0;
}

/* Each digit against the first of its indicator, which is no DTX; takes the indicators. Whether something is wrong. */
static inline bool gather(size_t width, const uint8_t *frame, uint8_t *indicators) {
    uint8_t wrong = 0;
    for (size_t q = 0; q < PICH_TAIL / width; q++) {
        uint8_t first = frame[width * q];
        wrong |= first & 2;
        for (size_t i = 1; i < width; i++) wrong |= frame[width * q + i] ^ first;
        indicators[q] = first;
    }
    for (size_t i = PICH_TAIL; i < PICH_FRAME; i++) wrong |= frame[i] ^ DTX;
    return wrong;
}

uint64_t tight_pich_read(size_t np, const uint8_t *frame, size_t n_frame, uint8_t *indicators, size_t n_indicators) {
    uint8_t found[144];
    bool wrong = true;
    if (n_frame == PICH_FRAME && n_indicators == np && !any_above(frame, PICH_FRAME, 2)) {
        switch (np) {
        case 18: wrong = gather(16, frame, found); break;
        case 36: wrong = gather(8, frame, found); break;
        case 72: wrong = gather(4, frame, found); break;
        case 144: wrong = gather(2, frame, found); break;
        default: break;
        }
    }
    if (wrong) return plain_pich_read(np, frame, n_frame, indicators, n_indicators);
    memcpy(indicators, found, np);
    return 0;
}
