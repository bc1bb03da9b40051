/* PICH in plain C. */
#include <string.h>

#include "pich.h"
#include "yardsticks.h"

uint64_t plain_pich_q(size_t np, size_t pi, size_t sfn) {
    if (!is_np(np)) return refuse(8, 0);
    if (pi >= np) return refuse(11, 0);
    if (sfn > LAST_SFN) return refuse(11, 1);
    size_t x = 18 * (sfn + sfn / 8 + sfn / 64 + sfn / 512) % 144;
    return (uint64_t)((pi + x * np / 144) % np) << 48;
}

uint64_t plain_pich_map(size_t np, const uint8_t *indicators, size_t n_indicators, uint8_t *frame, size_t n_frame) {
    if (!is_np(np)) return refuse(8, 0);
    if (n_indicators != np) return refuse(3, 0);
    if (n_frame != PICH_FRAME) return refuse(3, 1);
    size_t i = first_above(indicators, np, 1);
    if (i < np) return refuse(4, i);
    size_t width = PICH_TAIL / np;
    for (size_t q = 0; q < np; q++) memset(frame + width * q, indicators[q], width);
    memset(frame + PICH_TAIL, DTX, PICH_FRAME - PICH_TAIL);
    return 0;
}

/* The first digit that may not stand in the frame, or PICH_FRAME. */
static size_t first_misfit(size_t width, const uint8_t *frame) {
    for (size_t begin = 0; begin < PICH_TAIL; begin += width) {
        for (size_t i = begin; i < begin + width; i++) {
            if (frame[i] == DTX || frame[i] != frame[begin]) return i;
        }
    }
    for (size_t i = PICH_TAIL; i < PICH_FRAME; i++) {
        if (frame[i] != DTX) return i;
    }
    return PICH_FRAME;
}

uint64_t plain_pich_read(size_t np, const uint8_t *frame, size_t n_frame, uint8_t *indicators, size_t n_indicators) {
    if (!is_np(np)) return refuse(8, 0);
    if (n_frame != PICH_FRAME) return refuse(3, 0);
    if (n_indicators != np) return refuse(3, 1);
    size_t i = first_above(frame, PICH_FRAME, 2);
    if (i < PICH_FRAME) return refuse(4, i);
    size_t width = PICH_TAIL / np;
    i = first_misfit(width, frame);
    if (i < PICH_FRAME) return refuse(9, i);
    for (size_t q = 0; q < np; q++) indicators[q] = frame[width * q];
    return 0;
}
