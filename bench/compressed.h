/* What compressed DPCH frames share in C: the tables of formats A and B, the doubled pilot, and the gap. */
#ifndef COMPRESSED_H
#define COMPRESSED_H

#include "dpch.h"

enum { KIND_A = 1, KIND_B = 2, FEWEST = 8, MOST = 14 };

/* A row of zeros where the table has none: there is no 1A and no 16B. */
static const struct format ROWS_A[FORMAT_COUNT] = {
    {0, 4, 2, 0, 4, 10}, {0, 0, 0, 0, 0, 0}, {2, 14, 2, 0, 2, 20}, {2, 10, 2, 4, 2, 20},
    {2, 12, 2, 0, 4, 20}, {2, 8, 2, 4, 4, 20}, {2, 8, 2, 0, 8, 20}, {2, 4, 2, 4, 8, 20},
    {6, 28, 2, 0, 4, 40}, {6, 24, 2, 4, 4, 40}, {6, 24, 2, 0, 8, 40}, {6, 20, 2, 4, 8, 40},
    {12, 40, 4, 16, 8, 80}, {28, 104, 4, 16, 8, 160}, {56, 224, 8, 16, 16, 320}, {120, 480, 8, 16, 16, 640},
    {248, 992, 8, 16, 16, 1280},
};

static const struct format ROWS_B[FORMAT_COUNT] = {
    {0, 8, 4, 0, 8, 20}, {0, 4, 4, 4, 8, 20}, {4, 28, 4, 0, 4, 40}, {4, 24, 4, 4, 4, 40},
    {4, 24, 4, 0, 8, 40}, {4, 20, 4, 4, 8, 40}, {4, 16, 4, 0, 16, 40}, {4, 12, 4, 4, 16, 40},
    {12, 56, 4, 0, 8, 80}, {12, 52, 4, 4, 8, 80}, {12, 48, 4, 0, 16, 80}, {12, 44, 4, 4, 16, 80},
    {24, 96, 8, 16, 16, 160}, {56, 224, 8, 16, 16, 320}, {112, 464, 16, 16, 32, 640}, {240, 976, 16, 16, 32, 1280},
    {0, 0, 0, 0, 0, 0},
};

/* Each pair of the pilot's bits twice. */
static const uint8_t DOUBLED[SLOTS][32] = {
    {1, 1, 1, 1, 1, 1, 1, 1, 1, 1, 1, 1, 1, 0, 1, 0, 1, 1, 1, 1, 1, 1, 1, 1, 1, 1, 1, 1, 1, 0, 1, 0},
    {1, 1, 1, 1, 0, 0, 0, 0, 1, 1, 1, 1, 1, 0, 1, 0, 1, 1, 1, 1, 1, 1, 1, 1, 1, 1, 1, 1, 0, 0, 0, 0},
    {1, 1, 1, 1, 0, 1, 0, 1, 1, 1, 1, 1, 0, 1, 0, 1, 1, 1, 1, 1, 1, 0, 1, 0, 1, 1, 1, 1, 0, 0, 0, 0},
    {1, 1, 1, 1, 0, 0, 0, 0, 1, 1, 1, 1, 0, 0, 0, 0, 1, 1, 1, 1, 0, 1, 0, 1, 1, 1, 1, 1, 1, 0, 1, 0},
    {1, 1, 1, 1, 1, 0, 1, 0, 1, 1, 1, 1, 0, 1, 0, 1, 1, 1, 1, 1, 1, 1, 1, 1, 1, 1, 1, 1, 1, 1, 1, 1},
    {1, 1, 1, 1, 1, 1, 1, 1, 1, 1, 1, 1, 1, 0, 1, 0, 1, 1, 1, 1, 0, 1, 0, 1, 1, 1, 1, 1, 0, 1, 0, 1},
    {1, 1, 1, 1, 1, 1, 1, 1, 1, 1, 1, 1, 0, 0, 0, 0, 1, 1, 1, 1, 1, 0, 1, 0, 1, 1, 1, 1, 1, 1, 1, 1},
    {1, 1, 1, 1, 1, 0, 1, 0, 1, 1, 1, 1, 0, 0, 0, 0, 1, 1, 1, 1, 1, 0, 1, 0, 1, 1, 1, 1, 0, 0, 0, 0},
    {1, 1, 1, 1, 0, 1, 0, 1, 1, 1, 1, 1, 1, 0, 1, 0, 1, 1, 1, 1, 0, 0, 0, 0, 1, 1, 1, 1, 1, 1, 1, 1},
    {1, 1, 1, 1, 1, 1, 1, 1, 1, 1, 1, 1, 1, 1, 1, 1, 1, 1, 1, 1, 0, 0, 0, 0, 1, 1, 1, 1, 1, 1, 1, 1},
    {1, 1, 1, 1, 0, 1, 0, 1, 1, 1, 1, 1, 0, 1, 0, 1, 1, 1, 1, 1, 1, 1, 1, 1, 1, 1, 1, 1, 1, 0, 1, 0},
    {1, 1, 1, 1, 1, 0, 1, 0, 1, 1, 1, 1, 1, 1, 1, 1, 1, 1, 1, 1, 0, 0, 0, 0, 1, 1, 1, 1, 1, 0, 1, 0},
    {1, 1, 1, 1, 1, 0, 1, 0, 1, 1, 1, 1, 0, 0, 0, 0, 1, 1, 1, 1, 0, 1, 0, 1, 1, 1, 1, 1, 0, 1, 0, 1},
    {1, 1, 1, 1, 0, 0, 0, 0, 1, 1, 1, 1, 1, 1, 1, 1, 1, 1, 1, 1, 0, 0, 0, 0, 1, 1, 1, 1, 0, 0, 0, 0},
    {1, 1, 1, 1, 0, 0, 0, 0, 1, 1, 1, 1, 1, 1, 1, 1, 1, 1, 1, 1, 1, 0, 1, 0, 1, 1, 1, 1, 0, 1, 0, 1},
};

/* The row of a format and kind; its slot is 0 where the table has none. */
static inline const struct format *compressed_row(size_t format, size_t kind) {
    static const struct format none;
    if (format >= FORMAT_COUNT) return &none;
    return kind == KIND_A ? &ROWS_A[format] : kind == KIND_B ? &ROWS_B[format] : &none;
}

static inline const uint8_t *compressed_pilot(const struct format *f, size_t kind, size_t slot) {
    if (kind == KIND_A) return pilot_of(f, slot);
    return f->pilot == 4 ? DOUBLED[slot] + 4 : DOUBLED[slot];
}

static inline bool gap_stands(size_t first, size_t missing) {
    return missing >= SLOTS - MOST && missing <= SLOTS - FEWEST && first <= SLOTS - missing;
}

static inline bool is_missing(size_t first, size_t missing, size_t slot) {
    return slot >= first && slot - first < missing;
}

#endif
