/* The numbers of PICH. */
#ifndef PICH_H
#define PICH_H

#include "parts.h"

enum { PICH_FRAME = 300, PICH_TAIL = 288, LAST_SFN = 4095 };

static inline bool is_np(size_t np) {
    return np == 18 || np == 36 || np == 72 || np == 144;
}

#endif
