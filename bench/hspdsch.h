/* What both yardsticks of the HS-PDSCH share: the digits of a subframe of each format. */
#ifndef HSPDSCH_H
#define HSPDSCH_H

#include <string.h>

#include "parts.h"

enum { HSPDSCH_FORMATS = 2, QPSK = 960, QAM = 1920 };

static const size_t SUBFRAME[HSPDSCH_FORMATS] = {QPSK, QAM};

#endif
