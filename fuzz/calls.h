/* calls.h: the calls of slt.h, in its order. */
#ifndef CALLS_H
#define CALLS_H

#include "test.h"

extern const struct call calls[];
extern const size_t n_calls;

#endif
