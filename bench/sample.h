/* The ranges of samples. */
#ifndef SAMPLE_H
#define SAMPLE_H

#include <stdbool.h>
#include <stdint.h>

static inline bool is_value(int64_t v) {
    return v >= -16 && v <= 16;
}

/* A NaN is no level. */
static inline bool is_level(float level) {
    return level >= 1.0f / 1024 && level <= 1024;
}

#endif
