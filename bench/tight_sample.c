/* Samples in tight C: all checks at once. */
#include "yardsticks.h"

#include "sample.h"

slt_sample tight_sample_off(int64_t i, int64_t q, size_t antenna) {
    if (!(is_value(i) & is_value(q) & (antenna <= 1))) return plain_sample_off(i, q, antenna);
    return (slt_sample){.answer = 0};
}

slt_sample tight_sample_shared(int64_t i, int64_t q, float level, size_t antenna) {
    if (!(is_value(i) & is_value(q) & is_level(level) & (antenna <= 1))) return plain_sample_shared(i, q, level, antenna);
    return (slt_sample){0, (float)(int32_t)i * level, (float)(int32_t)q * level};
}

slt_sample tight_sample_each(int64_t i, int64_t q, float first, float second, size_t antenna) {
    if (!(is_value(i) & is_value(q) & is_level(first) & is_level(second) & (antenna <= 1))) {
        return plain_sample_each(i, q, first, second, antenna);
    }
    float level = antenna == 0 ? first : second;
    return (slt_sample){0, (float)(int32_t)i * level, (float)(int32_t)q * level};
}
