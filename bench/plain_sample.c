/* Samples in plain C. */
#include "yardsticks.h"

#include "parts.h"
#include "sample.h"

static slt_sample refused(size_t place) {
    return (slt_sample){.answer = refuse(11, place)};
}

slt_sample plain_sample_off(int64_t i, int64_t q, size_t antenna) {
    if (!is_value(i)) return refused(0);
    if (!is_value(q)) return refused(1);
    if (antenna > 1) return refused(4);
    return (slt_sample){.answer = 0};
}

slt_sample plain_sample_shared(int64_t i, int64_t q, float level, size_t antenna) {
    if (!is_value(i)) return refused(0);
    if (!is_value(q)) return refused(1);
    if (!is_level(level)) return refused(2);
    if (antenna > 1) return refused(4);
    return (slt_sample){0, (float)i * level, (float)q * level};
}

slt_sample plain_sample_each(int64_t i, int64_t q, float first, float second, size_t antenna) {
    if (!is_value(i)) return refused(0);
    if (!is_value(q)) return refused(1);
    if (!is_level(first)) return refused(2);
    if (!is_level(second)) return refused(3);
    if (antenna > 1) return refused(4);
    float level = antenna == 0 ? first : second;
    return (slt_sample){0, (float)i * level, (float)q * level};
}
