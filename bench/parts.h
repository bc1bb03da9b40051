/* What every channel of the yardsticks uses. */
#ifndef PARTS_H
#define PARTS_H

#include <stdbool.h>
#include <stddef.h>
#include <stdint.h>

enum { DTX = 2 };

static inline uint64_t refuse(unsigned number, size_t place) {
    return (uint64_t)number | (uint64_t)place << 16;
}

/* The length of a run as the value; there are n of them. */
static inline uint64_t tell_length(const size_t *lengths, size_t n, size_t run) {
    return run < n ? (uint64_t)lengths[run] << 48 : refuse(11, 0);
}

/* The first digit above the limit, or n. */
static inline size_t first_above(const uint8_t *s, size_t n, uint8_t limit) {
    size_t i = 0;
    while (i < n && s[i] <= limit) {
        i++;
    }
    return i;
}

/* Whether there is one: the greatest of all is asked, with no early way out. */
static inline bool any_above(const uint8_t *s, size_t n, uint8_t limit) {
    uint8_t greatest = 0;
    for (size_t i = 0; i < n; i++) {
        greatest = s[i] > greatest ? s[i] : greatest;
    }
    return greatest > limit;
}

/* Whether a number lies outside -limit to limit. What is found is as wide as the numbers are, so that nothing has to be packed. */
static inline bool any_outside(const int32_t *s, size_t n, int32_t limit) {
    int32_t outside = 0;
    for (size_t i = 0; i < n; i++) {
        outside |= (s[i] < -limit) | (s[i] > limit);
    }
    return outside;
}

#endif
