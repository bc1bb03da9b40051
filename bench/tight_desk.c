/* The random access desk in tight C: sets of signatures are words, and a bit is cleared for each one that is served. */
#include "aich.h"
#include "yardsticks.h"

/* Sixteen bits turned: bit p of the answer is bit p + by of the set, round the circle. */
static inline unsigned turned(unsigned set, size_t by) {
    return (set >> by | set << (SIGNATURES - by)) & 0xffff;
}

/* The bit of each signature, so that four are asked at a time. */
static const uint32_t BITS[SIGNATURES] = {1, 2, 4, 8, 16, 32, 64, 128, 256, 512, 1024, 2048, 4096, 8192, 16384, 32768};

uint64_t tight_desk_serve(size_t *last, uint16_t heard, uint16_t available, size_t n, int32_t *values, size_t n_values) {
    if (n_values != VALUES || n < 1 || n > SIGNATURES || *last >= SIGNATURES) {
        return plain_desk_serve(last, heard, available, n, values, n_values);
    }
    size_t start = (*last + 1) % SIGNATURES;
    unsigned asking = turned(heard & available, start), rest = asking;
    for (size_t k = 0; k < n && rest != 0; k++) rest &= rest - 1;
    unsigned served = asking ^ rest;
    if (served != 0) *last = (start + 31 - (size_t)__builtin_clz(served)) % SIGNATURES;
    unsigned plus = turned(served, SIGNATURES - start), minus = turned(rest, SIGNATURES - start);
    int32_t indicators[SIGNATURES];
    for (size_t s = 0; s < SIGNATURES; s++) {
        indicators[s] = ((plus & BITS[s]) == BITS[s] ? 1 : 0) - ((minus & BITS[s]) == BITS[s] ? 1 : 0);
    }
    write_pairs(indicators, values);
    return 0;
}

uint64_t tight_desk_to_aich(size_t timing) {
    return timing <= 1 ? (uint64_t)(7680 + 5120 * timing) << 48 : plain_desk_to_aich(timing);
}

uint64_t tight_desk_to_message(size_t timing) {
    return timing <= 1 ? (uint64_t)(15360 + 5120 * timing) << 48 : plain_desk_to_message(timing);
}
