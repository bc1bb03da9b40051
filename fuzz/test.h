/* test.h: what a test of a C call is. The second program draws the cases and says what each must answer
 * (second/src/bin/fuzz); here they are made, in memory where a stray access shows, and compared. No rule stands here. */
#ifndef TEST_H
#define TEST_H

#include <stddef.h>
#include <stdint.h>

#define MOST_NUMBERS 5
#define MOST_RUNS 4

/* The longest run that is told in the stream, in bytes: more than the longest buffer of a bank, and whole pages. */
#define LONGEST (((size_t)1 << 16) + 4096)

/* What a run is. */
enum what {
    HELD,    /* read: the elements told are those it holds, before and after */
    WRITTEN, /* the elements told are those it must hold after the call */
    KEPT,    /* room that nothing may be written to */
    NO_RUN,  /* NULL, with length 0 */
    HUGE_ROOM, /* room too long for any memory; nothing may be written to it */
    CHANGED  /* told twice: the elements it holds before the call, and those it must hold after */
};

/* Where a run is put. */
enum place { ON_HEAP, BEFORE_FORBIDDEN, BEHIND_FORBIDDEN };

struct run {
    enum what what;
    enum place place;
    size_t length;  /* in elements */
    size_t size;    /* of an element, in bytes */
    uint8_t *told;  /* LONGEST bytes; those of the stream, if any */
    uint8_t *before; /* the same; those before the call of a run that is told twice */
    uint8_t *lent;  /* what the call is given */
};

struct sample_bits {
    uint32_t inphase, quadrature;
};

struct test {
    uint64_t seed, number;
    const struct call *call;
    uint64_t given[MOST_NUMBERS];
    struct run run[MOST_RUNS];
    uint64_t expected, got;
    struct sample_bits expected_sample, got_sample;
};

/* A call of slt.h. */
struct call {
    const char *name;
    size_t numbers;
    const char *sizes; /* a digit for each run: the bytes of an element */
    void (*make)(struct test *test);
};

#endif
