/* What the rows of the benchmark need. A row is one call of slt.h on inputs that it draws: the library, the tight C, the plain C
 * and a memcpy. First all three are compared, valid and damaged, then all four are timed in turns and the ratios printed.
 *
 * A new row is a context (what the call is given and where it writes), WAYS, a function that draws the context, and a line in a
 * table of rows. */
#ifndef ROW_H
#define ROW_H

#include <stddef.h>
#include <stdint.h>

/* Inputs that move on from call to call have so many sets. */
enum { SETS = 16 };

/* One way of doing a row: makes the call `times` times and gives the sum of the answers. Call i takes set i of the inputs. The
 * calls stand in other files, so that none can be left out. */
typedef uint64_t (*way)(void *context, size_t times);

struct ways {
    way library, tight, plain;
};

#define WAY(NAME, CONTEXT, ANSWER)                      \
    static uint64_t NAME(void *context, size_t times) { \
        struct CONTEXT *r = context;                    \
        uint64_t sum = 0;                               \
        for (size_t i = 0; i < times; i++) {            \
            sum += ANSWER;                              \
        }                                               \
        return sum;                                     \
    }

/* The ways of a call: slt_CALL, tight_CALL and plain_CALL on these arguments, which may speak of the context as r and of the number
 * of the call as i. ANSWER_OF makes a number of what they answer. */
#define WAYS_OF(ANSWER_OF, CALL, CONTEXT, ...)                            \
    WAY(CALL##_library, CONTEXT, ANSWER_OF(slt_##CALL(__VA_ARGS__)))      \
    WAY(CALL##_tight, CONTEXT, ANSWER_OF(tight_##CALL(__VA_ARGS__)))      \
    WAY(CALL##_plain, CONTEXT, ANSWER_OF(plain_##CALL(__VA_ARGS__)))      \
    static const struct ways CALL = {CALL##_library, CALL##_tight, CALL##_plain};

/* Most calls answer a number. */
#define WAYS(CALL, CONTEXT, ...) WAYS_OF(, CALL, CONTEXT, __VA_ARGS__)

struct row {
    const char *name;
    const struct ways *ways;
    /* Draws the whole context anew: good, and then damaged by the functions of draw.h, which do so in the comparison alone. */
    void (*draw)(void *context, size_t choice);
    void *context;
    size_t size;   /* of the context */
    size_t choice; /* what the drawing is told: a format, an Np, a length */
    size_t bytes;  /* what memcpy copies for the row; 0 where the call has no run */
};

/* Draws many cases and ends the benchmark with status 1 where answers, or any byte of the context, differ. */
void compare_row(const struct row *row);

/* Compares each row, times it and prints its ratios. */
void bench_rows(const struct row *rows, size_t n);

/* The time of a clock that only runs forward. */
double now_ns(void);

/* Prints a row: its ratios, and the nanoseconds in brackets. Of copy 0 there is no ratio. */
void print_row(const char *name, double library, double tight, double plain, double copy);

#endif
