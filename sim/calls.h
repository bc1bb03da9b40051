/* The library's mappers in one form, so that the judge can ask whichever one a circuit's contract names. */
#ifndef SIM_CALLS_H
#define SIM_CALLS_H

#include <stddef.h>
#include <stdint.h>

#ifdef __cplusplus
extern "C" {
#endif

#define SIM_NUMBERS 4 /* no mapper takes more numbers */
#define SIM_RUNS 4    /* nor more runs */
#define SIM_LONGEST 32768 /* elements; every run of a mapper is shorter */

struct sim_run {
    void *at; /* bytes, or int32_t where the call is wide */
    size_t n;
};

struct sim_call {
    const char *name;
    const char *numbers[SIM_NUMBERS + 1]; /* in the order of the call, NULL behind the last */
    const char *runs[SIM_RUNS + 1];       /* in the order of refusal 3, NULL behind the last */
    const char *out;                      /* the run that is meant where a contract names none */
    int wide;
    uint64_t (*ask)(const size_t *numbers, const struct sim_run *runs);
};

/* The call of this name, or NULL. */
const struct sim_call *sim_call_named(const char *name);

/* How long the call's runs are for these numbers; a length that is not SIM_ASK is kept as it is. Answers 0, or the number of the
 * refusal where no lengths would do. */
#define SIM_ASK ((size_t)-1)
unsigned sim_lengths(const struct sim_call *call, const size_t *numbers, size_t *lengths);

#ifdef __cplusplus
}
#endif

#endif
