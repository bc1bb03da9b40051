/* say.c: whatever ends a run early, the seed and the case are printed, and status 1 is answered. */
#define _DEFAULT_SOURCE /* write and _exit */

#include "say.h"

#include <inttypes.h>
#include <signal.h>
#include <stdio.h>
#include <stdlib.h>
#include <unistd.h>

#include <sanitizer/common_interface_defs.h>

#include "slt.h"

/* How many elements of a run a message shows. */
#define SHOWN 24

static const struct test *current;

/* The case in words that every end of the run has: it must be all that is needed to repeat it. */
static void say_case(void) {
    const char *name = current->call == NULL ? "no call" : current->call->name;
    fprintf(stderr, "fuzz: %s, seed %" PRIu64 ", case %" PRIu64 "\n", name, current->seed, current->number);
    fprintf(stderr, "fuzz: to repeat it alone: make fuzz SEED=%" PRIu64 " CASE=%" PRIu64 "\n", current->seed,
            current->number);
}

_Noreturn void give_up(const char *why) {
    fprintf(stderr, "fuzz: %s\n", why);
    say_case();
    exit(1);
}

static void say_answer(const char *whose, uint64_t answer, struct sample_bits sample) {
    fprintf(stderr, "  %s number %u place %" PRIu32 " value %u, sample %08" PRIx32 " %08" PRIx32 "\n", whose,
            SLT_NUMBER(answer), SLT_PLACE(answer), SLT_VALUE(answer), sample.inphase, sample.quadrature);
}

static void say_run(size_t i) {
    static const char *const whats[] = {"holds", "is to hold", "is to be kept", "is NULL", "is huge", "is to hold in the end"};
    static const char *const places[] = {", on the heap,", ", before a forbidden page,", ", behind a forbidden page,"};
    const struct run *run = &current->run[i];
    fprintf(stderr, "  run %zu: %zu elements of %zu bytes%s %s", i, run->length, run->size,
            run->what == NO_RUN || run->what == HUGE_ROOM ? "," : places[run->place], whats[run->what]);
    size_t bytes = run->what == HELD || run->what == WRITTEN || run->what == CHANGED ? run->length * run->size : 0;
    for (size_t b = 0; b < bytes && b < SHOWN * run->size; b++) {
        fprintf(stderr, "%s%02x", b % run->size == 0 ? " " : "", run->told[b]);
    }
    fprintf(stderr, bytes > SHOWN * run->size ? " ...\n" : "\n");
}

/* What the call was given, whatever ends the run. */
static void say_test(void) {
    if (current->call == NULL) {
        return;
    }
    for (size_t i = 0; i < current->call->numbers; i++) {
        fprintf(stderr, "  number %zu: %" PRIu64 " (%#" PRIx64 ")\n", i, current->given[i], current->given[i]);
    }
    for (size_t i = 0; current->call->sizes[i] != '\0'; i++) {
        say_run(i);
    }
}

_Noreturn void differ(const char *why) {
    say_test();
    say_answer("expected", current->expected, current->expected_sample);
    say_answer("got     ", current->got, current->got_sample);
    give_up(why);
}

static void out_of_patience(int signal_number) {
    (void)signal_number;
    static const char said[] = "fuzz: the call does not end\n";
    (void)!write(STDERR_FILENO, said, sizeof said - 1);
    say_case(); /* the call holds no lock of stdio, and the program ends here */
    _exit(1);
}

/* The address sanitizer calls this before it ends the program. */
static void died(void) {
    say_case();
    say_test();
}

/* The sanitizer of undefined behaviour has no such call, but can be told to abort. */
const char *__ubsan_default_options(void);
const char *__ubsan_default_options(void) {
    return "abort_on_error=1";
}

static void aborted(int signal_number) {
    (void)signal_number;
    died();
    _exit(1);
}

void speak_of(const struct test *test) {
    current = test;
    signal(SIGALRM, out_of_patience);
    signal(SIGABRT, aborted);
    __sanitizer_set_death_callback(died);
}
