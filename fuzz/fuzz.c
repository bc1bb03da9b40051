/* fuzz.c: reads the cases of `fuzz SEED` (second/src/bin/fuzz) on standard input, makes each call, and compares the answer,
 * the sample and every byte of every run with what the rules say. The first difference ends the run with status 1; so does
 * whatever the sanitizers or the processor refuse. Each time the seed and the case are printed. */
#define _DEFAULT_SOURCE /* alarm */

#include <inttypes.h>
#include <stdio.h>
#include <string.h>
#include <unistd.h>

#include "calls.h"
#include "lent.h"
#include "say.h"

/* A call that takes so many seconds does not end. */
#define PATIENCE 120

static struct test test;

/* The stream */

static void take(void *to, size_t bytes) {
    if (fread(to, 1, bytes, stdin) != bytes) {
        give_up("the stream of cases was cut");
    }
}

static uint64_t take_number(void) {
    uint64_t number;
    take(&number, sizeof number);
    return number;
}

static void take_mark(const char *mark) {
    char found[8];
    take(found, sizeof found);
    if (memcmp(found, mark, sizeof found) != 0) {
        give_up("this is no stream of cases");
    }
}

static void take_run(struct run *run, char size) {
    uint8_t kind[2];
    take(kind, sizeof kind);
    run->what = kind[0];
    run->place = kind[1];
    run->size = (size_t)(size - '0');
    run->length = take_number();
    if (run->what > CHANGED || run->place > BEHIND_FORBIDDEN) {
        give_up("a run of no kind");
    }
    if (run->what != HUGE_ROOM && run->length > LONGEST / run->size) {
        give_up("a run is too long");
    }
    if (run->what == CHANGED) {
        take(run->before, run->length * run->size);
    }
    if (run->what == HELD || run->what == WRITTEN || run->what == CHANGED) {
        take(run->told, run->length * run->size);
    }
}

static void take_test(void) {
    uint8_t call;
    take(&call, sizeof call);
    if (call >= n_calls) {
        give_up("there is no such call");
    }
    test.call = &calls[call];
    for (size_t i = 0; i < test.call->numbers; i++) {
        test.given[i] = take_number();
    }
    for (size_t i = 0; test.call->sizes[i] != '\0'; i++) {
        take_run(&test.run[i], test.call->sizes[i]);
    }
    test.expected = take_number();
    take(&test.expected_sample, sizeof test.expected_sample);
}

/* Differences */

static void compare_runs(void) {
    for (size_t i = 0; test.call->sizes[i] != '\0'; i++) {
        ptrdiff_t at = 0;
        const char *wrong = take_back(&test.run[i], test.number, &at);
        if (wrong != NULL) {
            fprintf(stderr, "fuzz: DIFFERENCE: run %zu, byte %td\n", i, at);
            differ(wrong);
        }
    }
}

/* Answers of other calls must not be what this one is thought to have answered. */
static void make_call(void) {
    static const struct sample_bits no_sample = {0, 0};
    test.got = UINT64_MAX;
    test.got_sample = no_sample;
    for (size_t i = 0; test.call->sizes[i] != '\0'; i++) {
        lend(&test.run[i], i, test.number);
    }
    test.call->make(&test);
    if (test.got != test.expected || memcmp(&test.got_sample, &test.expected_sample, sizeof no_sample) != 0) {
        differ("DIFFERENCE: the answer");
    }
    compare_runs();
}

int main(void) {
    static uint8_t told[MOST_RUNS][LONGEST], before[MOST_RUNS][LONGEST];
    for (size_t i = 0; i < MOST_RUNS; i++) {
        test.run[i].told = told[i];
        test.run[i].before = before[i];
    }
    speak_of(&test);
    prepare_memory();
    take_mark("SLTFUZZ1");
    test.seed = take_number();
    uint64_t first = take_number(), count = take_number();
    for (test.number = first; test.number - first < count; test.number++) {
        if ((test.number - first) % 1024 == 0) {
            alarm(PATIENCE);
        }
        take_test();
        make_call();
    }
    take_mark("SLTDONE1");
    printf("fuzz: seed %" PRIu64 ", %" PRIu64 " cases of %zu calls, all equal\n", test.seed, count, n_calls);
    return 0;
}
