/* How long a call's runs are, asked of the library itself, so that no table of formats stands here. Where the library has a call that
 * answers lengths, that is asked. The lengths of the other mappers are found by lending runs of wrong ones: the answer is refusal 3, and
 * its place is the first run that is wrong. */
#include <string.h>

#include "calls.h"
#include "slt.h"

#define SAYS(name, call) static uint64_t name(const size_t *v, size_t run) { return call; }
SAYS(slot, slt_slot_lengths(v[0], run))
SAYS(frame, slt_frame_lengths(v[0], run))
SAYS(compressed, slt_compressed_lengths(v[0], v[1], v[2], v[3], run))
SAYS(dpdch, slt_dpdch_lengths(v[0], run))
SAYS(dpdch_frame, slt_dpdch_frame_lengths(v[0], run))
SAYS(dpcch, slt_dpcch_lengths(v[0], run))
SAYS(dpcch_frame, slt_dpcch_frame_lengths(v[0], run))
SAYS(hspdsch, slt_hspdsch_lengths(v[0], run))

static const struct {
    const char *mapper;
    uint64_t (*length)(const size_t *numbers, size_t run);
} said[] = {
    {"slt_slot_map", slot},           {"slt_slot_map_antenna", slot},       {"slt_frame_map", frame},
    {"slt_compressed_map", compressed}, {"slt_dpdch_map", dpdch},           {"slt_dpdch_frame_map", dpdch_frame},
    {"slt_dpcch_map", dpcch},         {"slt_dpcch_frame_map", dpcch_frame}, {"slt_hspdsch_map", hspdsch},
};

/* Zeros are good digits and good values of every run, and what a mapper writes here is not looked at. */
static int32_t zeros[SIM_RUNS][SIM_LONGEST];

static uint64_t ask(const struct sim_call *call, const size_t *numbers, const size_t *lengths) {
    struct sim_run runs[SIM_RUNS];
    for (unsigned k = 0; k < SIM_RUNS; k++) {
        runs[k].at = zeros[k];
        runs[k].n = lengths[k];
    }
    return call->ask(numbers, runs);
}

static int is_wrong(uint64_t answer, unsigned run) {
    return SLT_NUMBER(answer) == SLT_REFUSED_LENGTH && SLT_PLACE(answer) <= run;
}

/* The length of a run behind those that are known. Where the numbers are refused it stays 0. */
static size_t length(const struct sim_call *call, const size_t *numbers, size_t *n, unsigned run) {
    for (size_t k = 0; k < sizeof said / sizeof *said; k++)
        if (strcmp(said[k].mapper, call->name) == 0) return SLT_VALUE(said[k].length(numbers, run));
    while (is_wrong(ask(call, numbers, n), run) && n[run] < SIM_LONGEST) n[run]++;
    return n[run];
}

unsigned sim_lengths(const struct sim_call *call, const size_t *numbers, size_t *lengths) {
    size_t n[SIM_RUNS];
    memset(zeros, 0, sizeof zeros);
    for (unsigned k = 0; k < SIM_RUNS; k++) n[k] = lengths[k] == SIM_ASK ? 0 : lengths[k];
    for (unsigned k = 0; k < SIM_RUNS && call->runs[k]; k++)
        if (lengths[k] == SIM_ASK) n[k] = length(call, numbers, n, k);
    unsigned number = SLT_NUMBER(ask(call, numbers, n));
    for (unsigned k = 0; k < SIM_RUNS && number == SLT_DONE; k++) lengths[k] = n[k];
    return number;
}
