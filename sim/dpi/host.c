/* The calls of calls.txt from C, printed as bench.sv prints them. */
#include <inttypes.h>
#include <stdio.h>
#include <string.h>

#include "slt.h"

/* The calls whose form in SystemVerilog is another one. */
static uint64_t wake_step(uint32_t *read, uint32_t *woke, uint32_t *next_sfn, size_t np, size_t pi, const uint8_t *frame, size_t n) {
    slt_tally tally = {*read, *woke, *next_sfn};
    uint64_t answer = slt_wake_step(&tally, np, pi, frame, n);
    *read = tally.read, *woke = tally.woke, *next_sfn = tally.next_sfn;
    return answer;
}

static uint64_t taken_apart(slt_sample sample, double *inphase, double *quadrature) {
    *inphase = sample.inphase, *quadrature = sample.quadrature;
    return sample.answer;
}

#define ASK(name, call) a = call; printf("%s %u %" PRIu32 " %u\n", name, SLT_NUMBER(a), SLT_PLACE(a), SLT_VALUE(a));
#define RUN(run, n) for (int k = 0; k < n; k++) printf(" %lld", (long long)run[k]); printf("\n");
#define SHOW(number) printf(" %llu\n", (unsigned long long)number);
#define REAL(number) memcpy(&bits, &number, sizeof bits); printf(" %016" PRIx64 "\n", bits);
#define REF(number) &number
#define OUT(number) &number
#define slt_wake_step wake_step
#define slt_sample_off(i, q, antenna, one, two) taken_apart(slt_sample_off(i, q, antenna), one, two)
#define slt_sample_shared(i, q, level, antenna, one, two) taken_apart(slt_sample_shared(i, q, level, antenna), one, two)
#define slt_sample_each(i, q, first, second, antenna, one, two) taken_apart(slt_sample_each(i, q, first, second, antenna), one, two)

static uint8_t data[2000], tfci[200], commands[15], twos[300];
static uint8_t frame[300], out[2000], second[2000], back[2000], tfci_back[200], commands_back[15], bank[64];
static int32_t indicators[16], values[32], ramp[32], indicators_back[16], values_back[32];
static int64_t results[16];

int main(void) {
    uint64_t a, bits;
    uint32_t read = 0, woke = 0, next_sfn = 0;
    size_t last = SLT_DESK_FRESH;
    double inphase, quadrature;
    for (int k = 0; k < 2000; k++) data[k] = k % 2;
    for (int k = 0; k < 200; k++) tfci[k] = k % 3 == 0;
    for (int k = 0; k < 15; k++) commands[k] = k % 2;
    memset(twos, 2, sizeof twos);
    for (int k = 0; k < 16; k++) indicators[k] = k % 3 - 1;
    for (int k = 0; k < 32; k++) ramp[k] = 100 * k - 1000;
#include "calls.txt"
    return 0;
}
