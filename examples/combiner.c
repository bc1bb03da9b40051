/* The receiver of a handset: two antennas send one AICH, each through its own path, and the handset wants to know what it was told. The combiner
 * gives a number for each signature: 32·(|h1|² + |h2|²) times its indicator, and what noise adds. docs/DEMAND3.md. */
#include <inttypes.h>
#include <stdio.h>

#include "slt.h"

enum { VALUES = 32, SIGNATURES = 16 };
static const int64_t h1[2] = {3, -2}, h2[2] = {-1, 4}; /* the gains of the two paths, real and imaginary part */

/* What arrives: each antenna's symbols times its gain, and a little noise. */
static void receive(const int32_t *first, const int32_t *second, int32_t *received) {
    for (size_t k = 0; k < VALUES; k += 2) {
        int64_t re = h1[0] * first[k] - h1[1] * first[k + 1] + h2[0] * second[k] - h2[1] * second[k + 1];
        int64_t im = h1[0] * first[k + 1] + h1[1] * first[k] + h2[0] * second[k + 1] + h2[1] * second[k];
        received[k] = (int32_t)(re + (int64_t)(k % 3) - 1);
        received[k + 1] = (int32_t)(im + (int64_t)(k % 5) - 2);
    }
}

/* The signatures whose number is more than half of what an indicator gives. */
static int decide(const char *receiver, const int64_t *a, const int64_t *b, const int32_t *received) {
    int64_t results[SIGNATURES], full = 32 * (a[0] * a[0] + a[1] * a[1] + b[0] * b[0] + b[1] * b[1]);
    if (slt_aich_combine(a[0], a[1], b[0], b[1], received, VALUES, results, SIGNATURES) != SLT_DONE) {
        return 0;
    }
    printf("%s:", receiver);
    for (size_t s = 0; s < SIGNATURES; s++) {
        if (results[s] > full / 2 || -results[s] > full / 2) {
            printf(" signature %zu %s (%" PRId64 " of %" PRId64 ")", s, results[s] > 0 ? "yes" : "no", results[s], full);
        }
    }
    putchar('\n');
    return 1;
}

int main(void) {
    const int32_t indicators[SIGNATURES] = {[3] = 1, [9] = -1};
    int32_t first[VALUES], second[VALUES], received[VALUES];
    if (slt_aich_map(indicators, SIGNATURES, first, VALUES) != SLT_DONE || slt_sttd_values(first, VALUES, second, VALUES) != SLT_DONE) {
        return 1;
    }
    receive(first, second, received);
    if (!decide("a good receiver", h1, h2, received) || !decide("the gains swapped", h2, h1, received)) {
        return 1;
    }

    /* For the simulator: symbol 2 as samples, with a level for each antenna. A sample is rounded once. */
    for (size_t antenna = 0; antenna < 2; antenna++) {
        const int32_t *sent = (antenna == 0 ? first : second) + 4;
        slt_sample sample = slt_sample_each(sent[0], sent[1], 0.7f, 0.1f, antenna);
        printf("antenna %zu sends %" PRId32 " %" PRId32 " as %.9g %.9g\n", antenna + 1, sent[0], sent[1], sample.inphase, sample.quadrature);
    }
    return 0;
}
