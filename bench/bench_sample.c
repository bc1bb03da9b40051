/* Samples at each transmit setting. */
#include <math.h>

#include "draw.h"
#include "row.h"
#include "yardsticks.h"

enum { LIMIT = 16 };

/* All inputs move on from call to call. */
struct sample_row {
    int64_t i[SETS], q[SETS];
    size_t antenna[SETS];
    float first[SETS], second[SETS];
    slt_sample sample;
};

/* A sample is kept in the context, where the comparison looks at its parts too. */
static inline uint64_t keep(struct sample_row *r, slt_sample sample) {
    r->sample = sample;
    return sample.answer;
}

#define KEPT(sample) keep(r, sample)

WAYS_OF(KEPT, sample_off, sample_row, r->i[i % SETS], r->q[i % SETS], r->antenna[i % SETS])
WAYS_OF(KEPT, sample_shared, sample_row, r->i[i % SETS], r->q[i % SETS], r->first[i % SETS], r->antenna[i % SETS])
WAYS_OF(KEPT, sample_each, sample_row, r->i[i % SETS], r->q[i % SETS], r->first[i % SETS], r->second[i % SETS],
        r->antenna[i % SETS])

/* From 1/1024 to 1024, its ends among them; damaged, just outside, of the other sign or no number at all. */
static float draw_level(void) {
    float good = ldexpf(1.0f + (float)draw_below(1 << 23) / (1 << 23), (int)draw_below(20) - 10);
    if (draw_below(8) == 0) good = draw_below(2) ? 1024.0f : 1.0f / 1024;
    if (damaged_number(0) == 0) return good;
    switch (draw_below(4)) {
    case 0: return nextafterf(1024.0f, 2048.0f);
    case 1: return nextafterf(1.0f / 1024, 0.0f);
    case 2: return -good;
    default: return NAN;
    }
}

static void draw_sample(void *context, size_t choice) {
    struct sample_row *r = context;
    (void)choice;
    for (size_t i = 0; i < SETS; i++) {
        r->i[i] = damaged_value(draw_value(LIMIT), LIMIT);
        r->q[i] = damaged_value(draw_value(LIMIT), LIMIT);
        r->antenna[i] = damaged_number(draw_below(2));
        r->first[i] = draw_level();
        r->second[i] = draw_level();
    }
}

static struct sample_row context;

#define ROW(NAME, WAYS) {NAME, WAYS, draw_sample, &context, sizeof context, 0, 0}

static const struct row ROWS[] = {
    ROW("sample, off", &sample_off),
    ROW("sample, shared level", &sample_shared),
    ROW("sample, a level for each", &sample_each),
};

void bench_sample(void) {
    bench_rows(ROWS, sizeof ROWS / sizeof ROWS[0]);
}
