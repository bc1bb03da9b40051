/* Wake simulation: a run over as many recorded frames as there are SFNs, and single steps. */
#include <string.h>

#include "draw.h"
#include "row.h"
#include "wake.h"
#include "yardsticks.h"

enum { FRAMES = SFNS, DIGITS = FRAMES * PICH_FRAME, MOST = 144, SHOWN = 16 };

/* The recording, which no call writes, stands beside the context. */
static uint8_t frames[DIGITS + 1];

struct wake_row {
    size_t np, pi, n;
    uint32_t read, woke, next_sfn;
    slt_tally tally;
};

WAYS(wake_run, wake_row, r->np, r->pi, frames, r->n, &r->read, &r->woke, &r->next_sfn)
WAYS(wake_step, wake_row, &r->tally, r->np, r->pi, frames + PICH_FRAME * (i % SETS), r->n)

/* As many different frames as are shown, over and over; one of all is damaged. */
static void record(size_t np) {
    uint8_t indicators[MOST];
    for (size_t i = 0; i < SHOWN; i++) {
        draw_digits(indicators, np, 2);
        slt_pich_map(np, indicators, np, frames + PICH_FRAME * i, PICH_FRAME);
    }
    for (size_t i = SHOWN; i < FRAMES; i++) memcpy(frames + PICH_FRAME * i, frames + PICH_FRAME * (i % SHOWN), PICH_FRAME);
    damage_digits(frames + PICH_FRAME * draw_below(FRAMES), PICH_FRAME);
    damage_digits(frames, PICH_FRAME * SHOWN);
}

static void draw_numbers(struct wake_row *r, size_t np) {
    r->np = damaged_number(np);
    r->pi = damaged_number(draw_below(np));
    r->next_sfn = (uint32_t)damaged_number(draw_below(8) == 0 ? LAST_SFN : draw_below(LAST_SFN));
    r->read = draw_below(2) == 0 ? (uint32_t)damaged_number(0) : 0;
    r->woke = 0;
    r->tally = (slt_tally){r->read, r->woke, r->next_sfn};
}

static void draw_run(void *context, size_t np) {
    struct wake_row *r = context;
    record(np);
    draw_numbers(r, np);
    r->n = damaged_length(DIGITS);
}

static void draw_step(void *context, size_t np) {
    struct wake_row *r = context;
    record(np);
    draw_numbers(r, np);
    r->n = damaged_length(PICH_FRAME);
}

static struct wake_row context;

#define RUN(NP) {"wake run, Np " #NP, &wake_run, draw_run, &context, sizeof context, NP, DIGITS}
#define STEP(NP) {"wake step, Np " #NP, &wake_step, draw_step, &context, sizeof context, NP, PICH_FRAME}

static const struct row ROWS[] = {RUN(18), RUN(36), RUN(72), RUN(144), STEP(36)};

void bench_wake(void) {
    bench_rows(ROWS, sizeof ROWS / sizeof ROWS[0]);
}
