/* PICH: q, and frames of the fewest and of the most indicators, mapped and read. */
#include "draw.h"
#include "pich.h"
#include "row.h"
#include "yardsticks.h"

enum { MOST = 144 };

/* PI, SFN and indicators move on from call to call. */
struct pich_row {
    size_t np, n_indicators, n_frame, pi[SETS], sfn[SETS];
    uint8_t indicators[SETS][MOST + 1], frame[PICH_FRAME + 1], indicators_back[MOST + 1];
};

WAYS(pich_q, pich_row, r->np, r->pi[i % SETS], r->sfn[i % SETS])
WAYS(pich_map, pich_row, r->np, r->indicators[i % SETS], r->n_indicators, r->frame, r->n_frame)
WAYS(pich_read, pich_row, r->np, r->frame, r->n_frame, r->indicators_back, r->n_indicators)

static void draw_q(void *context, size_t np) {
    struct pich_row *r = context;
    r->np = damaged_number(np);
    for (size_t i = 0; i < SETS; i++) {
        r->pi[i] = damaged_number(draw_below(np));
        r->sfn[i] = damaged_number(draw_below(8) == 0 ? LAST_SFN : draw_below(LAST_SFN));
    }
}

static void draw_indicators(struct pich_row *r, size_t np) {
    r->np = np;
    r->n_indicators = np;
    r->n_frame = PICH_FRAME;
    for (size_t i = 0; i < SETS; i++) draw_digits(r->indicators[i], np, 2);
}

static void damage_numbers(struct pich_row *r) {
    r->np = damaged_number(r->np);
    r->n_indicators = damaged_length(r->n_indicators);
    r->n_frame = damaged_length(r->n_frame);
}

static void draw_map(void *context, size_t np) {
    struct pich_row *r = context;
    draw_indicators(r, np);
    damage_digits(r->indicators[0], np);
    damage_numbers(r);
}

static void draw_read(void *context, size_t np) {
    struct pich_row *r = context;
    draw_indicators(r, np);
    slt_pich_map(np, r->indicators[0], np, r->frame, PICH_FRAME);
    damage_digits(r->frame, PICH_FRAME);
    damage_numbers(r);
}

static struct pich_row context;

#define Q(NP) {"PICH q, Np " #NP, &pich_q, draw_q, &context, sizeof context, NP, 0}
#define MAP(NP) {"PICH map, Np " #NP, &pich_map, draw_map, &context, sizeof context, NP, PICH_FRAME}
#define READ(NP) {"PICH read, Np " #NP, &pich_read, draw_read, &context, sizeof context, NP, PICH_FRAME}

static const struct row ROWS[] = {Q(36),   MAP(18), READ(18), MAP(36),  READ(36),
                                  MAP(72), READ(72), MAP(144), READ(144)};

void bench_pich(void) {
    bench_rows(ROWS, sizeof ROWS / sizeof ROWS[0]);
}
