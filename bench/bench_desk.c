/* The random access desk: access slots in a row, each with the desk that the one before it left, and the distances. */
#include "aich.h"
#include "draw.h"
#include "row.h"
#include "yardsticks.h"

/* What is heard moves on from call to call, and so do the set and the desk. */
struct desk_row {
    size_t last, n, n_values, timing[SETS];
    uint16_t heard[SETS], available[SETS];
    int32_t values[VALUES + 1];
};

WAYS(desk_serve, desk_row, &r->last, r->heard[i % SETS], r->available[i % SETS], r->n, r->values, r->n_values)

/* Both distances of a timing. One call takes a nanosecond, of which where it stands in memory decides more than what it does. */
#define DISTANCES(whose) whose##_desk_to_aich(r->timing[i % SETS]) + 2 * whose##_desk_to_message(r->timing[i % SETS])

WAY(distances_library, desk_row, DISTANCES(slt))
WAY(distances_tight, desk_row, DISTANCES(tight))
WAY(distances_plain, desk_row, DISTANCES(plain))
static const struct ways desk_distances = {distances_library, distances_tight, distances_plain};

static void draw_slots(void *context, size_t n) {
    struct desk_row *r = context;
    r->last = damaged_number(draw_below(SIGNATURES));
    r->n = damaged_number(n);
    r->n_values = damaged_length(VALUES);
    for (size_t i = 0; i < SETS; i++) {
        r->heard[i] = (uint16_t)draw_below(65536);
        r->available[i] = (uint16_t)(draw_below(4) == 0 ? 65535 : draw_below(65536));
    }
}

static void draw_timing(void *context, size_t choice) {
    struct desk_row *r = context;
    (void)choice;
    for (size_t i = 0; i < SETS; i++) r->timing[i] = damaged_number(damaged_number(draw_below(2)));
}

static struct desk_row context;

#define SERVE(N) {"desk serve, n " #N, &desk_serve, draw_slots, &context, sizeof context, N, VALUES * sizeof(int32_t)}

static const struct row ROWS[] = {SERVE(1), SERVE(4), SERVE(16),
                                  {"desk distances", &desk_distances, draw_timing, &context, sizeof context, 0, 0}};

void bench_desk(void) {
    bench_rows(ROWS, sizeof ROWS / sizeof ROWS[0]);
}
