/* Lengths of runs: every run of a format in turn, as one who lends them asks. */
#include "draw.h"
#include "row.h"
#include "yardsticks.h"

/* What is asked moves on from call to call. */
struct lengths_row {
    size_t format[SETS], kind[SETS], first[SETS], missing[SETS], run[SETS];
};

#define OF(CALL) WAYS(CALL##_lengths, lengths_row, r->format[i % SETS], r->run[i % SETS])

OF(slot)
OF(frame)
OF(dpdch)
OF(dpdch_frame)
OF(dpcch)
OF(dpcch_frame)
OF(hspdsch)
WAYS(compressed_lengths, lengths_row, r->format[i % SETS], r->kind[i % SETS], r->first[i % SETS], r->missing[i % SETS], r->run[i % SETS])

/* A call of so many formats and runs: both are in the choice. */
#define ASKED(FORMATS, RUNS) ((FORMATS) * 8 + (RUNS))

static void draw_asked(void *context, size_t choice) {
    struct lengths_row *r = context;
    for (size_t i = 0; i < SETS; i++) {
        r->format[i] = damaged_number(draw_below(choice / 8));
        r->kind[i] = damaged_number(1 + draw_below(2));
        r->missing[i] = 1 + draw_below(7);
        r->first[i] = damaged_number(draw_below(16 - r->missing[i]));
        r->missing[i] = damaged_number(r->missing[i]);
        r->run[i] = damaged_number(i % (choice % 8));
    }
}

static struct lengths_row context;

#define ROW(NAME, CALL, FORMATS, RUNS) {NAME " lengths", &CALL##_lengths, draw_asked, &context, sizeof context, ASKED(FORMATS, RUNS), 0}

static const struct row ROWS[] = {
    ROW("slot", slot, 17, 3),
    ROW("frame", frame, 17, 4),
    ROW("compressed", compressed, 17, 4),
    ROW("DPDCH slot", dpdch, 7, 2),
    ROW("DPDCH frame", dpdch_frame, 7, 2),
    ROW("DPCCH slot", dpcch, 4, 3),
    ROW("DPCCH frame", dpcch_frame, 4, 4),
    ROW("HS-PDSCH", hspdsch, 2, 3),
};

void bench_lengths(void) {
    bench_rows(ROWS, sizeof ROWS / sizeof ROWS[0]);
}
