/* calls.c: one line for each call of slt.h, with the numbers and runs of a test in their places. */
#include "calls.h"

#include <string.h>

#include "slt.h"

static uint8_t *digits(const struct test *t, size_t i) {
    return t->run[i].lent;
}

static int32_t *values(const struct test *t, size_t i) {
    return (int32_t *)(void *)t->run[i].lent;
}

static size_t n(const struct test *t, size_t i) {
    return t->run[i].length;
}

static int64_t whole(const struct test *t, size_t i) {
    return (int64_t)t->given[i];
}

/* The bits decide: a NaN must come through as it is. */
static float level(const struct test *t, size_t i) {
    uint32_t bits = (uint32_t)t->given[i];
    float value;
    memcpy(&value, &bits, sizeof value);
    return value;
}

static void keep(struct test *t, slt_sample sample) {
    t->got = sample.answer;
    memcpy(&t->got_sample.inphase, &sample.inphase, sizeof sample.inphase);
    memcpy(&t->got_sample.quadrature, &sample.quadrature, sizeof sample.quadrature);
}

/* The calls of another form than a list of numbers and runs. */

/* A number that comes and goes through its pointer is told as it is to be afterwards; what it holds before the call is given. */
static uint32_t *number(const struct test *t, size_t i, uint64_t before) {
    uint32_t *lent = (uint32_t *)(void *)t->run[i].lent;
    *lent = (uint32_t)before;
    return lent;
}

static void wake_run(struct test *t) {
    t->got = slt_wake_run(t->given[0], t->given[1], digits(t, 0), n(t, 0), number(t, 1, t->given[2]), number(t, 2, t->given[3]),
                          number(t, 3, t->given[4]));
}

static void wake_step(struct test *t) {
    slt_tally *tally = (slt_tally *)(void *)t->run[1].lent;
    *tally = (slt_tally){(uint32_t)t->given[2], (uint32_t)t->given[3], (uint32_t)t->given[4]};
    t->got = slt_wake_step(tally, t->given[0], t->given[1], digits(t, 0), n(t, 0));
}

/* The run of the desk is told as it is to be afterwards: what it holds before the call is the first number. */
static void desk_serve(struct test *t) {
    size_t *last = (size_t *)(void *)t->run[0].lent;
    *last = t->given[0];
    t->got = slt_desk_serve(last, (uint16_t)t->given[1], (uint16_t)t->given[2], t->given[3], values(t, 1), n(t, 1));
}

static void aich_combine(struct test *t) {
    int64_t *results = (int64_t *)(void *)t->run[1].lent;
    t->got = slt_aich_combine(whole(t, 0), whole(t, 1), whole(t, 2), whole(t, 3), values(t, 0), n(t, 0), results, n(t, 1));
}

static void sample_off(struct test *t) {
    keep(t, slt_sample_off(whole(t, 0), whole(t, 1), t->given[2]));
}

static void sample_shared(struct test *t) {
    keep(t, slt_sample_shared(whole(t, 0), whole(t, 1), level(t, 2), t->given[3]));
}

static void sample_each(struct test *t) {
    keep(t, slt_sample_each(whole(t, 0), whole(t, 1), level(t, 2), level(t, 3), t->given[4]));
}

/* How a line below gives the numbers and the runs of a test to its call: a number, a set of signatures, a run of digits, a run of values. */
#define GIVEN(I) t->given[I]
#define SET(I) (uint16_t)t->given[I]
#define DIGITS(I) digits(t, I), n(t, I)
#define VALUES(I) values(t, I), n(t, I)

/* The calls in the order of slt.h: how many numbers each is given, the bytes of an element of each of its runs, and what stands in its place;
 * OWN has a function above. */
#define CALLS(CALL, OWN) \
    CALL(pich_q, 3, "", GIVEN(0), GIVEN(1), GIVEN(2)) \
    CALL(pich_map, 1, "11", GIVEN(0), DIGITS(0), DIGITS(1)) \
    CALL(pich_read, 1, "11", GIVEN(0), DIGITS(0), DIGITS(1)) \
    OWN(wake_run, 5, "1444") \
    OWN(wake_step, 5, "14") \
    CALL(slot_map, 3, "111", GIVEN(0), GIVEN(1), GIVEN(2), DIGITS(0), DIGITS(1), DIGITS(2)) \
    CALL(slot_read, 2, "111", GIVEN(0), GIVEN(1), DIGITS(0), DIGITS(1), DIGITS(2)) \
    CALL(slot_map_antenna, 4, "111", GIVEN(0), GIVEN(1), GIVEN(2), GIVEN(3), DIGITS(0), DIGITS(1), DIGITS(2)) \
    CALL(slot_read_antennas, 2, "1111", GIVEN(0), GIVEN(1), DIGITS(0), DIGITS(1), DIGITS(2), DIGITS(3)) \
    CALL(frame_map, 1, "1111", GIVEN(0), DIGITS(0), DIGITS(1), DIGITS(2), DIGITS(3)) \
    CALL(frame_read, 1, "1111", GIVEN(0), DIGITS(0), DIGITS(1), DIGITS(2), DIGITS(3)) \
    CALL(compressed_map, 4, "1111", GIVEN(0), GIVEN(1), GIVEN(2), GIVEN(3), DIGITS(0), DIGITS(1), DIGITS(2), DIGITS(3)) \
    CALL(compressed_read, 4, "1111", GIVEN(0), GIVEN(1), GIVEN(2), GIVEN(3), DIGITS(0), DIGITS(1), DIGITS(2), DIGITS(3)) \
    CALL(dpdch_map, 1, "11", GIVEN(0), DIGITS(0), DIGITS(1)) \
    CALL(dpdch_read, 1, "11", GIVEN(0), DIGITS(0), DIGITS(1)) \
    CALL(dpdch_frame_map, 1, "11", GIVEN(0), DIGITS(0), DIGITS(1)) \
    CALL(dpdch_frame_read, 1, "11", GIVEN(0), DIGITS(0), DIGITS(1)) \
    CALL(dpcch_map, 3, "111", GIVEN(0), GIVEN(1), GIVEN(2), DIGITS(0), DIGITS(1), DIGITS(2)) \
    CALL(dpcch_read, 2, "111", GIVEN(0), GIVEN(1), DIGITS(0), DIGITS(1), DIGITS(2)) \
    CALL(dpcch_frame_map, 1, "1111", GIVEN(0), DIGITS(0), DIGITS(1), DIGITS(2), DIGITS(3)) \
    CALL(dpcch_frame_read, 1, "1111", GIVEN(0), DIGITS(0), DIGITS(1), DIGITS(2), DIGITS(3)) \
    CALL(sttd_digits, 0, "11", DIGITS(0), DIGITS(1)) \
    CALL(sttd_values, 0, "44", VALUES(0), VALUES(1)) \
    CALL(pccpch_map, 0, "111", DIGITS(0), DIGITS(1), DIGITS(2)) \
    CALL(pccpch_read, 0, "111", DIGITS(0), DIGITS(1), DIGITS(2)) \
    CALL(hspdsch_map, 1, "111", GIVEN(0), DIGITS(0), DIGITS(1), DIGITS(2)) \
    CALL(hspdsch_read, 1, "111", GIVEN(0), DIGITS(0), DIGITS(1), DIGITS(2)) \
    CALL(slot_lengths, 2, "", GIVEN(0), GIVEN(1)) \
    CALL(frame_lengths, 2, "", GIVEN(0), GIVEN(1)) \
    CALL(compressed_lengths, 5, "", GIVEN(0), GIVEN(1), GIVEN(2), GIVEN(3), GIVEN(4)) \
    CALL(dpdch_lengths, 2, "", GIVEN(0), GIVEN(1)) \
    CALL(dpdch_frame_lengths, 2, "", GIVEN(0), GIVEN(1)) \
    CALL(dpcch_lengths, 2, "", GIVEN(0), GIVEN(1)) \
    CALL(dpcch_frame_lengths, 2, "", GIVEN(0), GIVEN(1)) \
    CALL(hspdsch_lengths, 2, "", GIVEN(0), GIVEN(1)) \
    CALL(aich_map, 0, "44", VALUES(0), VALUES(1)) \
    CALL(aich_read, 0, "44", VALUES(0), VALUES(1)) \
    CALL(aich_map_available, 1, "44", SET(0), VALUES(0), VALUES(1)) \
    CALL(aich_read_available, 1, "44", SET(0), VALUES(0), VALUES(1)) \
    OWN(desk_serve, 4, "84") \
    CALL(desk_to_aich, 1, "", GIVEN(0)) \
    CALL(desk_to_message, 1, "", GIVEN(0)) \
    OWN(aich_combine, 4, "48") \
    OWN(sample_off, 3, "") \
    OWN(sample_shared, 4, "") \
    OWN(sample_each, 5, "") \
    CALL(bank_empty, 0, "1", DIGITS(0)) \
    CALL(bank_store, 1, "11", DIGITS(0), GIVEN(0), DIGITS(1)) \
    CALL(bank_fetch, 1, "11", DIGITS(0), GIVEN(0), DIGITS(1)) \
    CALL(bank_drop, 1, "1", DIGITS(0), GIVEN(0)) \
    CALL(bank_length, 1, "1", DIGITS(0), GIVEN(0)) \
    CALL(bank_room, 0, "1", DIGITS(0))

#define MAKE(NAME, NUMBERS, SIZES, ...)                \
    static void NAME(struct test *t) {                 \
        t->got = slt_##NAME(__VA_ARGS__);              \
    }
#define MADE(NAME, NUMBERS, SIZES)
CALLS(MAKE, MADE)

#define ROW(NAME, NUMBERS, SIZES, ...) {"slt_" #NAME, NUMBERS, SIZES, NAME},
#define OWN_ROW(NAME, NUMBERS, SIZES) {"slt_" #NAME, NUMBERS, SIZES, NAME},
const struct call calls[] = {CALLS(ROW, OWN_ROW)};

const size_t n_calls = sizeof calls / sizeof calls[0];
