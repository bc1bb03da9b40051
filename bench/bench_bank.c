/* A bank of 200 slots of 80 digits, and the call that empties one. */
#include "bank.h"
#include "draw.h"
#include "row.h"
#include "yardsticks.h"

enum { HELD = 200, DIGITS = 80, SIZE = SLOT_HEAD + DIGITS, FULL = BANK_HEAD + HELD * SIZE, BUFFER = FULL + 2 * SIZE };

/* The numbers move on from call to call. */
struct bank_row {
    size_t n_bank, n_slot, numbers[SETS];
    uint8_t bank[BUFFER + 1], drawn[BUFFER + 1], slot[DIGITS + 1], out[DIGITS + 1];
};

/* Each call meets the bank as it was drawn: what the call before it did is undone, behind a store by the header alone, behind a drop by the whole. */
#define ANEW(whose)                                                                                                             \
    static uint64_t whose##_bank_store_anew(struct bank_row *r, size_t number) {                                                \
        memcpy(r->bank, r->drawn, BANK_HEAD);                                                                                   \
        return whose##_bank_store(r->bank, r->n_bank, number, r->slot, r->n_slot);                                              \
    }                                                                                                                           \
    static uint64_t whose##_bank_drop_anew(struct bank_row *r, size_t number) {                                                 \
        memcpy(r->bank, r->drawn, FULL);                                                                                        \
        return whose##_bank_drop(r->bank, r->n_bank, number);                                                                   \
    }

ANEW(slt)
ANEW(tight)
ANEW(plain)

WAYS(bank_empty, bank_row, r->bank, r->n_bank)
WAYS(bank_store_anew, bank_row, r, r->numbers[i % SETS])
WAYS(bank_fetch, bank_row, r->bank, r->n_bank, r->numbers[i % SETS], r->out, r->n_slot)
WAYS(bank_drop_anew, bank_row, r, r->numbers[i % SETS])
WAYS(bank_length, bank_row, r->bank, r->n_bank, r->numbers[i % SETS])
WAYS(bank_room, bank_row, r->bank, r->n_bank)

static void draw_bank(struct bank_row *r) {
    memcpy(r->bank, "SLTB", 4);
    put_total(r->bank, FULL);
    for (size_t k = 0; k < HELD; k++) {
        uint8_t *at = r->bank + BANK_HEAD + k * SIZE;
        at[0] = (uint8_t)k;
        at[1] = 0;
        at[2] = 0;
        at[3] = DIGITS;
        draw_digits(at + SLOT_HEAD, DIGITS, 3);
    }
    draw_digits(r->bank + FULL, BUFFER - FULL, 3);
    draw_digits(r->slot, DIGITS, 3);
    damage_digits(r->bank, FULL);
    damage_digits(r->slot, DIGITS);
    memcpy(r->drawn, r->bank, BUFFER);
    r->n_bank = damaged_length(BUFFER);
    r->n_slot = damaged_length(DIGITS);
}

/* Numbers from `first` on are not held where it is HELD. */
static void draw_from_number(void *context, size_t first) {
    struct bank_row *r = context;
    draw_bank(r);
    for (size_t i = 0; i < SETS; i++) r->numbers[i] = damaged_number(first + draw_below(first == HELD ? BANK_NUMBERS - HELD : HELD));
}

/* The smallest buffer: one byte fewer is refused, one more is not, so its length is damaged twice as often as others. */
static void draw_buffer(void *context, size_t length) {
    struct bank_row *r = context;
    draw_bank(r);
    r->n_bank = damaged_length(damaged_length(length));
}

static struct bank_row context;

static const struct row ROWS[] = {
    {"bank empty", &bank_empty, draw_buffer, &context, sizeof context, BANK_HEAD, BANK_HEAD},
    {"bank store, 200 slots of 80", &bank_store_anew, draw_from_number, &context, sizeof context, HELD, FULL},
    {"bank fetch, 200 slots of 80", &bank_fetch, draw_from_number, &context, sizeof context, 0, FULL},
    {"bank drop, 200 slots of 80", &bank_drop_anew, draw_from_number, &context, sizeof context, 0, FULL},
    {"bank length, 200 slots of 80", &bank_length, draw_from_number, &context, sizeof context, 0, FULL},
    {"bank room, 200 slots of 80", &bank_room, draw_from_number, &context, sizeof context, 0, FULL},
};

void bench_bank(void) {
    bench_rows(ROWS, sizeof ROWS / sizeof ROWS[0]);
}
