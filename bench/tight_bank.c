/* A bank of slots in tight C: the digits of a slot are looked at with no early way out. */
#include "bank.h"
#include "yardsticks.h"

static bool is_bank(const uint8_t *bank, size_t total) {
    uint8_t seen[BANK_NUMBERS] = {0};
    for (size_t at = BANK_HEAD; at < total;) {
        if (total - at < SLOT_HEAD || bank[at + 1] != 0) return false;
        size_t length = two_bytes(bank + at + 2);
        if (length < SLOT_LEAST || length > SLOT_MOST || total - at - SLOT_HEAD < length) return false;
        if (any_above(bank + at + SLOT_HEAD, length, 2) || seen[bank[at]]++) return false;
        at += SLOT_HEAD + length;
    }
    return true;
}

/* The total taken, or 0 where the bytes are no bank. */
static size_t checked_total(const uint8_t *bank, size_t n_bank) {
    size_t total = bank_total(bank, n_bank);
    return total != 0 && is_bank(bank, total) ? total : 0;
}

uint64_t tight_bank_empty(uint8_t *bank, size_t n_bank) {
    if (n_bank - BANK_HEAD > BANK_MOST - BANK_HEAD) return plain_bank_empty(bank, n_bank);
    put_empty(bank);
    return 0;
}

uint64_t tight_bank_store(uint8_t *bank, size_t n_bank, size_t number, const uint8_t *slot, size_t n_slot) {
    size_t total = checked_total(bank, n_bank);
    if (total == 0 || number >= BANK_NUMBERS || n_slot < SLOT_LEAST || n_slot > SLOT_MOST || any_above(slot, n_slot, 2)
        || total + n_slot + SLOT_HEAD > n_bank || bank_find(bank, total, number) < total) {
        return plain_bank_store(bank, n_bank, number, slot, n_slot);
    }
    put_slot(bank, total, number, slot, n_slot);
    return 0;
}

uint64_t tight_bank_fetch(const uint8_t *bank, size_t n_bank, size_t number, uint8_t *out, size_t n_out) {
    size_t total = checked_total(bank, n_bank);
    size_t at = bank_find(bank, total, number);
    if (total == 0 || at >= total || n_out != two_bytes(bank + at + 2)) return plain_bank_fetch(bank, n_bank, number, out, n_out);
    memcpy(out, bank + at + SLOT_HEAD, n_out);
    return 0;
}

uint64_t tight_bank_drop(uint8_t *bank, size_t n_bank, size_t number) {
    size_t total = checked_total(bank, n_bank);
    size_t at = bank_find(bank, total, number);
    if (total == 0 || at >= total) return plain_bank_drop(bank, n_bank, number);
    size_t size = SLOT_HEAD + two_bytes(bank + at + 2);
    memmove(bank + at, bank + at + size, total - at - size);
    put_total(bank, total - size);
    return 0;
}

uint64_t tight_bank_length(const uint8_t *bank, size_t n_bank, size_t number) {
    size_t total = checked_total(bank, n_bank);
    size_t at = bank_find(bank, total, number);
    if (total == 0 || at >= total) return plain_bank_length(bank, n_bank, number);
    return (uint64_t)two_bytes(bank + at + 2) << 48;
}

uint64_t tight_bank_room(const uint8_t *bank, size_t n_bank) {
    size_t total = checked_total(bank, n_bank);
    return total != 0 ? (uint64_t)(n_bank - total) << 48 : plain_bank_room(bank, n_bank);
}
