/* A bank of slots in plain C. */
#include "bank.h"
#include "yardsticks.h"

/* The total taken, or 0 where the bytes are no bank. */
static size_t checked_total(const uint8_t *bank, size_t n_bank) {
    size_t total = bank_total(bank, n_bank);
    if (total == 0) return 0;
    bool seen[BANK_NUMBERS] = {false};
    for (size_t at = BANK_HEAD; at < total;) {
        if (total - at < SLOT_HEAD || bank[at + 1] != 0) return 0;
        size_t length = two_bytes(bank + at + 2);
        if (length < SLOT_LEAST || length > SLOT_MOST || total - at - SLOT_HEAD < length) return 0;
        if (first_above(bank + at + SLOT_HEAD, length, 2) < length) return 0;
        if (seen[bank[at]]) return 0;
        seen[bank[at]] = true;
        at += SLOT_HEAD + length;
    }
    return total;
}

uint64_t plain_bank_empty(uint8_t *bank, size_t n_bank) {
    if (n_bank < BANK_HEAD || n_bank > BANK_MOST) return refuse(28, 0);
    put_empty(bank);
    return 0;
}

uint64_t plain_bank_store(uint8_t *bank, size_t n_bank, size_t number, const uint8_t *slot, size_t n_slot) {
    size_t total = checked_total(bank, n_bank);
    if (total == 0) return refuse(28, 0);
    if (number >= BANK_NUMBERS) return refuse(11, 0);
    if (n_slot < SLOT_LEAST || n_slot > SLOT_MOST) return refuse(3, 0);
    size_t i = first_above(slot, n_slot, 2);
    if (i < n_slot) return refuse(4, i);
    if (bank_find(bank, total, number) < total) return refuse(30, 0);
    if (total + n_slot + SLOT_HEAD > n_bank) return refuse(31, 0);
    put_slot(bank, total, number, slot, n_slot);
    return 0;
}

uint64_t plain_bank_fetch(const uint8_t *bank, size_t n_bank, size_t number, uint8_t *out, size_t n_out) {
    size_t total = checked_total(bank, n_bank);
    if (total == 0) return refuse(28, 0);
    if (number >= BANK_NUMBERS) return refuse(11, 0);
    size_t at = bank_find(bank, total, number);
    if (at == total) return refuse(29, 0);
    if (n_out != two_bytes(bank + at + 2)) return refuse(3, 0);
    memcpy(out, bank + at + SLOT_HEAD, n_out);
    return 0;
}

uint64_t plain_bank_drop(uint8_t *bank, size_t n_bank, size_t number) {
    size_t total = checked_total(bank, n_bank);
    if (total == 0) return refuse(28, 0);
    if (number >= BANK_NUMBERS) return refuse(11, 0);
    size_t at = bank_find(bank, total, number);
    if (at == total) return refuse(29, 0);
    size_t size = SLOT_HEAD + two_bytes(bank + at + 2);
    memmove(bank + at, bank + at + size, total - at - size);
    put_total(bank, total - size);
    return 0;
}

uint64_t plain_bank_length(const uint8_t *bank, size_t n_bank, size_t number) {
    size_t total = checked_total(bank, n_bank);
    if (total == 0) return refuse(28, 0);
    if (number >= BANK_NUMBERS) return refuse(11, 0);
    size_t at = bank_find(bank, total, number);
    if (at == total) return refuse(29, 0);
    return (uint64_t)two_bytes(bank + at + 2) << 48;
}

uint64_t plain_bank_room(const uint8_t *bank, size_t n_bank) {
    size_t total = checked_total(bank, n_bank);
    if (total == 0) return refuse(28, 0);
    return (uint64_t)(n_bank - total) << 48;
}
