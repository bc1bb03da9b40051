/* The numbers and the layout of a bank of slots (docs/BANK.md). */
#ifndef BANK_H
#define BANK_H

#include <string.h>

#include "parts.h"

enum { BANK_HEAD = 8, BANK_MOST = 65536, BANK_NUMBERS = 256, SLOT_HEAD = 4, SLOT_LEAST = 10, SLOT_MOST = 1280 };

static inline size_t four_bytes(const uint8_t *s) {
    return (size_t)s[0] << 24 | (size_t)s[1] << 16 | (size_t)s[2] << 8 | s[3];
}

static inline size_t two_bytes(const uint8_t *s) {
    return (size_t)s[0] << 8 | s[1];
}

static inline void put_total(uint8_t *bank, size_t total) {
    bank[4] = (uint8_t)(total >> 24);
    bank[5] = (uint8_t)(total >> 16);
    bank[6] = (uint8_t)(total >> 8);
    bank[7] = (uint8_t)total;
}

/* The total that a header gives, or 0. */
static inline size_t bank_total(const uint8_t *bank, size_t n_bank) {
    if (n_bank < BANK_HEAD || n_bank > BANK_MOST || memcmp(bank, "SLTB", 4) != 0) return 0;
    size_t total = four_bytes(bank + 4);
    return total < BANK_HEAD || total > n_bank ? 0 : total;
}

/* A bank with no slot, over the front of its buffer. */
static inline void put_empty(uint8_t *bank) {
    memcpy(bank, "SLTB", 4);
    put_total(bank, BANK_HEAD);
}

/* A slot more behind the total. */
static inline void put_slot(uint8_t *bank, size_t total, size_t number, const uint8_t *slot, size_t n_slot) {
    bank[total] = (uint8_t)number;
    bank[total + 1] = 0;
    bank[total + 2] = (uint8_t)(n_slot >> 8);
    bank[total + 3] = (uint8_t)n_slot;
    memcpy(bank + total + SLOT_HEAD, slot, n_slot);
    put_total(bank, total + n_slot + SLOT_HEAD);
}

/* Where the slot with the number begins in bytes that are a bank, or the total. */
static inline size_t bank_find(const uint8_t *bank, size_t total, size_t number) {
    size_t at = BANK_HEAD;
    while (at < total && bank[at] != number) at += SLOT_HEAD + two_bytes(bank + at + 2);
    return at;
}

#endif
