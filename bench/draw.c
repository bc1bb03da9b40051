#include "draw.h"

static uint64_t state;
static bool damaging;

void draw_from(uint64_t seed) {
    state = seed;
}

void draw_damage(bool on) {
    damaging = on;
}

/* splitmix64: small, and good enough to choose inputs. */
static uint64_t next(void) {
    uint64_t x = state += 0x9e3779b97f4a7c15u;
    x = (x ^ (x >> 30)) * 0xbf58476d1ce4e5b9u;
    x = (x ^ (x >> 27)) * 0x94d049bb133111ebu;
    return x ^ (x >> 31);
}

size_t draw_below(size_t n) {
    return (size_t)(next() % n);
}

static bool one_in(size_t n) {
    return damaging && draw_below(n) == 0;
}

void draw_digits(uint8_t *s, size_t n, unsigned kinds) {
    for (size_t i = 0; i < n; i++) s[i] = (uint8_t)draw_below(kinds);
}

int32_t draw_value(int32_t limit) {
    switch (draw_below(4)) {
    case 0: return limit;
    case 1: return -limit;
    default: return (int32_t)draw_below(2 * (size_t)limit + 1) - limit;
    }
}

/* Most become other digits, which only the later checks of a call refuse. */
void damage_digits(uint8_t *s, size_t n) {
    static const uint8_t others[8] = {0, 1, 2, 0, 1, 2, 3, 255};
    if (n == 0 || !one_in(2)) return;
    for (size_t spots = 1 + draw_below(3); spots > 0; spots--) s[draw_below(n)] = others[draw_below(8)];
}

void damage_values(int32_t *s, size_t n) {
    if (n == 0 || !one_in(2)) return;
    for (size_t spots = 1 + draw_below(3); spots > 0; spots--) {
        size_t i = draw_below(n);
        uint32_t old = (uint32_t)s[i];
        switch (draw_below(4)) {
        case 0: s[i] = (int32_t)(old + 1); break;
        case 1: s[i] = (int32_t)(old - 1); break;
        case 2: s[i] = draw_below(2) ? INT32_MAX : INT32_MIN; break;
        default: s[i] = (int32_t)next();
        }
    }
}

size_t damaged_number(size_t good) {
    if (!one_in(12)) return good;
    switch (draw_below(4)) {
    case 0: return good + 1;
    case 1: return good - 1;
    case 2: return good + ((size_t)1 << 32);
    default: return (size_t)next();
    }
}

size_t damaged_length(size_t right) {
    if (!one_in(12)) return right;
    switch (draw_below(3)) {
    case 0: return right + 1;
    case 1: return right > 0 ? right - 1 : 1;
    default: return 0;
    }
}

int64_t damaged_value(int64_t good, int64_t limit) {
    if (!one_in(8)) return good;
    switch (draw_below(4)) {
    case 0: return limit + 1;
    case 1: return -limit - 1;
    case 2: return good + ((int64_t)1 << 32);
    default: return (int64_t)next();
    }
}
