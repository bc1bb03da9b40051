/* Inputs drawn at random, good, and then damaged. A given beginning draws the same inputs every time. */
#ifndef DRAW_H
#define DRAW_H

#include <stdbool.h>
#include <stddef.h>
#include <stdint.h>

void draw_from(uint64_t seed);

/* Whether the functions that damage do so. What is timed is never damaged. */
void draw_damage(bool on);

size_t draw_below(size_t n);
void draw_digits(uint8_t *s, size_t n, unsigned kinds);
/* From -limit to limit; the ends are as likely as all that lies between. */
int32_t draw_value(int32_t limit);

/* Each damages some of what it meets; of lengths and numbers less, so that most cases come to what the runs hold. A damaged length
 * is at most one too long: so much more room a run needs. */
void damage_digits(uint8_t *s, size_t n);
void damage_values(int32_t *s, size_t n);
size_t damaged_number(size_t good);
size_t damaged_length(size_t right);
int64_t damaged_value(int64_t good, int64_t limit);

#endif
