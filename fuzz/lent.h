/* lent.h: the memory that runs are put in. */
#ifndef LENT_H
#define LENT_H

#include "test.h"

void prepare_memory(void);
void lend(struct run *run, size_t index, uint64_t salt);

/* Takes the memory back. Answers what is wrong with it, or NULL; then *at is the byte, counted from the run's first. */
const char *take_back(struct run *run, uint64_t salt, ptrdiff_t *at);

#endif
