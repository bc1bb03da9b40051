/* lent.c: memory for the runs of a test.
 *
 * The archive is not compiled with the sanitizers, so they see of it only what it does by memcpy and memset: for that a
 * run is put on the heap, as long as it is and no longer. All else the processor must see: so most runs end right before
 * a page that may not be touched, or begin right behind one, and a read or write one byte too far ends the program. The
 * page of a run that must stay as it is may not be written at all: not even with what it holds, or for a moment. */
#define _DEFAULT_SOURCE /* MAP_ANONYMOUS and syscall */

#include "lent.h"

#include <stdbool.h>
#include <stdlib.h>
#include <string.h>
#include <sys/mman.h>
#include <sys/syscall.h>
#include <unistd.h>

#include "say.h"

#define PAGE ((size_t)4096)

/* Bytes beside a run, on its side away from the forbidden page, that are looked at too. */
#define BESIDE ((size_t)256)

/* As far as the longest huge room reaches, and more. It takes no memory: nothing is written there. */
#define HUGE_BYTES ((size_t)1 << 37)

/* A stretch between two forbidden pages for each run of a call, and a huge one that may only be read. */
static uint8_t *stretch[MOST_RUNS];
static bool sealed[MOST_RUNS];
static uint8_t *huge[MOST_RUNS];

static void allow(uint8_t *from, size_t bytes, int what) {
    if (mprotect(from, bytes, what) != 0) {
        give_up("a page could not be protected");
    }
}

/* Asks the kernel itself: the sanitizers' own mmap would write down that each byte may be used, which for a huge room takes
 * minutes and all memory there is. */
static uint8_t *map(size_t bytes, int what) {
    long got = syscall(SYS_mmap, NULL, bytes, what, MAP_PRIVATE | MAP_ANONYMOUS | MAP_NORESERVE, -1, 0);
    if (got == -1) {
        give_up("memory could not be mapped");
    }
    return (uint8_t *)got;
}

void prepare_memory(void) {
    for (size_t i = 0; i < MOST_RUNS; i++) {
        stretch[i] = map(PAGE + LONGEST + PAGE, PROT_NONE) + PAGE;
        allow(stretch[i], LONGEST, PROT_READ | PROT_WRITE);
        huge[i] = map(HUGE_BYTES, PROT_READ);
    }
}

/* A filling that no rule gives; it changes from test to test, so that what an earlier one left cannot pass for it. */
static uint8_t filling(uint64_t salt, size_t i) {
    return (uint8_t)(0xa0 | ((salt + i) & 0x1f));
}

static void fill(uint8_t *at, size_t bytes, uint64_t salt) {
    for (size_t i = 0; i < bytes; i++) {
        at[i] = filling(salt, i);
    }
}

/* The first byte that is not as `fill` left it, or `bytes`. */
static size_t first_changed(const uint8_t *at, size_t bytes, uint64_t salt) {
    size_t i = 0;
    while (i < bytes && at[i] == filling(salt, i)) {
        i++;
    }
    return i;
}

static size_t bytes_of(const struct run *run) {
    return run->length * run->size;
}

/* Where the bytes beside a run in its stretch begin, and how many there are. */
static uint8_t *beside(const struct run *run, size_t *n) {
    size_t left = LONGEST - bytes_of(run);
    *n = left < BESIDE ? left : BESIDE;
    return run->place == BEFORE_FORBIDDEN ? run->lent - *n : run->lent + bytes_of(run);
}

/* Puts the run in its stretch, at the end or at the beginning. */
static void put(struct run *run, size_t index, uint64_t salt) {
    if (sealed[index]) {
        allow(stretch[index], LONGEST, PROT_READ | PROT_WRITE);
        sealed[index] = false;
    }
    run->lent = run->place == BEFORE_FORBIDDEN ? stretch[index] + LONGEST - bytes_of(run) : stretch[index];
    size_t n;
    uint8_t *at = beside(run, &n);
    fill(at, n, salt + 7);
}

void lend(struct run *run, size_t index, uint64_t salt) {
    switch (run->what) {
    case NO_RUN:
        run->lent = NULL;
        return;
    case HUGE_ROOM:
        if (run->length > HUGE_BYTES / run->size) {
            give_up("a huge room is too long");
        }
        run->lent = huge[index];
        return;
    default:
        break;
    }
    if (run->place == ON_HEAP) {
        run->lent = malloc(bytes_of(run));
        if (run->lent == NULL) {
            give_up("no memory is left");
        }
    } else {
        put(run, index, salt);
    }
    if (run->what == HELD) {
        memcpy(run->lent, run->told, bytes_of(run));
    } else if (run->what == CHANGED) {
        memcpy(run->lent, run->before, bytes_of(run));
    } else {
        fill(run->lent, bytes_of(run), salt);
    }
    if (run->place != ON_HEAP && run->what != WRITTEN && run->what != CHANGED) {
        allow(stretch[index], LONGEST, PROT_READ);
        sealed[index] = true;
    }
}

/* The first byte of the run that is not what it should be, or how many it has. */
static size_t first_wrong(const struct run *run, uint64_t salt) {
    size_t bytes = bytes_of(run);
    if (run->what == KEPT) {
        return first_changed(run->lent, bytes, salt);
    }
    if (memcmp(run->lent, run->told, bytes) == 0) {
        return bytes;
    }
    size_t i = 0;
    while (run->lent[i] == run->told[i]) {
        i++;
    }
    return i;
}

const char *take_back(struct run *run, uint64_t salt, ptrdiff_t *at) {
    if (run->what == NO_RUN || run->what == HUGE_ROOM) {
        return NULL; /* nothing could be written there */
    }
    size_t wrong = first_wrong(run, salt);
    if (wrong != bytes_of(run)) {
        *at = (ptrdiff_t)wrong;
        return run->what == WRITTEN || run->what == CHANGED ? "does not hold what it should" : "was changed";
    }
    if (run->place == ON_HEAP) {
        free(run->lent);
        return NULL;
    }
    size_t n;
    uint8_t *from = beside(run, &n);
    wrong = first_changed(from, n, salt + 7);
    *at = from + wrong - run->lent;
    return wrong == n ? NULL : "was left: a byte beside it was changed";
}
