#define _POSIX_C_SOURCE 200809L
#include "row.h"

#include <stdio.h>
#include <stdlib.h>
#include <string.h>
#include <time.h>

#include "draw.h"

enum { CASES = 3000, ROUNDS = 60, TARGET_NS = 400000 };

/* The longest run that memcpy is asked for. */
enum { LONGEST = 1 << 21 };

double now_ns(void) {
    struct timespec t;
    clock_gettime(CLOCK_MONOTONIC, &t);
    return (double)t.tv_sec * 1e9 + (double)t.tv_nsec;
}

/* What no call leaves and no rule gives: a byte that should have been written and was not shows as this. */
enum { UNWRITTEN = 0xee };

static void draw_anew(const struct row *row) {
    memset(row->context, UNWRITTEN, row->size);
    row->draw(row->context, row->choice);
}

static void *room(size_t bytes) {
    void *got = malloc(bytes);
    if (got == NULL) {
        perror("bench: no memory");
        exit(1);
    }
    return got;
}

/* Makes the call this way on what was given, and asks for the library's answer and for every byte that it left. */
static void agree(const struct row *row, const char *whose, way other, const void *given, uint64_t answer, const void *left) {
    memcpy(row->context, given, row->size);
    uint64_t got = other(row->context, 1);
    if (got != answer || memcmp(row->context, left, row->size) != 0) {
        fprintf(stderr, "bench: DIFFERENCE: %s: the library answers %#llx, %s %#llx, or they write other bytes\n", row->name,
                (unsigned long long)answer, whose, (unsigned long long)got);
        exit(1);
    }
}

/* A comparison that never came to the end of a call, or never met a refusal, says nothing: it fails as well. */
void compare_row(const struct row *row) {
    void *given = room(row->size), *left = room(row->size);
    unsigned done = 0;
    draw_from(row->choice + 1);
    for (unsigned k = 0; k < CASES; k++) {
        draw_damage(k % 4 != 0);
        draw_anew(row);
        memcpy(given, row->context, row->size);
        uint64_t answer = row->ways->library(row->context, 1);
        memcpy(left, row->context, row->size);
        agree(row, "tight C", row->ways->tight, given, answer, left);
        agree(row, "plain C", row->ways->plain, given, answer, left);
        done += (answer & 0xffff) == 0;
    }
    free(given);
    free(left);
    if (done < CASES / 16 || done > CASES - CASES / 16) {
        fprintf(stderr, "bench: %s: %u of %d cases were done, which is no comparison\n", row->name, done, CASES);
        exit(1);
    }
}

static volatile uint64_t kept;

static double time_of(way call, void *context, size_t times) {
    double begin = now_ns();
    kept += call(context, times);
    return (now_ns() - begin) / (double)times;
}

static uint8_t from[LONGEST], to[LONGEST];

/* A copy that the compiler may not drop or merge. */
static uint64_t copy_bytes(void *context, size_t times) {
    size_t bytes = *(size_t *)context;
    for (size_t i = 0; i < times; i++) {
        memcpy(to, from, bytes);
        __asm__ volatile("" : : "r"(to), "r"(bytes) : "memory");
    }
    return to[0];
}

void print_row(const char *name, double library, double tight, double plain, double copy) {
    printf("%-28s %6.2f times plain C  %6.2f times tight C  ", name, library / plain, library / tight);
    if (copy > 0) {
        printf("%7.2f times memcpy", library / copy);
    } else {
        printf("%20s", "");
    }
    printf("   (%.1f ns, tight C %.1f ns, plain C %.1f ns)\n", library, tight, plain);
}

static void keep_least(double *least, double time) {
    if (time < *least) *least = time;
}

static void time_row(const struct row *row) {
    const struct ways *ways = row->ways;
    size_t times = 16, bytes = row->bytes;
    double library = 1e18, tight = 1e18, plain = 1e18, copy = 1e18;
    draw_from(0);
    draw_damage(false);
    draw_anew(row);
    while (time_of(ways->plain, row->context, times) * (double)times < TARGET_NS && times < 1u << 22) {
        times *= 2;
    }
    for (int round = 0; round < ROUNDS; round++) {
        keep_least(&library, time_of(ways->library, row->context, times));
        keep_least(&tight, time_of(ways->tight, row->context, times));
        keep_least(&plain, time_of(ways->plain, row->context, times));
        keep_least(&copy, time_of(copy_bytes, &bytes, times));
    }
    print_row(row->name, library, tight, plain, bytes > 0 ? copy : 0);
}

void bench_rows(const struct row *rows, size_t n) {
    for (size_t k = 0; k < n; k++) {
        compare_row(&rows[k]);
        time_row(&rows[k]);
    }
}
