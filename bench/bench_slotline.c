/* The program slotline on the longest job of version 1 and on one of version 2 with 65535 records, against the same program in C. All
 * are started the same way, with the job as standard input and nothing kept of what they print: what is timed is start, reading,
 * mapping and printing. */
#define _POSIX_C_SOURCE 200809L
#include <fcntl.h>
#include <spawn.h>
#include <stdio.h>
#include <stdlib.h>
#include <string.h>
#include <sys/wait.h>
#include <unistd.h>

#include "draw.h"
#include "job.h"
#include "row.h"
#include "rows.h"

extern char **environ;

enum { CASES = 60, ROUNDS = 400, MANY_ROUNDS = 60, PROGRAMS = 3, LONGEST_TEXT = 1 << 23 };

static uint8_t job[MANY_BYTES];

static _Noreturn void fail(const char *why, const char *of) {
    fprintf(stderr, "bench: %s %s\n", why, of);
    exit(1);
}

/* A file that is gone when the benchmark ends. */
static FILE *file_of(const uint8_t *bytes, size_t n) {
    FILE *file = tmpfile();
    if (file == NULL || fwrite(bytes, 1, n, file) != n || fflush(file) != 0) fail("no temporary file", "");
    return file;
}

/* Runs the program once and gives the nanoseconds it took. */
static double run_ns(const char *program, FILE *in, int out) {
    posix_spawn_file_actions_t actions;
    char *arguments[] = {(char *)program, NULL};
    pid_t child;
    int status;
    posix_spawn_file_actions_init(&actions);
    posix_spawn_file_actions_adddup2(&actions, fileno(in), 0);
    posix_spawn_file_actions_adddup2(&actions, out, 1);
    lseek(fileno(in), 0, SEEK_SET);
    double begin = now_ns();
    int failed = posix_spawn(&child, program, &actions, NULL, arguments, environ) != 0 ||
                 waitpid(child, &status, 0) != child || !WIFEXITED(status) || WEXITSTATUS(status) != 0;
    double took = now_ns() - begin;
    posix_spawn_file_actions_destroy(&actions);
    if (failed) fail("did not end well:", program);
    return took;
}

/* What the program prints. */
static size_t text_of(const char *program, FILE *in, char *text) {
    FILE *out = file_of(job, 0);
    run_ns(program, in, fileno(out));
    rewind(out);
    size_t n = fread(text, 1, LONGEST_TEXT, out);
    fclose(out);
    return n;
}

/* The job, and jobs that are damaged or cut, must give the same text. */
static void compare(const char *const programs[PROGRAMS], size_t bytes, size_t header) {
    static uint8_t damaged[MANY_BYTES];
    static char text[LONGEST_TEXT], other[LONGEST_TEXT];
    draw_from(1);
    for (unsigned k = 0; k < CASES; k++) {
        memcpy(damaged, job, bytes);
        draw_damage(k > 0);
        damage_digits(damaged, bytes);
        damage_digits(damaged, header);
        FILE *in = file_of(damaged, k % 4 == 1 ? draw_below(bytes) : bytes);
        size_t n = text_of(programs[0], in, text);
        for (size_t p = 1; p < PROGRAMS; p++) {
            if (text_of(programs[p], in, other) != n || memcmp(text, other, n) != 0) {
                fail("DIFFERENCE: slotline prints another text than", programs[p]);
            }
        }
        fclose(in);
    }
}

static void row(const char *name, const char *const programs[PROGRAMS], size_t bytes, int rounds) {
    double best[PROGRAMS] = {1e18, 1e18, 1e18};
    FILE *in = file_of(job, bytes);
    int out = open("/dev/null", O_WRONLY);
    for (int round = 0; round < rounds; round++) {
        for (size_t p = 0; p < PROGRAMS; p++) {
            double took = run_ns(programs[p], in, out);
            if (took < best[p]) best[p] = took;
        }
    }
    close(out);
    fclose(in);
    print_row(name, best[0], best[1], best[2], 0);
}

/* The second row is a job of no records: it shows how much of the first is the start of a program. */
void bench_slotline(const char *slotline, const char *tight, const char *plain) {
    const char *const programs[PROGRAMS] = {slotline, tight, plain};
    make_job(job);
    compare(programs, JOB_BYTES, JOB_HEADER);
    row("slotline, 65535 bytes", programs, JOB_BYTES, ROUNDS);
    job[JOB_HEADER - 1] = 0;
    row("slotline, no records", programs, JOB_HEADER, ROUNDS);
    size_t many = make_many(job);
    compare(programs, many, MANY_HEADER);
    row("slotline, 65535 records", programs, many, MANY_ROUNDS);
}
