/*
 * What the library takes of a month: the quickest of seven, in milliseconds of processor time.
 *
 *     times MESSAGE-FILE
 */
#define _POSIX_C_SOURCE 200809L
#include <stdio.h>
#include <stdlib.h>
#include <time.h>

#include "emorizugu.h"

static struct emorizugu_lent r;

static double now(void) {
    struct timespec t;
    clock_gettime(CLOCK_PROCESS_CPUTIME_ID, &t);
    return 1e3 * (double)t.tv_sec + 1e-6 * (double)t.tv_nsec;
}

static void replay(void) {
    emorizugu_run(&r);
}

static void read_calls(void) {
    uint64_t call[EMORIZUGU_CALL] = {0};
    while (emorizugu_read(r.file, r.length, call[EMORIZUGU_NEXT], r.series, r.series_length, call, EMORIZUGU_CALL) == 0)
        ;
}

static void sums(void) {
    uint64_t row, quarters = r.summary[EMORIZUGU_OPENED], all = 0;
    for (row = 0; row < EMORIZUGU_BOOK_ROWS / 2; row++)
        all += emorizugu_sum(r.book, r.book_length, quarters, 1, row) + emorizugu_sum(r.book, r.book_length, quarters, 2, row) +
               emorizugu_difference(r.book, r.book_length, quarters, row);
    if (all == 1)
        puts("");
}

/* Every report of both runs. */
static void reports(void) {
    uint64_t run, group, quarters = r.summary[EMORIZUGU_OPENED], all = 0;
    const uint8_t *book = (const uint8_t *)r.book, *schedules = (const uint8_t *)r.schedules;
    size_t length = EMORIZUGU_BOOK_BYTES * quarters, schedules_length = EMORIZUGU_SCHEDULE_BYTES * quarters;
    for (run = 1; run <= EMORIZUGU_RUNS; run++)
        for (group = 1; group <= EMORIZUGU_GROUPS; group++)
            all += emorizugu_surplus(book, length, schedules, schedules_length, quarters, run, group) +
                   emorizugu_shortfall(book, length, schedules, schedules_length, quarters, run, group);
    if (all == 1)
        puts("");
}

static void quickest(const char *what, void (*part)(void)) {
    double best = 1e9;
    int i;
    for (i = 0; i < 7; i++) {
        double start = now(), took;
        part();
        took = now() - start;
        best = took < best ? took : best;
    }
    printf("%-24s %8.2f\n", what, best);
}

int main(int argc, char **argv) {
    static uint8_t file[64 << 20];
    FILE *in = argc == 2 ? fopen(argv[1], "rb") : NULL;
    if (in == NULL)
        return fprintf(stderr, "usage: times MESSAGE-FILE\n"), 2;
    r.file = file, r.length = fread(file, 1, sizeof file, in);
    r.values_length = EMORIZUGU_VALUES_LENGTH(EMORIZUGU_QUARTERS, EMORIZUGU_VERSIONS), r.values = calloc(r.values_length, 8);
    r.book_length = EMORIZUGU_BOOK_LENGTH(EMORIZUGU_QUARTERS), r.book = calloc(r.book_length, 8);
    r.log_length = EMORIZUGU_LOG_LENGTH(EMORIZUGU_VERSIONS), r.log = calloc(r.log_length, 8);
    r.schedules_length = EMORIZUGU_SCHEDULES_LENGTH(EMORIZUGU_QUARTERS), r.schedules = calloc(r.schedules_length, 8);
    r.series_length = EMORIZUGU_SERIES_LENGTH, r.series = calloc(r.series_length, 8);
    r.answers_length = EMORIZUGU_ANSWERS_LENGTH(r.length), r.answers = calloc(r.answers_length, 8);
    if (!r.values || !r.book || !r.log || !r.schedules || !r.series || !r.answers)
        return fprintf(stderr, "times: no memory\n"), 2;
    quickest("replay", replay);
    quickest("reading the calls", read_calls);
    quickest("sums and differences", sums);
    quickest("all reports", reports);
    return 0;
}
