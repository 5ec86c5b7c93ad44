/*
 * How much of the desk's state each call of a message file copies. Every memcpy of the library goes through
 * __wrap_memcpy (gcc -Wl,--wrap=memcpy), which counts blocks of a kilobyte and more: the state's tables are 2 and 8 kB,
 * the state 10.2 kB. A file is replayed with a call at its end and without it; the difference is the call's.
 */
#include <inttypes.h>
#include <stddef.h>
#include <stdint.h>
#include <stdio.h>

#include "emorizugu.h"

enum { LARGE = 1024, STATE = 10608, QUARTERS = 2, VALUES = 1024, BOOK = EMORIZUGU_BOOK_ROWS * QUARTERS, LOG = 64, MOST = 64 };
enum { SCHEDULES = EMORIZUGU_GROUPS * QUARTERS };

void *__real_memcpy(void *to, const void *from, size_t n);
void *__wrap_memcpy(void *to, const void *from, size_t n);

static uint64_t blocks, bytes;

void *__wrap_memcpy(void *to, const void *from, size_t n) {
    if (n >= LARGE) {
        blocks++;
        bytes += n;
    }
    return __real_memcpy(to, from, n);
}

/* Each call is accepted after those above it, but the last. */
#define GROUPS 4, 1, 2, 3, 3, 3, 3, 3, 3, 3, 3, 3, 3, 3, 3, 3, 3
static const struct {
    const char *name;
    size_t count;
    uint64_t numbers[22];
} calls[] = {
    {"open", 22, {1, QUARTERS, 10, 30, 150, GROUPS}},
    {"activate", 6, {2, 1, 1, 1, 0, 0}},
    {"activate", 6, {2, 2, 1, 2, 1, 0}},
    {"deactivate", 3, {3, 2, 0}},
    {"submit", 7, {4, 1, 7, 2, QUARTERS, 2000, 4000}},
    {"submit", 7, {4, 1, 8, 11, QUARTERS, 2000, 4000}},
    {"notice", 5, {5, 1, 8, 1, 20}},
    {"assign", 4, {6, 1, 9, 20}},
    {"close", 3, {7, 1, 31}},
    {"issue", 3, {8, 1, 31}},
    {"refused", 3, {8, 1, 31}},
};

static uint8_t file[4096];
static size_t length;

static void put_number(uint64_t number) {
    for (; number >= 128; number /= 128)
        file[length++] = (uint8_t)(number % 128 + 128);
    file[length++] = (uint8_t)number;
}

static uint64_t last_answer(void) {
    static uint64_t values[VALUES], book[BOOK], log[LOG], schedules[SCHEDULES], series[EMORIZUGU_QUARTERS], answers[MOST];
    uint64_t summary[EMORIZUGU_SUMMARY];
    static uint64_t points[EMORIZUGU_POINTS_LENGTH], versions[EMORIZUGU_VERSIONS_LENGTH];
    emorizugu_replay(file, length, values, VALUES, book, BOOK, log, LOG, schedules, SCHEDULES, series, EMORIZUGU_QUARTERS,
                     answers, MOST, summary, EMORIZUGU_SUMMARY, points, EMORIZUGU_POINTS_LENGTH, versions,
                     EMORIZUGU_VERSIONS_LENGTH);
    return summary[EMORIZUGU_ANSWERED] == 0 ? 0 : answers[summary[EMORIZUGU_ANSWERED] - 1];
}

int main(void) {
    size_t i, k;
    uint64_t blocks_before, bytes_before;
    last_answer();
    printf("%-12s %6s %6s %8s %7s\n", "call", "answer", "blocks", "bytes", "states");
    for (i = 0; i < sizeof calls / sizeof *calls; i++) {
        uint64_t answer;
        blocks_before = blocks;
        bytes_before = bytes;
        blocks = bytes = 0;
        for (k = 0; k < calls[i].count; k++)
            put_number(calls[i].numbers[k]);
        answer = last_answer();
        printf("%-12s %6" PRIu64 " %6" PRIu64 " %8" PRIu64 " %7.1f\n", calls[i].name, answer, blocks - blocks_before,
               bytes - bytes_before, (double)(bytes - bytes_before) / STATE);
    }
    return 0;
}
