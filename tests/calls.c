/*
 * By the names of the header: every kind of call, written and read again, each field at its place; the two replays that end with
 * 35, told apart; and how much stack the entries use, on a thread whose stack was painted before.
 */
#include <inttypes.h>
#include <pthread.h>
#include <stdio.h>
#include <stdlib.h>
#include <string.h>

#include "emorizugu.h"

static int wrong(const char *what) {
    fprintf(stderr, "calls: %s\n", what);
    return 1;
}

/* The bytes of a call whose fields are 1, 2, 3 and so on, with the energies 1 and -1 where it is a submission. */
static const struct {
    uint64_t kind;
    size_t fields, length;
    uint8_t bytes[24];
} calls[] = {
    {EMORIZUGU_OPEN, EMORIZUGU_OPEN_FIELDS, 22, {1, 1, 2, 3, 4, 5, 6, 7, 8, 9, 10, 11, 12, 13, 14, 15, 16, 17, 18, 19, 20, 21}},
    {EMORIZUGU_ACTIVATE, EMORIZUGU_ACTIVATE_FIELDS, 6, {2, 1, 2, 3, 4, 5}},
    {EMORIZUGU_DEACTIVATE, EMORIZUGU_DEACTIVATE_FIELDS, 3, {3, 1, 2}},
    {EMORIZUGU_SUBMIT, EMORIZUGU_SUBMIT_FIELDS, 7, {4, 1, 2, 3, 2, 2, 1}},
    {EMORIZUGU_NOTICE, EMORIZUGU_NOTICE_FIELDS, 5, {5, 1, 2, 3, 4}},
    {EMORIZUGU_ASSIGN, EMORIZUGU_ASSIGN_FIELDS, 4, {6, 1, 2, 3}},
    {EMORIZUGU_CLOSE, EMORIZUGU_CLOSE_FIELDS, 3, {7, 1, 2}},
    {EMORIZUGU_ISSUE, EMORIZUGU_ISSUE_FIELDS, 3, {8, 1, 2}},
};

/* Each call is written as its bytes, and these are read as the call. */
static int there_and_back(void) {
    uint64_t fields[EMORIZUGU_OPEN_FIELDS], energies[2] = {1, UINT64_MAX}, call[EMORIZUGU_CALL], series[2], size;
    uint8_t bytes[24];
    size_t i, k, count;
    for (i = 0; i < EMORIZUGU_OPEN_FIELDS; i++)
        fields[i] = i + 1;
    for (i = 0; i < sizeof calls / sizeof *calls; i++) {
        count = calls[i].kind == EMORIZUGU_SUBMIT ? 2 : 0;
        if (emorizugu_write(calls[i].kind, fields, calls[i].fields, energies, count, bytes, sizeof bytes, &size, 1) != EMORIZUGU_ACCEPTED
            || size != calls[i].length || memcmp(bytes, calls[i].bytes, size) != 0)
            return wrong("a call written by its names");
        if (emorizugu_read(bytes, size, 0, series, 2, call, EMORIZUGU_CALL) != EMORIZUGU_ACCEPTED || call[EMORIZUGU_NEXT] != size
            || call[EMORIZUGU_CALL_KIND] != calls[i].kind || call[EMORIZUGU_COUNT] != count)
            return wrong("a call read by its names");
        for (k = 0; k < calls[i].fields; k++)
            if (call[EMORIZUGU_FIELDS + k] != k + 1)
                return wrong("a field of a call that was read");
        if (count != 0 && memcmp(series, energies, sizeof energies) != 0)
            return wrong("the energies of a submission that was read");
    }
    return 0;
}

static struct emorizugu_lent r;
static uint8_t file[4096];

static int lent(const char *name) {
    FILE *in = fopen(name, "rb");
    if (in == NULL)
        return wrong("no file");
    r.file = file, r.length = fread(file, 1, sizeof file, in);
    fclose(in);
    r.values_length = EMORIZUGU_VALUES_LENGTH(8, 16), r.values = calloc(r.values_length, 8);
    r.book_length = EMORIZUGU_BOOK_LENGTH(8), r.book = calloc(r.book_length, 8);
    r.log_length = EMORIZUGU_LOG_LENGTH(16), r.log = calloc(r.log_length, 8);
    r.schedules_length = EMORIZUGU_SCHEDULES_LENGTH(8), r.schedules = calloc(r.schedules_length, 8);
    r.series = calloc(8, 8), r.answers = calloc(EMORIZUGU_ANSWERS_LENGTH(r.length), 8);
    return r.values && r.book && r.log && r.schedules && r.series && r.answers ? 0 : wrong("no memory");
}

/* What a replay of the sample month is told with so much room: its first submission, call 8, begins at offset 59. */
static int room(size_t series, size_t answers, uint64_t refusal, uint64_t answered, uint64_t offset) {
    r.series_length = series, r.answers_length = answers;
    return emorizugu_run(&r) == refusal && r.summary[EMORIZUGU_ANSWERED] == answered && r.summary[EMORIZUGU_OFFSET] == offset;
}

/* 35 with fewer calls answered than there are answers: the series. With as many: the answers, whatever the series is. */
static int rooms(void) {
    if (!room(1, 13, EMORIZUGU_NO_ROOM, 7, 59) || !room(0, 8, EMORIZUGU_NO_ROOM, 7, 59))
        return wrong("a series that is too short");
    if (!room(2, 7, EMORIZUGU_NO_ROOM, 7, 0) || !room(1, 7, EMORIZUGU_NO_ROOM, 7, 0) || !room(2, 12, EMORIZUGU_NO_ROOM, 12, 0)
        || !room(2, 0, EMORIZUGU_NO_ROOM, 0, 0))
        return wrong("answers that are full");
    if (emorizugu_file_refusal(r.file, r.length) != EMORIZUGU_ACCEPTED || emorizugu_file_offset(r.file, r.length) != r.length)
        return wrong("a file by itself");
    return room(2, 13, EMORIZUGU_ACCEPTED, 13, r.length) ? 0 : wrong("room enough");
}

/* The entries, but those that only say whether another one has an answer. */
static void replay(void) { emorizugu_run(&r); }
static void verdict(void) { emorizugu_file_offset(r.file, r.length); }
static void figure(void) { emorizugu_figure((const uint8_t *)r.book, 2 * EMORIZUGU_BOOK_BYTES, 2, 1, 5, 2); }
static void report(void) {
    emorizugu_surplus((const uint8_t *)r.book, 2 * EMORIZUGU_BOOK_BYTES, (const uint8_t *)r.schedules,
                      2 * EMORIZUGU_SCHEDULE_BYTES, 2, 1, 5);
}
static void difference(void) { emorizugu_difference(r.book, r.book_length, 2, 4); }
static void both_ways(void) { there_and_back(); }
static void day(void) { emorizugu_day(2026, 10, 2026, 11, 12); }
static void date(void) { emorizugu_date(2026, 10, 400); }

enum { STACK = 1 << 20, PAINT = 0xA5 };
static uint8_t *stack, *top;

static void *called(void *entry) {
    uint8_t here = 0;
    top = &here;
    (*(void (**)(void))entry)();
    return NULL;
}

/* The bytes from the frame that calls an entry down to the lowest one that is written; 0 where there is no thread. */
static size_t used(void (*entry)(void)) {
    pthread_attr_t attributes;
    pthread_t thread;
    size_t low = 0;
    memset(stack, PAINT, STACK);
    pthread_attr_init(&attributes);
    if (pthread_attr_setstack(&attributes, stack, STACK) != 0 || pthread_create(&thread, &attributes, called, &entry) != 0
        || pthread_join(thread, NULL) != 0)
        return 0;
    while (low < STACK && stack[low] == PAINT)
        low++;
    return (size_t)(top - (stack + low)) + 1;
}

/* A replay uses less than half of what the header asks for, every other entry less than 4,096 bytes. */
static int stacks(void) {
    static const struct {
        const char *name;
        void (*entry)(void);
        size_t most;
    } entries[] = {
        {"a replay", replay, EMORIZUGU_STACK / 2}, {"a file's verdict", verdict, 4096}, {"a figure", figure, 4096},
        {"a report", report, 4096}, {"a difference", difference, 4096}, {"a call, there and back", both_ways, 4096},
        {"a day", day, 4096}, {"a date", date, 4096},
    };
    size_t i, bytes;
    if (posix_memalign((void **)&stack, 4096, STACK) != 0)
        return wrong("no memory");
    for (i = 0; i < sizeof entries / sizeof *entries; i++) {
        bytes = used(entries[i].entry);
        printf("    stack of %s: %zu bytes\n", entries[i].name, bytes);
        if (bytes == 0 || bytes >= entries[i].most)
            return wrong("the stack of an entry");
    }
    return 0;
}

int main(int argc, char **argv) {
    if (argc != 2 || lent(argv[1]) != 0)
        return 1;
    return there_and_back() != 0 || rooms() != 0 || stacks() != 0;
}
