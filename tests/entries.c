/*
 * Every entry with NULL where the length is 0, the calendar, and both on a thread of EMORIZUGU_STACK bytes; the places of
 * the summary and the points, kinds of calls, runs closed and issued, delta groups of each run; and of document 01's sample month
 * the versions selected with their statuses, and a report.
 */
#include <pthread.h>
#include <stdio.h>
#include <stdlib.h>

#include "emorizugu.h"

static struct emorizugu_lent r;
static uint8_t file[4096];

static int wrong(const char *what) {
    fprintf(stderr, "entries: %s\n", what);
    return 1;
}

static int calendar(void) {
    const uint64_t most = UINT64_MAX;
    if (emorizugu_day_refusal(2026, 10, 2026, 11, 12) != 0 || emorizugu_day(2026, 10, 2026, 11, 12) != 9)
        return wrong("the number of a date");
    if (emorizugu_day_refusal(2026, 10, 2026, 10, 30) != EMORIZUGU_NO_DATE
        || emorizugu_day(2026, 10, 2026, 10, 30) != 0)
        return wrong("the number of a date before the month's last day");
    if (emorizugu_day_refusal(most, most, most, most, most) != EMORIZUGU_NO_DATE
        || emorizugu_day(most, most, most, most, most) != 0)
        return wrong("the number of no date");
    if (emorizugu_date_refusal(2026, 10, 9) != 0 || emorizugu_date(2026, 10, 9) != 20261112)
        return wrong("the date of a number");
    if (emorizugu_date_refusal(2026, 10, 401) != EMORIZUGU_NO_DATE || emorizugu_date(2026, 10, 401) != 0)
        return wrong("the date of a number above 400");
    if (emorizugu_date_refusal(most, most, most) != EMORIZUGU_NO_DATE || emorizugu_date(most, most, most) != 0)
        return wrong("the date of no number");
    return emorizugu_weekday(2026, 11, 12) == 4 && emorizugu_weekday(most, most, most) == 0 ? 0 : wrong("a weekday");
}

static void *run(void *refusal) {
    *(uint64_t *)refusal = calendar() == 0 ? emorizugu_run(&r) : EMORIZUGU_NO_DATE;
    return NULL;
}

static int nothing(void) {
    static struct emorizugu_lent none;
    uint64_t size = 7, call[EMORIZUGU_CALL] = {[EMORIZUGU_NEXT] = 9, [EMORIZUGU_COUNT] = 9};
    const uint8_t no_kind = 9;
    if (emorizugu_run(&none) != 0 || none.summary[EMORIZUGU_ANSWERED] != 0)
        return wrong("a replay of nothing");
    if (emorizugu_replay(NULL, 0, NULL, 0, NULL, 0, NULL, 0, NULL, 0, NULL, 0, NULL, 0, NULL, 0, NULL, 0, NULL, 0) != 2)
        return wrong("a replay with no summary");
    if (emorizugu_file_refusal(NULL, 0) != 0 || emorizugu_file_offset(NULL, 0) != 0)
        return wrong("an empty file");
    if (emorizugu_figure_refusal(NULL, 0, 1, 1, 1, 1) != 2 || emorizugu_figure(NULL, 0, 1, 1, 1, 1) != 0)
        return wrong("a figure of no book");
    if (emorizugu_report_refusal(NULL, 0, NULL, 0, 1, 1, 1) != 2 || emorizugu_surplus(NULL, 0, NULL, 0, 1, 1, 1) != 0
        || emorizugu_shortfall(NULL, 0, NULL, 0, 1, 1, 1) != 0)
        return wrong("a report of no book");
    if (emorizugu_sum(NULL, 0, 1, 1, 0) != 0 || emorizugu_difference(NULL, 0, 1, 0) != 0)
        return wrong("a sum of no book");
    if (emorizugu_read(NULL, 0, 0, NULL, 0, NULL, 0) != 2)
        return wrong("a call read to nowhere");
    if (emorizugu_read_offset(NULL, 0, 0, 0) != 0 || emorizugu_read_offset(NULL, 0, 1, 0) != 1)
        return wrong("the offset in an empty file");
    if (emorizugu_read(&no_kind, 1, 0, &size, 1, call, EMORIZUGU_CALL) != EMORIZUGU_BAD_KIND || size != 7
        || call[EMORIZUGU_NEXT] != 9 || call[EMORIZUGU_COUNT] != 9 || emorizugu_read_offset(&no_kind, 1, 0, 1) != 0)
        return wrong("a call of no kind read");
    if (emorizugu_read(&no_kind, 1, 1, &size, 1, call, EMORIZUGU_CALL) != EMORIZUGU_NO_CALL || call[EMORIZUGU_NEXT] != 9)
        return wrong("the end of a file read");
    if (emorizugu_write(8, NULL, 0, NULL, 0, NULL, 0, &size, 1) != 35 || size != 7)
        return wrong("a call written to nowhere");
    if (emorizugu_write(0, NULL, 0, NULL, 0, NULL, 0, &size, 1) != 33
        || emorizugu_write(9, NULL, 0, NULL, 0, NULL, 0, &size, 1) != 33
        || emorizugu_write(10, NULL, 0, NULL, 0, NULL, 0, &size, 1) != 33)
        return wrong("a call of no kind");
    return emorizugu_version() == EMORIZUGU_VERSION ? 0 : wrong("the version");
}

/* Both runs select version 1 of point 1, which is not settled; point 256 is free. */
static int selected(void) {
    const uint64_t *last = r.points + 255 * EMORIZUGU_POINT;
    if (r.points[EMORIZUGU_SELECTED_1] != 1 || r.points[EMORIZUGU_STATUS_1] != 2)
        return wrong("the version that run 1 selects, and its status");
    if (r.points[EMORIZUGU_SELECTED_2] != 1 || r.points[EMORIZUGU_STATUS_2] != 2)
        return wrong("the version that run 2 selects, and its status");
    return last[EMORIZUGU_STATUS_1] == 0 && last[EMORIZUGU_STATUS_2] == 0 ? 0 : wrong("the statuses of a free point");
}

/* A summary and points of so many places; nothing is done where they are too few. */
static int places(size_t summary, size_t points, uint64_t answer) {
    static struct emorizugu_lent none;
    none.summary[0] = none.points[0] = 9;
    if (emorizugu_replay(NULL, 0, NULL, 0, NULL, 0, NULL, 0, NULL, 0, NULL, 0, NULL, 0, none.summary, summary, none.points,
                         points, none.versions, EMORIZUGU_VERSIONS_LENGTH) != answer)
        return wrong("the places of the summary and the points");
    if (none.summary[0] != (answer == 0 ? 0 : 9))
        return wrong("a summary that is too short");
    return none.points[0] == (answer == 0 ? 0 : 9) ? 0 : wrong("points that are too few");
}

/* Whether the delta groups of a run are these of T and of areas 1 and 2, and 3 of the other areas; or all 0. */
static int grouped(const uint64_t *groups, uint64_t t, uint64_t one, uint64_t two) {
    size_t i;
    for (i = 3; i < EMORIZUGU_DELTAS; i++)
        if (groups[i] != (t == 0 ? 0 : 3))
            return 0;
    return groups[0] == t && groups[1] == one && groups[2] == two;
}

/* Runs calls of a month of one quarter hour, and compares their answers. */
static int answered(struct emorizugu_lent *a, const uint8_t *calls, size_t length, const uint64_t *wanted, size_t count) {
    static uint64_t book[EMORIZUGU_BOOK_ROWS], schedules[EMORIZUGU_GROUPS], answers[8];
    size_t i;
    a->file = calls, a->length = length;
    a->book = book, a->book_length = EMORIZUGU_BOOK_LENGTH(1);
    a->schedules = schedules, a->schedules_length = EMORIZUGU_SCHEDULES_LENGTH(1);
    a->answers = answers, a->answers_length = 8;
    if (emorizugu_run(a) != 0 || a->summary[EMORIZUGU_ANSWERED] != count)
        return 0;
    for (i = 0; i < count; i++)
        if (answers[i] != wanted[i])
            return 0;
    return 1;
}

/* The month is opened with F 10, C 30 and K 150; delta groups T 4, area 1: 1, area 2: 2, others 3. */
#define OPENED 1, 1, 10, 30, 0x96, 1, 4, 1, 2, 3, 3, 3, 3, 3, 3, 3, 3, 3, 3, 3, 3, 3, 3

/* Assignments on C, on C + 1, on K and on K + 1: both runs have the first, run 2 alone the next two, none the last. */
static int groups(void) {
    static const uint8_t calls[] = {OPENED, 6, 1, 7, 30, 6, 1, 8, 31, 6, 0, 9, 0x96, 1, 6, 2, 64, 0x97, 1};
    static const uint64_t wanted[] = {0, 0, 0, 0, EMORIZUGU_TOO_LATE};
    static struct emorizugu_lent a, none;
    size_t i;
    for (i = 0; i < EMORIZUGU_SUMMARY; i++)
        none.summary[i] = 9;
    if (!answered(&a, calls, sizeof calls, wanted, sizeof wanted / sizeof *wanted))
        return wrong("the answer to an assignment");
    if (!grouped(a.summary + EMORIZUGU_DELTA_GROUPS_1, 4, 7, 2) || !grouped(a.summary + EMORIZUGU_DELTA_GROUPS_2, 9, 8, 2))
        return wrong("the delta groups of the runs");
    if (emorizugu_run(&none) != 0 || !grouped(none.summary + EMORIZUGU_DELTA_GROUPS_1, 0, 0, 0)
        || !grouped(none.summary + EMORIZUGU_DELTA_GROUPS_2, 0, 0, 0))
        return wrong("the delta groups of a desk that is not open");
    return EMORIZUGU_DELTA_GROUPS_1 == 12 && EMORIZUGU_DELTA_GROUPS_2 == 29 ? 0 : wrong("the places of the delta groups");
}

/* Both runs closed, run 2 issued, run 1 not. An issue of run 1 before its close and one of run 2 behind its issue are refused. */
static int acts(void) {
    static const uint8_t calls[] = {OPENED, 8, 1, 31, 7, 1, 31, 7, 2, 0x97, 1, 8, 2, 0x97, 1, 8, 2, 0x97, 1};
    static const uint64_t wanted[] = {0, EMORIZUGU_NOT_CLOSED, 0, 0, 0, EMORIZUGU_ALREADY_ISSUED};
    static struct emorizugu_lent a;
    if (!answered(&a, calls, sizeof calls, wanted, sizeof wanted / sizeof *wanted))
        return wrong("the answer to a close or an issue");
    if (a.summary[EMORIZUGU_CLOSED_1] != 1 || a.summary[EMORIZUGU_CLOSED_2] != 1)
        return wrong("the runs that are closed");
    return a.summary[EMORIZUGU_ISSUED_1] == 0 && a.summary[EMORIZUGU_ISSUED_2] == 1 ? 0 : wrong("the runs that are issued");
}

/* A report of group 5, as it is read of what the replay left: its schedule is 0 until the host writes one. */
static int reported(uint64_t surplus, uint64_t shortfall) {
    uint64_t quarters = r.summary[EMORIZUGU_OPENED];
    const uint8_t *book = (const uint8_t *)r.book, *schedules = (const uint8_t *)r.schedules;
    size_t length = EMORIZUGU_BOOK_BYTES * quarters, schedules_length = EMORIZUGU_SCHEDULE_BYTES * quarters;
    if (emorizugu_report_refusal(book, length, schedules, schedules_length, quarters, 1, 5) != 0)
        return wrong("no report");
    return emorizugu_surplus(book, length, schedules, schedules_length, quarters, 1, 5) == surplus
                   && emorizugu_shortfall(book, length, schedules, schedules_length, quarters, 1, 5) == shortfall
               ? 0
               : wrong("a report");
}

/* The schedules of the month's two quarter hours are 0, those behind them as they were. */
static int schedules(void) {
    size_t i, used = EMORIZUGU_SCHEDULES_LENGTH(r.summary[EMORIZUGU_OPENED]);
    for (i = 0; i < r.schedules_length; i++)
        if (r.schedules[i] != (i < used ? 0 : 7))
            return wrong("the schedules of a replay");
    if (reported(0, 95000) != 0)
        return 1;
    r.schedules[8] = 49000, r.schedules[9] = 46000;
    return reported(1000, 1000);
}

static int small_stack(const char *name) {
    FILE *in = fopen(name, "rb");
    pthread_attr_t attributes;
    pthread_t thread;
    uint64_t refusal = 1;
    size_t i;
    if (in == NULL)
        return wrong("no file");
    r.file = file, r.length = fread(file, 1, sizeof file, in);
    r.values_length = EMORIZUGU_VALUES_LENGTH(8, 16), r.values = calloc(r.values_length, 8);
    r.book_length = EMORIZUGU_BOOK_LENGTH(8), r.book = calloc(r.book_length, 8);
    r.log_length = EMORIZUGU_LOG_LENGTH(16), r.log = calloc(r.log_length, 8);
    r.schedules_length = EMORIZUGU_SCHEDULES_LENGTH(8), r.schedules = calloc(r.schedules_length, 8);
    r.series_length = 8, r.series = calloc(8, 8);
    r.answers_length = EMORIZUGU_ANSWERS_LENGTH(r.length), r.answers = calloc(r.answers_length, 8);
    for (i = 0; i < r.schedules_length; i++)
        r.schedules[i] = 7;
    pthread_attr_init(&attributes);
    pthread_attr_setstacksize(&attributes, EMORIZUGU_STACK);
    if (pthread_create(&thread, &attributes, run, &refusal) != 0 || pthread_join(thread, NULL) != 0)
        return wrong("no thread");
    if (refusal != 0 || r.summary[EMORIZUGU_REFUSED] != 0)
        return wrong("a replay on a small stack");
    return selected() == 0 ? schedules() : 1;
}

int main(int argc, char **argv) {
    if (nothing() != 0 || places(46, 2303, 2) != 0 || places(45, 2304, 2) != 0 || places(12, 2304, 2) != 0
        || places(46, 2304, 0) != 0 || acts() != 0 || groups() != 0)
        return 1;
    return argc == 2 && small_stack(argv[1]) == 0 ? 0 : 1;
}
