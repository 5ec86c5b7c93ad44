/*
 * Balance deviation: what groups planned to take over a month beside what the book says that they took, split by surplus
 * (planned and not taken) and shortfall (taken and not planned).
 *
 *     report BOOK-FILE SCHEDULES-FILE QUARTERS RUN [GROUP]
 *
 *     cc -std=c99 report.c files.c $(pkg-config --cflags --libs emorizugu) -o report && ./report month.book month.lodged 2 1
 *
 * A message file carries no schedules, so a host keeps them: eight bytes to a number, lowest first, in two's complement, group
 * g and quarter hour q at number (g - 1) x QUARTERS + q - 1; 0 for a group that planned nothing. Over and under of two quarter
 * hours do not cancel. Without GROUP every group is printed that has a surplus or a shortfall.
 *
 * Exit status: 0 where a report is printed, 2 where there is nothing to print: wrong arguments, a file that cannot be read or
 * has another length, a number outside its range, no memory. A message on standard error says which.
 */
#include <errno.h>
#include <inttypes.h>
#include <stdint.h>
#include <stdio.h>
#include <stdlib.h>
#include <string.h>

#include "emorizugu.h"
#include "files.h"

enum { PRINTED = 0, UNREADABLE = 2 };

/* A book, schedules, and what is asked of them. */
struct asked {
    struct file book, schedules;
    uint64_t quarters, run;
};

static uint64_t refusal(const struct asked *a, uint64_t group) {
    return emorizugu_report_refusal(a->book.bytes, a->book.length, a->schedules.bytes, a->schedules.length, a->quarters,
                                    a->run, group);
}

/* Whether there is a report; says what is wrong where there is none. */
static int has_report(const struct asked *a, uint64_t group) {
    switch (refusal(a, group)) {
    case EMORIZUGU_ACCEPTED:
        return 1;
    case EMORIZUGU_WRONG_LENGTH:
        fprintf(stderr,
                "report: a month of %" PRIu64 " quarter hours has a book of %" PRIu64 " and schedules of %" PRIu64
                " bytes, not %zu and %zu\n",
                a->quarters, EMORIZUGU_BOOK_BYTES * a->quarters, EMORIZUGU_SCHEDULE_BYTES * a->quarters,
                a->book.length, a->schedules.length);
        return 0;
    default:
        fprintf(stderr, "report: QUARTERS is 1 to %d, RUN 1 to %d, GROUP 1 to %d\n", EMORIZUGU_QUARTERS, EMORIZUGU_RUNS,
                EMORIZUGU_GROUPS);
        return 0;
    }
}

/* Prints a group's sums, or nothing where both are 0 and `always` is not set. */
static void print_group(const struct asked *a, uint64_t group, int always) {
    uint64_t surplus = emorizugu_surplus(a->book.bytes, a->book.length, a->schedules.bytes, a->schedules.length,
                                         a->quarters, a->run, group);
    uint64_t shortfall = emorizugu_shortfall(a->book.bytes, a->book.length, a->schedules.bytes, a->schedules.length,
                                             a->quarters, a->run, group);
    if (always || surplus != 0 || shortfall != 0)
        printf("%5" PRIu64 " %20" PRId64 " %20" PRId64 "\n", group, signed_reading(surplus), signed_reading(shortfall));
}

/* Prints one group, or all where it is 0. */
static void print_report(const struct asked *a, uint64_t group) {
    uint64_t each;
    printf("run %" PRIu64 "\n%5s %20s %20s\n", a->run, "group", "surplus", "shortfall");
    if (group != 0) {
        print_group(a, group, 1);
        return;
    }
    for (each = 1; each <= EMORIZUGU_GROUPS; each++)
        print_group(a, each, 0);
}

/* Reads what is asked; `group` stays where none is named. */
static int read_arguments(int argc, char **argv, struct asked *a, uint64_t *group) {
    return read_number("report", argv[3], "QUARTERS", &a->quarters) && read_number("report", argv[4], "RUN", &a->run)
           && (argc == 5 || read_number("report", argv[5], "GROUP", group))
           && read_file("report", argv[1], &a->book) && read_file("report", argv[2], &a->schedules);
}

int main(int argc, char **argv) {
    struct asked a = {{NULL, 0}, {NULL, 0}, 0, 0};
    uint64_t group = 1;
    int status = UNREADABLE;
    if (argc != 5 && argc != 6) {
        fprintf(stderr, "usage: report BOOK-FILE SCHEDULES-FILE QUARTERS RUN [GROUP]\n");
        return UNREADABLE;
    }
    if (read_arguments(argc, argv, &a, &group) && has_report(&a, group)) {
        print_report(&a, argc == 5 ? 0 : group);
        status = PRINTED;
    }
    free(a.book.bytes);
    free(a.schedules.bytes);
    if (fflush(stdout) != 0) {
        fprintf(stderr, "report: standard output: %s\n", strerror(errno));
        return UNREADABLE;
    }
    return status;
}
