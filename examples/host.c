/*
 * A host program: it says whether a message file is whole, whether each run is closed and issued, which deltas have another
 * group in run 2, which version of each point each run selects and whether that version is settled, and prints a balance group's
 * month from a book.
 *
 *     host MESSAGE-FILE BOOK-FILE QUARTERS RUN GROUP
 *
 *     cc -std=c99 host.c files.c $(pkg-config --cflags --libs emorizugu) -o host && ./host month.msg month.book 2 1 5
 *
 * Exit status: 0 where both could be read, 1 where the message file is refused (its verdict and the month are printed
 * all the same), 2 where there is nothing to print: wrong arguments, a file that cannot be read, a book of another
 * length, a number outside its range, no memory. A message on standard error says which.
 */
#include <errno.h>
#include <inttypes.h>
#include <stdint.h>
#include <stdio.h>
#include <stdlib.h>
#include <string.h>

#include "emorizugu.h"
#include "files.h"

enum { READ = 0, REFUSED = 1, UNREADABLE = 2 };

static const char *cause(uint64_t refusal) {
    switch (refusal) {
    case EMORIZUGU_CUT:
        return "the file ends inside a call";
    case EMORIZUGU_NOT_SHORTEST:
        return "a number is not in its shortest form, or its ninth byte has the top bit set";
    case EMORIZUGU_BAD_KIND:
        return "a call's kind is not 1 to 8";
    case EMORIZUGU_TOO_LARGE:
        return "a submission counts more than 2980 energies";
    default:
        return "unknown cause";
    }
}

/* Prints the verdict on a message file. */
static int print_verdict(const char *name, const struct file *file) {
    uint64_t refusal = emorizugu_file_refusal(file->bytes, file->length);
    uint64_t offset = emorizugu_file_offset(file->bytes, file->length);
    if (refusal == EMORIZUGU_ACCEPTED) {
        printf("%s: accepted, %" PRIu64 " bytes\n", name, offset);
        return READ;
    }
    printf("%s: refused with %" PRIu64 " at offset %" PRIu64 ": %s\n", name, refusal, offset, cause(refusal));
    return REFUSED;
}

static const char *status_words(uint64_t status) {
    static const char *const words[] = {"none", "check data", "settlement data", "settled", "correction settlement data",
                                        "correction settled"};
    return status < sizeof words / sizeof *words ? words[status] : "unknown status";
}

/* Prints the version that a run selects of a point, and its status; nothing where it selects none. */
static void print_selected(uint64_t point, int run, uint64_t version, uint64_t status) {
    if (version != 0)
        printf("point %" PRIu64 ", run %d: version %" PRIu64 ", %s\n", point, run, version, status_words(status));
}

static void print_points(const uint64_t *points) {
    uint64_t point;
    for (point = 1; point <= EMORIZUGU_POINTS; point++) {
        const uint64_t *places = points + (point - 1) * EMORIZUGU_POINT;
        print_selected(point, 1, places[EMORIZUGU_SELECTED_1], places[EMORIZUGU_STATUS_1]);
        print_selected(point, 2, places[EMORIZUGU_SELECTED_2], places[EMORIZUGU_STATUS_2]);
    }
}

/* Prints whether a run is closed and whether it is issued. */
static void print_run(int run, uint64_t closed, uint64_t issued) {
    printf("run %d: %s, %s\n", run, closed ? "closed" : "not closed", issued ? "issued" : "not issued");
}

/* Prints the deltas whose group in run 2 is another one than in run 1. */
static void print_deltas(const uint64_t *first, const uint64_t *second) {
    int delta;
    for (delta = 0; delta < EMORIZUGU_DELTAS; delta++) {
        if (first[delta] == second[delta])
            continue;
        if (delta == 0)
            printf("delta T");
        else
            printf("delta of area %d", delta);
        printf(": group %" PRIu64 " in run 1, group %" PRIu64 " in run 2\n", first[delta], second[delta]);
    }
}

/*
 * Runs a message file through a fresh desk and prints, if it was opened, how far both runs are, where their delta groups differ,
 * and what they select of each point. 0 where there is no memory.
 */
static int print_selections(const struct file *message) {
    static struct emorizugu_lent r;
    int lent = lend("host", &r, message);
    if (lent) {
        emorizugu_run(&r);
        if (r.summary[EMORIZUGU_OPENED] != 0) {
            print_run(1, r.summary[EMORIZUGU_CLOSED_1], r.summary[EMORIZUGU_ISSUED_1]);
            print_run(2, r.summary[EMORIZUGU_CLOSED_2], r.summary[EMORIZUGU_ISSUED_2]);
            print_deltas(r.summary + EMORIZUGU_DELTA_GROUPS_1, r.summary + EMORIZUGU_DELTA_GROUPS_2);
        }
        print_points(r.points);
    }
    release(&r);
    return lent;
}

/* Adds a figure to a sum. 0 where the result has more than 64 bits, and the sum stays. */
static int add(int64_t *sum, int64_t figure) {
    if (figure > 0 ? *sum > INT64_MAX - figure : *sum < INT64_MIN - figure)
        return 0;
    *sum += figure;
    return 1;
}

/* Prints a group's month, a line a quarter hour, and its sum, which only figures that are no desk's take past 64 bits. */
static void print_month(const struct file *book, uint64_t quarters, uint64_t run, uint64_t group) {
    int64_t sum = 0;
    int fits = 1;
    uint64_t quarter;
    printf("run %" PRIu64 ", group %" PRIu64 "\n%12s %20s\n", run, group, "quarter hour", "watt-hours");
    for (quarter = 1; quarter <= quarters; quarter++) {
        uint64_t word = emorizugu_figure(book->bytes, book->length, quarters, run, group, quarter);
        int64_t figure = signed_reading(word);
        printf("%12" PRIu64 " %20" PRId64 "\n", quarter, figure);
        fits = fits && add(&sum, figure);
    }
    if (fits)
        printf("%12s %20" PRId64 "\n", "sum", sum);
    else
        printf("%12s %20s\n", "sum", "beyond 64 bits");
}

/* Whether the book has this month; says what is wrong where it has not. */
static int has_month(const char *name, const struct file *book, uint64_t quarters, uint64_t run, uint64_t group) {
    switch (emorizugu_figure_refusal(book->bytes, book->length, quarters, run, group, 1)) {
    case EMORIZUGU_ACCEPTED:
        return 1;
    case EMORIZUGU_WRONG_LENGTH:
        fprintf(stderr, "host: %s: a book of %" PRIu64 " quarter hours has %" PRIu64 " bytes, not %zu\n", name,
                quarters, EMORIZUGU_BOOK_BYTES * quarters, book->length);
        return 0;
    default:
        fprintf(stderr, "host: QUARTERS is 1 to %d, RUN 1 to %d, GROUP 1 to %d\n", EMORIZUGU_QUARTERS,
                EMORIZUGU_RUNS, EMORIZUGU_GROUPS);
        return 0;
    }
}

int main(int argc, char **argv) {
    struct file message = {NULL, 0}, book = {NULL, 0};
    uint64_t quarters, run, group;
    int status = UNREADABLE;
    if (argc != 6) {
        fprintf(stderr, "usage: host MESSAGE-FILE BOOK-FILE QUARTERS RUN GROUP\n");
        return UNREADABLE;
    }
    if (read_number("host", argv[3], "QUARTERS", &quarters) && read_number("host", argv[4], "RUN", &run)
        && read_number("host", argv[5], "GROUP", &group) && read_file("host", argv[1], &message)
        && read_file("host", argv[2], &book) && has_month(argv[2], &book, quarters, run, group)) {
        status = print_verdict(argv[1], &message);
        if (status == READ && !print_selections(&message))
            status = UNREADABLE;
        print_month(&book, quarters, run, group);
    }
    free(message.bytes);
    free(book.bytes);
    if (fflush(stdout) != 0) {
        fprintf(stderr, "host: standard output: %s\n", strerror(errno));
        return UNREADABLE;
    }
    return status;
}
