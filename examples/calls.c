/*
 * Lists the calls of a message file, or writes one: kinds and fields by the header's names.
 *
 *     calls MESSAGE-FILE            lists its calls, each behind its offset
 *     calls --write MESSAGE-FILE    writes the file that document 01 has as its example
 *
 *     cc -std=c99 calls.c files.c $(pkg-config --cflags --libs emorizugu) -o calls && ./calls --write new.msg && ./calls new.msg
 *
 * Exit status: 0 where the whole file is listed or written, 1 where the file is refused behind the calls that are listed, 2
 * where a file cannot be read or written or there is no memory. A message on standard error says which.
 */
#include <errno.h>
#include <inttypes.h>
#include <stdint.h>
#include <stdio.h>
#include <stdlib.h>
#include <string.h>

#include "emorizugu.h"
#include "files.h"

enum { DONE = 0, REFUSED = 1, UNDONE = 2 };

static void print_opening(const uint64_t *fields) {
    int i;
    printf("open a month of %" PRIu64 " quarter hours, deadlines %" PRIu64 ", %" PRIu64 ", %" PRIu64 ", delta groups",
           fields[EMORIZUGU_OPEN_QUARTERS], fields[EMORIZUGU_OPEN_FIRST], fields[EMORIZUGU_OPEN_CLEARING],
           fields[EMORIZUGU_OPEN_CORRECTION]);
    for (i = 0; i < EMORIZUGU_DELTAS; i++)
        printf(" %" PRIu64, fields[EMORIZUGU_OPEN_GROUPS + i]);
    printf("\n");
}

static void print_submission(const uint64_t *fields, const uint64_t *energies, uint64_t count) {
    uint64_t i;
    printf("submit point %" PRIu64 ", version %" PRIu64 ", day %" PRIu64 ", energies", fields[EMORIZUGU_SUBMIT_POINT],
           fields[EMORIZUGU_SUBMIT_VERSION], fields[EMORIZUGU_SUBMIT_DAY]);
    for (i = 0; i < count; i++)
        printf(" %" PRId64, signed_reading(energies[i]));
    printf("\n");
}

static void print_call(uint64_t kind, const uint64_t *fields, const uint64_t *energies, uint64_t count) {
    switch (kind) {
    case EMORIZUGU_OPEN:
        print_opening(fields);
        break;
    case EMORIZUGU_ACTIVATE:
        printf("activate point %" PRIu64 ", kind %" PRIu64 ", area %" PRIu64 ", partner %" PRIu64 ", day %" PRIu64 "\n",
               fields[EMORIZUGU_ACTIVATE_POINT], fields[EMORIZUGU_ACTIVATE_KIND], fields[EMORIZUGU_ACTIVATE_AREA],
               fields[EMORIZUGU_ACTIVATE_PARTNER], fields[EMORIZUGU_ACTIVATE_DAY]);
        break;
    case EMORIZUGU_DEACTIVATE:
        printf("deactivate point %" PRIu64 ", day %" PRIu64 "\n", fields[EMORIZUGU_DEACTIVATE_POINT],
               fields[EMORIZUGU_DEACTIVATE_DAY]);
        break;
    case EMORIZUGU_SUBMIT:
        print_submission(fields, energies, count);
        break;
    case EMORIZUGU_NOTICE:
        printf("notice point %" PRIu64 ", version %" PRIu64 ", %s, day %" PRIu64 "\n", fields[EMORIZUGU_NOTICE_POINT],
               fields[EMORIZUGU_NOTICE_VERSION], fields[EMORIZUGU_NOTICE_VERDICT] == 1 ? "positive" : "not positive",
               fields[EMORIZUGU_NOTICE_DAY]);
        break;
    case EMORIZUGU_ASSIGN:
        printf("assign area %" PRIu64 ", group %" PRIu64 ", day %" PRIu64 "\n", fields[EMORIZUGU_ASSIGN_AREA],
               fields[EMORIZUGU_ASSIGN_GROUP], fields[EMORIZUGU_ASSIGN_DAY]);
        break;
    case EMORIZUGU_CLOSE:
        printf("close run %" PRIu64 ", day %" PRIu64 "\n", fields[EMORIZUGU_CLOSE_RUN], fields[EMORIZUGU_CLOSE_DAY]);
        break;
    case EMORIZUGU_ISSUE:
        printf("issue run %" PRIu64 ", day %" PRIu64 "\n", fields[EMORIZUGU_ISSUE_RUN], fields[EMORIZUGU_ISSUE_DAY]);
        break;
    }
}

/* Lists the calls up to the file's end, or up to one that is refused. */
static int list(const char *name, const struct file *file) {
    static uint64_t series[EMORIZUGU_SERIES_LENGTH];
    uint64_t call[EMORIZUGU_CALL] = {0}, at = 0, refusal;
    while (at < file->length) {
        refusal = emorizugu_read(file->bytes, file->length, at, series, EMORIZUGU_SERIES_LENGTH, call, EMORIZUGU_CALL);
        if (refusal != EMORIZUGU_ACCEPTED) {
            fprintf(stderr, "calls: %s: refused with %" PRIu64 " at offset %" PRIu64 "\n", name, refusal, at);
            return REFUSED;
        }
        printf("%6" PRIu64 "  ", at);
        print_call(call[EMORIZUGU_CALL_KIND], call + EMORIZUGU_FIELDS, series, call[EMORIZUGU_COUNT]);
        at = call[EMORIZUGU_NEXT];
    }
    return DONE;
}

/* A call behind those that the file has. 0 where there is no room, or a number that a file cannot carry. */
static int put(struct file *file, size_t room, uint64_t kind, const uint64_t *fields, size_t count, const uint64_t *series,
               size_t energies) {
    uint64_t size;
    if (emorizugu_write(kind, fields, count, series, energies, file->bytes + file->length, room - file->length, &size, 1)
        != EMORIZUGU_ACCEPTED)
        return 0;
    file->length += size;
    return 1;
}

/* An opening, an activation, and one submission sent twice. */
static int write_example(const char *name) {
    uint8_t bytes[64];
    struct file file = {bytes, 0};
    uint64_t open[EMORIZUGU_OPEN_FIELDS], activate[EMORIZUGU_ACTIVATE_FIELDS], submit[EMORIZUGU_SUBMIT_FIELDS];
    const uint64_t series[1] = {1000};
    int i;
    open[EMORIZUGU_OPEN_QUARTERS] = 1;
    open[EMORIZUGU_OPEN_FIRST] = 10;
    open[EMORIZUGU_OPEN_CLEARING] = 30;
    open[EMORIZUGU_OPEN_CORRECTION] = 150;
    for (i = 0; i < EMORIZUGU_DELTAS; i++)
        open[EMORIZUGU_OPEN_GROUPS + i] = 3;
    open[EMORIZUGU_OPEN_GROUPS] = 4; /* T */
    open[EMORIZUGU_OPEN_GROUPS + 1] = 1;
    open[EMORIZUGU_OPEN_GROUPS + 2] = 2;
    activate[EMORIZUGU_ACTIVATE_POINT] = 1;
    activate[EMORIZUGU_ACTIVATE_KIND] = 1; /* an exchange .. */
    activate[EMORIZUGU_ACTIVATE_AREA] = 1;
    activate[EMORIZUGU_ACTIVATE_PARTNER] = 0; /* .. with the outside */
    activate[EMORIZUGU_ACTIVATE_DAY] = 0;
    submit[EMORIZUGU_SUBMIT_POINT] = 1;
    submit[EMORIZUGU_SUBMIT_VERSION] = 7;
    submit[EMORIZUGU_SUBMIT_DAY] = 2;
    if (!put(&file, sizeof bytes, EMORIZUGU_OPEN, open, EMORIZUGU_OPEN_FIELDS, NULL, 0)
        || !put(&file, sizeof bytes, EMORIZUGU_ACTIVATE, activate, EMORIZUGU_ACTIVATE_FIELDS, NULL, 0)
        || !put(&file, sizeof bytes, EMORIZUGU_SUBMIT, submit, EMORIZUGU_SUBMIT_FIELDS, series, 1)
        || !put(&file, sizeof bytes, EMORIZUGU_SUBMIT, submit, EMORIZUGU_SUBMIT_FIELDS, series, 1)) {
        fprintf(stderr, "calls: %s: a call cannot be written\n", name);
        return UNDONE;
    }
    return write_file("calls", name, &file) ? DONE : UNDONE;
}

int main(int argc, char **argv) {
    struct file file = {NULL, 0};
    int status = UNDONE;
    if (argc == 3 && strcmp(argv[1], "--write") == 0)
        return write_example(argv[2]);
    if (argc != 2) {
        fprintf(stderr, "usage: calls [--write] MESSAGE-FILE\n");
        return UNDONE;
    }
    if (read_file("calls", argv[1], &file))
        status = list(argv[1], &file);
    free(file.bytes);
    if (fflush(stdout) != 0) {
        fprintf(stderr, "calls: standard output: %s\n", strerror(errno));
        return UNDONE;
    }
    return status;
}
