/*
 * Runs a message file through a fresh desk and writes the desk's book.
 *
 *     book MESSAGE-FILE BOOK-FILE
 *
 *     cc -std=c99 book.c files.c $(pkg-config --cflags --libs emorizugu) -o book && ./book month.msg new.book
 *
 * Prints each call's number and answer, then what the desk holds. Exit status: 0 where the whole file was run and the
 * book is written, 1 where the file is refused or opens no desk (there is no book then), 2 where a file cannot be read
 * or written or there is no memory. A message on standard error says which.
 */
#include <inttypes.h>
#include <stdint.h>
#include <stdio.h>
#include <stdlib.h>

#include "emorizugu.h"
#include "files.h"

enum { WRITTEN = 0, REFUSED = 1, UNWRITTEN = 2 };

/* The book's first figures as bytes, eight to a figure, lowest first. */
static int put_book(const char *name, const uint64_t *book, size_t figures) {
    struct file file = {malloc(8 * figures), 8 * figures};
    size_t i;
    int written;
    if (file.bytes == NULL) {
        fprintf(stderr, "book: no memory\n");
        return 0;
    }
    for (i = 0; i < file.length; i++)
        file.bytes[i] = (uint8_t)(book[i / 8] >> 8 * (i % 8));
    written = write_file("book", name, &file);
    free(file.bytes);
    return written;
}

static int run(const char *name, struct emorizugu_lent *r) {
    const uint64_t *summary = r->summary;
    uint64_t refusal = emorizugu_run(r);
    uint64_t i;
    for (i = 0; i < summary[EMORIZUGU_ANSWERED]; i++)
        printf("%" PRIu64 " %" PRIu64 "\n", i + 1, r->answers[i]);
    if (refusal != EMORIZUGU_ACCEPTED) {
        fprintf(stderr, "book: %s: refused with %" PRIu64 " at offset %" PRIu64 "\n", name, refusal,
                summary[EMORIZUGU_OFFSET]);
        return 0;
    }
    if (summary[EMORIZUGU_OPENED] == 0) {
        fprintf(stderr, "book: %s: no call of it opens the desk\n", name);
        return 0;
    }
    if (summary[EMORIZUGU_REFUSED] != 0)
        fprintf(stderr, "book: %s: %" PRIu64 " calls are refused, the first is call %" PRIu64 "\n", name,
                summary[EMORIZUGU_REFUSED], summary[EMORIZUGU_FIRST]);
    printf("%" PRIu64 " quarter hours, %" PRIu64 " versions, %" PRIu64 " log rows\n", summary[EMORIZUGU_OPENED],
           summary[EMORIZUGU_HELD], summary[EMORIZUGU_LOGGED]);
    return 1;
}

int main(int argc, char **argv) {
    struct file message = {NULL, 0};
    static struct emorizugu_lent r;
    int status = UNWRITTEN;
    if (argc != 3) {
        fprintf(stderr, "usage: book MESSAGE-FILE BOOK-FILE\n");
        return UNWRITTEN;
    }
    if (read_file("book", argv[1], &message) && lend("book", &r, &message)) {
        if (!run(argv[1], &r))
            status = REFUSED;
        else if (put_book(argv[2], r.book, EMORIZUGU_BOOK_LENGTH(r.summary[EMORIZUGU_OPENED])))
            status = WRITTEN;
    }
    free(message.bytes);
    release(&r);
    return fflush(stdout) == 0 ? status : UNWRITTEN;
}
