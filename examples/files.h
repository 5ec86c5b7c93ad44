/*
 * Whole files in memory, what the replay of one is lent, and numbers, for the example programs.
 */
#ifndef FILES_H
#define FILES_H

#include <stddef.h>
#include <stdint.h>

#include "emorizugu.h"

/* A file's bytes; `bytes` is never NULL once the file is read. */
struct file {
    uint8_t *bytes;
    size_t length;
};

/* Reads a whole file; says what is wrong where it cannot, after the program's name. The caller frees the bytes, also then. */
int read_file(const char *program, const char *name, struct file *file);

/* Writes a whole file; says what is wrong where it cannot. */
int write_file(const char *program, const char *name, const struct file *file);

/* Lends a message file and the most that a desk can use of each store; says so where there is no memory. The caller releases
   what was lent, also then. */
int lend(const char *program, struct emorizugu_lent *r, const struct file *message);

/* Frees the stores that were lent. */
void release(struct emorizugu_lent *r);

/* Reads a decimal number of digits alone; says what is wrong where it is none or has more than 64 bits. */
int read_number(const char *program, const char *word, const char *what, uint64_t *number);

/* A word in two's complement as a signed number. */
int64_t signed_reading(uint64_t word);

#endif
