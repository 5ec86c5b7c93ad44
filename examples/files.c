#include "files.h"

#include <errno.h>
#include <stdio.h>
#include <stdlib.h>
#include <string.h>

/* Reads the rest of a stream to memory that grows with it. 0, or the number of the error. */
static int read_stream(FILE *stream, struct file *file) {
    size_t room = 0;
    do {
        uint8_t *grown;
        room = room == 0 ? 4096 : 2 * room;
        grown = realloc(file->bytes, room);
        if (grown == NULL)
            return ENOMEM;
        file->bytes = grown;
        file->length += fread(file->bytes + file->length, 1, room - file->length, stream);
    } while (file->length == room);
    if (!ferror(stream))
        return 0;
    return errno != 0 ? errno : EIO;
}

int read_file(const char *program, const char *name, struct file *file) {
    FILE *stream = fopen(name, "rb");
    int error;
    file->bytes = NULL;
    file->length = 0;
    error = stream == NULL ? errno : read_stream(stream, file);
    if (stream != NULL)
        fclose(stream);
    if (error != 0)
        fprintf(stderr, "%s: %s: %s\n", program, name, strerror(error));
    return error == 0;
}

int write_file(const char *program, const char *name, const struct file *file) {
    FILE *stream = fopen(name, "wb");
    int error = stream == NULL ? errno : 0;
    if (stream != NULL) {
        if (fwrite(file->bytes, 1, file->length, stream) != file->length)
            error = errno != 0 ? errno : EIO;
        if (fclose(stream) != 0 && error == 0)
            error = errno != 0 ? errno : EIO;
    }
    if (error != 0)
        fprintf(stderr, "%s: %s: %s\n", program, name, strerror(error));
    return error == 0;
}

int lend(const char *program, struct emorizugu_lent *r, const struct file *message) {
    r->file = message->bytes;
    r->length = message->length;
    r->values_length = EMORIZUGU_VALUES_LENGTH(EMORIZUGU_QUARTERS, EMORIZUGU_VERSIONS);
    r->book_length = EMORIZUGU_BOOK_LENGTH(EMORIZUGU_QUARTERS);
    r->log_length = EMORIZUGU_LOG_LENGTH(EMORIZUGU_VERSIONS);
    r->schedules_length = EMORIZUGU_SCHEDULES_LENGTH(EMORIZUGU_QUARTERS);
    r->series_length = EMORIZUGU_SERIES_LENGTH;
    r->answers_length = EMORIZUGU_ANSWERS_LENGTH(message->length);
    r->values = calloc(r->values_length, sizeof *r->values);
    r->book = calloc(r->book_length, sizeof *r->book);
    r->log = calloc(r->log_length, sizeof *r->log);
    r->schedules = calloc(r->schedules_length, sizeof *r->schedules);
    r->series = calloc(r->series_length, sizeof *r->series);
    r->answers = calloc(r->answers_length, sizeof *r->answers);
    if (r->values && r->book && r->log && r->schedules && r->series && r->answers)
        return 1;
    fprintf(stderr, "%s: no memory\n", program);
    return 0;
}

void release(struct emorizugu_lent *r) {
    free(r->values);
    free(r->book);
    free(r->log);
    free(r->schedules);
    free(r->series);
    free(r->answers);
}

int read_number(const char *program, const char *word, const char *what, uint64_t *number) {
    uint64_t value = 0;
    const char *at = word;
    while (*at >= '0' && *at <= '9') {
        uint64_t digit = (uint64_t)(*at - '0');
        if (value > (UINT64_MAX - digit) / 10)
            break;
        value = 10 * value + digit;
        at++;
    }
    *number = value;
    if (at != word && *at == '\0')
        return 1;
    fprintf(stderr, "%s: %s is no number from 0 to 2^64 - 1: \"%s\"\n", program, what, word);
    return 0;
}

int64_t signed_reading(uint64_t word) {
    return word <= INT64_MAX ? (int64_t)word : -(int64_t)(UINT64_MAX - word) - 1;
}
