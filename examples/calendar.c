/*
 * The calendar: the day number of a date after a settled month, or the date of a day number.
 *
 *     calendar MONTH DATE
 *     calendar MONTH NUMBER
 *
 *     cc -std=c99 calendar.c $(pkg-config --cflags --libs emorizugu) -o calendar && ./calendar 2026-10 2026-11-12
 *
 * MONTH is the settled month as YEAR-MONTH, DATE is YEAR-MONTH-DAY. A date's number counts the working days after the
 * settled month up to and including it; of the dates with one number the first is printed.
 *
 * Exit status: 0 where a number or a date is printed, 1 where the calendar refuses, 2 where the arguments are not
 * understood or the output cannot be written. A message on standard error says which.
 */
#include <errno.h>
#include <inttypes.h>
#include <stdint.h>
#include <stdio.h>
#include <string.h>

#include "emorizugu.h"

enum { PRINTED = 0, REFUSED = 1, NOT_UNDERSTOOD = 2 };

/* Reads decimal numbers of digits alone with '-' between them; how many they are. 0 where the word is no such numbers,
   has more of them than `most`, or one of more than 64 bits. */
static int read_numbers(const char *word, uint64_t *numbers, int most) {
    const char *at = word;
    int count = 0;
    while (count < most) {
        const char *start = at;
        uint64_t value = 0;
        while (*at >= '0' && *at <= '9') {
            uint64_t digit = (uint64_t)(*at - '0');
            if (value > (UINT64_MAX - digit) / 10)
                return 0;
            value = 10 * value + digit;
            at++;
        }
        if (at == start)
            return 0;
        numbers[count++] = value;
        if (*at == '\0')
            return count;
        if (*at++ != '-')
            return 0;
    }
    return 0;
}

/* Says why there is no answer. */
static int refused(uint64_t refusal, const char *why) {
    fprintf(stderr, "calendar: refused with %" PRIu64 ": %s\n", refusal, why);
    return REFUSED;
}

/* Says that an argument is not understood. */
static int not_understood(const char *what, const char *word) {
    fprintf(stderr, "calendar: %s: \"%s\"\n", what, word);
    return NOT_UNDERSTOOD;
}

/* Prints a date's number. */
static int print_number(const uint64_t *settled, const uint64_t *date) {
    uint64_t refusal = emorizugu_day_refusal(settled[0], settled[1], date[0], date[1], date[2]);
    if (refusal != EMORIZUGU_ACCEPTED)
        return refused(refusal, "the month or the date is none of 2020 to 2059, the date lies before the month's last "
                                "day, or its number is above 400");
    printf("%" PRIu64 "\n", emorizugu_day(settled[0], settled[1], date[0], date[1], date[2]));
    return PRINTED;
}

/* Prints a number's date. */
static int print_date(const uint64_t *settled, uint64_t number) {
    uint64_t refusal = emorizugu_date_refusal(settled[0], settled[1], number);
    uint64_t date = emorizugu_date(settled[0], settled[1], number);
    if (refusal != EMORIZUGU_ACCEPTED)
        return refused(refusal, "the month is none of 2020 to 2059, the number is above 400, or its date lies behind "
                                "2059");
    printf("%04" PRIu64 "-%02" PRIu64 "-%02" PRIu64 "\n", date / 10000, date / 100 % 100, date % 100);
    return PRINTED;
}

static int answer(const char *month, const char *word) {
    uint64_t settled[2], numbers[3];
    if (read_numbers(month, settled, 2) != 2)
        return not_understood("MONTH is not YEAR-MONTH", month);
    switch (read_numbers(word, numbers, 3)) {
    case 1:
        return print_date(settled, numbers[0]);
    case 3:
        return print_number(settled, numbers);
    default:
        return not_understood("neither a date, YEAR-MONTH-DAY, nor a number", word);
    }
}

int main(int argc, char **argv) {
    int status;
    if (argc != 3) {
        fprintf(stderr, "usage: calendar MONTH DATE | calendar MONTH NUMBER\n");
        return NOT_UNDERSTOOD;
    }
    status = answer(argv[1], argv[2]);
    if (fflush(stdout) != 0) {
        fprintf(stderr, "calendar: standard output: %s\n", strerror(errno));
        return NOT_UNDERSTOOD;
    }
    return status;
}
