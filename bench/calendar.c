/* One question to the calendar: a date's number (settled year and month, then year, month, day), or a number's date (settled year and month, then the number). */
#include <inttypes.h>
#include <stdint.h>
#include <stdio.h>
#include <stdlib.h>

#include "emorizugu.h"

__attribute__((noinline)) uint64_t bench_day(const uint64_t *n) { return emorizugu_day(n[0], n[1], n[2], n[3], n[4]); }

__attribute__((noinline)) uint64_t bench_date(const uint64_t *n) { return emorizugu_date(n[0], n[1], n[2]); }

int main(int count, char **words) {
    uint64_t n[5] = {0};
    for (int i = 0; i < 5 && i + 1 < count; i++)
        n[i] = strtoull(words[i + 1], NULL, 10);
    printf("%" PRIu64 "\n", count == 6 ? bench_day(n) : bench_date(n));
    return 0;
}
