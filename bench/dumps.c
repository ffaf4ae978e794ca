/* dumps TIMES ask|write|read SIGNALS WINDOW TICKS: one operation of the static library again and again, so that its instructions can be counted, on a sheet without a
 * rule. Its table has every signal true and false in turn, changing at so many ticks, which are spread evenly. Prints how long the dump is, and its readings. */
#include "mikhakun.h"

#include <stdio.h>
#include <stdlib.h>
#include <string.h>

static void accepted(uint64_t number)
{
    if (number == 0) return;
    fprintf(stderr, "dumps: refused by %llu\n", (unsigned long long)number);
    exit(1);
}

/* Is tick t, of so many in the window, one at which the signals change? */
static int changes(size_t t, size_t window, size_t ticks)
{
    return t > 0 && t * ticks / (window - 1) != (t - 1) * ticks / (window - 1);
}

int main(int count, char **words_asked)
{
    if (count < 6) return 2;
    const char *asked = words_asked[2];
    size_t times = strtoul(words_asked[1], NULL, 10), signals = strtoul(words_asked[3], NULL, 10), window = strtoul(words_asked[4], NULL, 10),
           ticks = strtoul(words_asked[5], NULL, 10), room = 64 * 4096 * 50, at = 0, per = (window + 63) / 64;
    uint8_t *sheet = malloc(4096), *dump = malloc(room), *readings = malloc(room);
    at += sprintf((char *)sheet, "window=%zu\nsignals=%zu\n", window, signals);
    for (size_t x = 0; x < signals; x++) at += sprintf((char *)sheet + at, "signal=s%zu\n", x);
    at += sprintf((char *)sheet + at, "rules=0\n");
    uint64_t rows, place, value, long_dump = 0, long_readings = 0;
    accepted(mikhakun_check(sheet, at, &rows, &place));
    size_t words = mikhakun_words(rows, window);
    uint64_t *table = calloc(words, sizeof *table);
    for (size_t x = 0; x < signals; x++)
        for (size_t t = 0, now = 1; t < window; t++) {
            if (changes(t, window, ticks)) now = !now;
            table[(2 * x + !now) * per + t / 64] |= (uint64_t)1 << t % 64;
        }
    accepted(mikhakun_write_dump(sheet, at, table, words, dump, room, &long_dump, &place));
    for (size_t i = 0; i < times; i++) {
        if (strcmp(asked, "ask") == 0) accepted(mikhakun_ask(sheet, at, table, words, 0, 0, &value, &place));
        if (strcmp(asked, "write") == 0) accepted(mikhakun_write_dump(sheet, at, table, words, dump, room, &long_dump, &place));
        if (strcmp(asked, "read") == 0) accepted(mikhakun_read_dump(sheet, at, dump, long_dump, readings, room, &long_readings, &place));
    }
    printf("dump=%llu\nreadings=%llu\n", (unsigned long long)long_dump, (unsigned long long)long_readings);
    return 0;
}
