/* figures TIMES check|add|figures|adds [TEXTS]: one operation of the static library again and again, so that its instructions can be counted, on the sheet and the
 * readings in the current folder, sheet.txt and readings.txt. figures runs so many texts, each of them the readings; adds does the same by so many calls of add, each
 * to an emptied table. Prints the facts that the last call came to. */
#include "mikhakun.h"

#include <stdio.h>
#include <stdlib.h>
#include <string.h>

enum { LONGEST = 32768, MOST_TEXTS = 64, MOST_SIGNALS = 64 };

static uint8_t sheet[LONGEST + 1], readings[LONGEST + 1], texts[MOST_TEXTS * LONGEST];
static uint64_t lengths[MOST_TEXTS];
static mikhakun_record records[MOST_SIGNALS];

static size_t read_file(const char *path, uint8_t *buffer)
{
    FILE *file = fopen(path, "rb");
    size_t length = file ? fread(buffer, 1, LONGEST + 1, file) : 0;
    if (file) fclose(file);
    return length;
}

static void accepted(uint64_t number)
{
    if (number == 0) return;
    fprintf(stderr, "figures: refused by %llu\n", (unsigned long long)number);
    exit(1);
}

/* Empties the table as the library's own programs do, a word at a time. */
static void empty(uint64_t *table, size_t words)
{
    for (size_t i = 0; i < words; i++) *(volatile uint64_t *)&table[i] = 0;
}

int main(int count, char **words_asked)
{
    if (count < 3) return 2;
    const char *asked = words_asked[2];
    size_t times = strtoul(words_asked[1], NULL, 10), runs = count > 3 ? strtoul(words_asked[3], NULL, 10) : 1;
    size_t s = read_file("sheet.txt", sheet), r = read_file("readings.txt", readings);
    uint64_t rows, fresh = 0, clash, place, facts = 0;
    accepted(mikhakun_check(sheet, s, &rows, &place));
    size_t words = mikhakun_words(rows, mikhakun_window(sheet)), signals = mikhakun_signals(sheet);
    uint64_t *table = calloc(words, sizeof *table);
    for (size_t i = 0; i < runs && i < MOST_TEXTS; i++) {
        memcpy(texts + i * r, readings, r);
        lengths[i] = r;
    }
    for (size_t i = 0; i < times; i++) {
        if (strcmp(asked, "check") == 0) accepted(mikhakun_check(sheet, s, &rows, &place));
        if (strcmp(asked, "figures") == 0) accepted(mikhakun_figures(sheet, s, texts, runs * r, lengths, runs, table, words, records, signals, &place));
        for (size_t k = 0; strcmp(asked, "adds") == 0 && k < runs; k++) {
            empty(table, words);
            accepted(mikhakun_add(sheet, s, readings, r, table, words, &fresh, &clash, &place));
        }
    }
    for (size_t x = 0; x < signals; x++) facts += records[x].held + records[x].failed;
    printf("facts=%llu\n", (unsigned long long)(strcmp(asked, "figures") == 0 ? facts : fresh * runs));
    free(table);
    return 0;
}
