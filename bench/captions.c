/* captions TIMES check|caption SIGNALS LINES BYTES: one operation of the static library again and again, so that its instructions can be counted, on a sheet without a
 * rule. The captions have so many lines, from the last signal to the first, with captions of so many bytes; the first signal is asked for. Prints how long the captions'
 * text is, and the answer. */
#include "mikhakun.h"

#include <stdio.h>
#include <stdlib.h>
#include <string.h>

int main(int count, char **words)
{
    if (count < 6) return 2;
    size_t times = strtoul(words[1], NULL, 10), signals = strtoul(words[3], NULL, 10), lines = strtoul(words[4], NULL, 10), bytes = strtoul(words[5], NULL, 10), at = 0, end = 0;
    uint8_t *sheet = malloc(4096), *captions = malloc(lines * (bytes + 24) + 1);
    at += sprintf((char *)sheet, "window=64\nsignals=%zu\n", signals);
    for (size_t x = 0; x < signals; x++) at += sprintf((char *)sheet + at, "signal=s%zu\n", x);
    at += sprintf((char *)sheet + at, "rules=0\n");
    for (size_t x = 0; x < lines; x++) {
        end += sprintf((char *)captions + end, "s%zu=", signals - 1 - x);
        memset(captions + end, 'a', bytes);
        end += bytes;
        captions[end++] = '\n';
    }
    uint64_t rows, in_captions, start, length, place, number = 0;
    for (size_t i = 0; i < times; i++) {
        if (strcmp(words[2], "check") == 0) number = mikhakun_check(sheet, at, &rows, &place);
        if (strcmp(words[2], "caption") == 0) number = mikhakun_caption(sheet, at, captions, end, 0, &in_captions, &start, &length, &place);
    }
    printf("bytes=%zu\nanswer=%llu\n", end, (unsigned long long)number);
    return 0;
}
