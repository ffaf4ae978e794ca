/* How much stack a call takes: check, add, ask, the moves, figures, print_rule, write_dump, read_dump and caption run on a painted stack, on sheets whose one rule
 * is as deep as a rule can be, in many ways. What is added and moved is two equal spans; figures run that text once, and several times; the dump has another sign
 * at each tick; the caption is as long as one can be. The rules that took most are tried again over the widest window, whose table is 64 times as long, and there
 * one with the most rows, with the longest texts of both forms.
 * Prints the most that each took, and 'N passed, M failed' at the end: a call passes if it never took more than include/mikhakun.h asks for, the rule
 * of the most rows if it has them. */
#define _POSIX_C_SOURCE 200809L
#include "mikhakun.h"

#include <stdio.h>
#include <stdlib.h>
#include <string.h>
#include <ucontext.h>

enum { ASKED = 72 * 1024, STACK = 2 * ASKED, PAINT = 0xA5, LONGEST_RULE = 256, MOST_OPEN = 32, MOST_ROWS = 1024, NARROW = 64, WIDEST = 4096,
       LONGEST_TEXT = 32768, LONGEST_ENTRY = 40, SEVERAL = 3, DUMP_ROOM = 40000, READINGS_ROOM = LONGEST_ENTRY * WIDEST };

/* What is put around a rule's core, over and over, the first of them nothing; what the core is; and what fills the rest of the rule behind it. */
static const struct { const char *open, *close; } NESTS[] = {
    {"", ""}, {"!", ""}, {"(", ")"}, {"(a|", ")"}, {"(a=>a|", ")"}, {"(a<=>a=>a|", ")"}, {"(", ")@[0,0]"}, {"since(", ",a)"}, {"since(a,", ")"},
};
static const struct { const char *core, *fill; } ENDS[] = {{"a", "&a"}, {"a", "@[0,0]"}, {"since(a,a)", "&a"}};
#define COUNT(list) (sizeof(list) / sizeof *(list))

/* A signal, four times 127 looks and the 126 gates that join them, and 11 gates: MOST_ROWS rows. */
static const char MANY_ROWS[] = "a@[-63,63]@[-63,63]@[-63,63]@[-63,63]&a&a&a&a&a&a&a&a&a&a&a";

/* Equal entries take the moves furthest down, as they put entries in order by halving. */
static const char EQUAL_SPANS[] = "from=0\nto=63\nsignal=a\nvalue=1\nfrom=0\nto=63\nsignal=a\nvalue=1\n";

/* The one signal's caption, of MIKHAKUN_CAPTION_BYTES. */
static const char CAPTION[] = "a=1234567890123456789012345678901234567890\n";

static uint8_t stack[STACK], out[LONGEST_TEXT];
static ucontext_t outside, inside;
static char sheet[LONGEST_RULE + 64], readings[LONGEST_TEXT + 1];
static size_t readings_len;
static uint8_t texts[SEVERAL * LONGEST_TEXT];
static uint64_t lengths[SEVERAL];
static mikhakun_record record;
static uint64_t table[2 * MOST_ROWS * (WIDEST / 64)], words, rows, place, fresh, clash, value, in_captions, start, length, number;
static uint64_t signs[2 * MOST_ROWS * (WIDEST / 64)], dump_len;
static uint8_t dump[DUMP_ROOM], said[READINGS_ROOM];

static void check(void) { number = mikhakun_check((uint8_t *)sheet, strlen(sheet), &rows, &place); }
static void add(void) { number = mikhakun_add((uint8_t *)sheet, strlen(sheet), (uint8_t *)readings, readings_len, table, words, &fresh, &clash, &place); }
static void ask(void) { number = mikhakun_ask((uint8_t *)sheet, strlen(sheet), table, words, 0, 0, &value, &place); }
static void to_spans(void) { number = mikhakun_to_spans((uint8_t *)sheet, strlen(sheet), (uint8_t *)readings, readings_len, out, sizeof out, &length, &place); }
static void to_readings(void) { number = mikhakun_to_readings((uint8_t *)sheet, strlen(sheet), (uint8_t *)readings, readings_len, out, sizeof out, &length, &place); }

/* Runs the readings so often as a text of their own. The table that was added to is the work table. */
static void figures(size_t runs)
{
    for (size_t run = 0; run < runs; run++) {
        memcpy(texts + run * readings_len, readings, readings_len);
        lengths[run] = readings_len;
    }
    number = mikhakun_figures((uint8_t *)sheet, strlen(sheet), texts, runs * readings_len, lengths, runs, table, words, &record, 1, &place);
}
static void figures_of_one(void) { figures(1); }
static void figures_of_several(void) { figures(SEVERAL); }
static void print_rule(void) { number = mikhakun_print_rule((uint8_t *)sheet, strlen(sheet), 0, out, sizeof out, &length, &place); }

/* The table that is written has the signal true at every even tick and false at every odd one: so its dump is as long as one can be, and nothing clashes. */
static void write_dump(void)
{
    size_t row_words = mikhakun_window((uint8_t *)sheet) / 64;
    memset(signs, 0x55, row_words * sizeof *signs);
    memset(signs + row_words, 0xAA, row_words * sizeof *signs);
    number = mikhakun_write_dump((uint8_t *)sheet, strlen(sheet), signs, words, dump, sizeof dump, &dump_len, &place);
}
static void read_dump(void) { number = mikhakun_read_dump((uint8_t *)sheet, strlen(sheet), dump, dump_len, said, sizeof said, &length, &place); }
static void caption(void) { number = mikhakun_caption((uint8_t *)sheet, strlen(sheet), (const uint8_t *)CAPTION, strlen(CAPTION), 0, &in_captions, &start, &length, &place); }

static struct { const char *name; void (*call)(void); size_t most; int window; char rule[LONGEST_RULE + 1]; } calls[] = {
    {.name = "check", .call = check}, {.name = "add", .call = add}, {.name = "ask", .call = ask},
    {.name = "to_spans", .call = to_spans}, {.name = "to_readings", .call = to_readings},
    {.name = "figures of a text", .call = figures_of_one}, {.name = "figures of several texts", .call = figures_of_several},
    {.name = "print_rule", .call = print_rule}, {.name = "write_dump", .call = write_dump}, {.name = "read_dump", .call = read_dump},
    {.name = "caption", .call = caption},
};

/* How many bytes a call takes of the stack, which is painted before it: from the top down to the last byte whose paint is gone. Paints it again. */
static size_t taken_by(void (*call)(void))
{
    if (getcontext(&inside) != 0) abort();
    inside.uc_stack.ss_sp = stack;
    inside.uc_stack.ss_size = sizeof stack;
    inside.uc_link = &outside;
    makecontext(&inside, call, 0);
    if (swapcontext(&outside, &inside) != 0) abort();
    size_t low = 0;
    while (low < sizeof stack && stack[low] == PAINT) low++;
    memset(stack + low, PAINT, sizeof stack - low);
    return sizeof stack - low;
}

/* Writes the core inside `depth` outer nests, and inside these as many inner ones, with as much of the fill, as a rule has room for.
 * False if it has none for the outer ones. */
static int deep_rule(char *rule, size_t outer, size_t depth, size_t inner, size_t end)
{
    size_t nests = 0, closing = 0, core = strlen(ENDS[end].core);
    char *at = rule;
    size_t order[MOST_OPEN];
    while (nests < MOST_OPEN) {
        size_t nest = nests < depth ? outer : inner;
        size_t open = strlen(NESTS[nest].open), close = strlen(NESTS[nest].close);
        if ((size_t)(at - rule) + open + core + closing + close > LONGEST_RULE) break;
        at = stpcpy(at, NESTS[nest].open);
        closing += close;
        order[nests++] = nest;
    }
    if (nests < depth) return 0;
    at = stpcpy(at, ENDS[end].core);
    while ((size_t)(at - rule) + strlen(ENDS[end].fill) + closing <= LONGEST_RULE) at = stpcpy(at, ENDS[end].fill);
    while (nests > 0) at = stpcpy(at, NESTS[order[--nests]].close);
    return 1;
}

static void short_text(void) { readings_len = strlen(strcpy(readings, EQUAL_SPANS)); }

/* A text as long as a text can be, from the last tick of the widest window down: spans of two ticks, or single readings. */
static void longest_text(int spans)
{
    readings_len = 0;
    for (int tick = WIDEST - 2; readings_len + LONGEST_ENTRY <= LONGEST_TEXT; tick--) {
        char *at = readings + readings_len;
        if (spans) readings_len += (size_t)sprintf(at, "from=%d\nto=%d\nsignal=a\nvalue=1\n", tick, tick + 1);
        else readings_len += (size_t)sprintf(at, "at=%d\nsignal=a\nvalue=1\n", tick);
    }
}

/* Makes each call on the sheet of this rule over this window, which is accepted, but for its size. The table is empty before and after. */
static void try_rule(const char *rule, int window)
{
    sprintf(sheet, "window=%d\nsignals=1\nsignal=a\nrules=1\nrule=%s\n", window, rule);
    rows = 0;
    for (size_t i = 0; i < COUNT(calls); i++) {
        size_t taken = taken_by(calls[i].call);
        words = mikhakun_words(rows, (uint64_t)window);
        if (number != 0 && number != MIKHAKUN_TOO_LARGE && number != MIKHAKUN_TOO_DEEP) {
            printf("%s of %s: refusal %llu\n0 passed, 1 failed\n", calls[i].name, rule, (unsigned long long)number);
            exit(1);
        }
        if (taken <= calls[i].most) continue;
        calls[i].most = taken;
        calls[i].window = window;
        strcpy(calls[i].rule, rule);
    }
    memset(table, 0, words * sizeof *table);
}

/* The rules that took most, and the one of the most rows, over the widest window. */
static void try_widest(void)
{
    char rule[LONGEST_RULE + 1];
    for (size_t i = 0; i < COUNT(calls); i++) try_rule(strcpy(rule, calls[i].rule), WIDEST);
    try_rule(MANY_ROWS, WIDEST);
}

int main(void)
{
    char rule[LONGEST_RULE + 1];
    memset(stack, PAINT, sizeof stack);
    short_text();
    for (size_t outer = 1; outer < COUNT(NESTS); outer++)
        for (size_t inner = 0; inner < COUNT(NESTS); inner++)
            for (size_t depth = 0; depth <= MOST_OPEN; depth++)
                for (size_t end = 0; end < COUNT(ENDS); end++)
                    if (deep_rule(rule, outer, depth, inner, end)) try_rule(rule, NARROW);
    for (int spans = 0; spans < 2; spans++) {
        longest_text(spans);
        try_widest();
    }
    int failed = rows != MOST_ROWS;
    for (size_t i = 0; i < COUNT(calls); i++) {
        printf("%s took %zu bytes of stack at most, with window=%d and the rule %s\n", calls[i].name, calls[i].most, calls[i].window, calls[i].rule);
        failed += calls[i].most > ASKED;
    }
    printf("%d passed, %d failed\n", (int)COUNT(calls) + 1 - failed, failed);
    return failed != 0;
}
