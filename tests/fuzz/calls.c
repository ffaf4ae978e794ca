/* One input of the fuzzer: a sheet, readings, a lent table and a question. It makes the calls and sees that each keeps what include/mikhakun.h
 * promises: what it may answer, what it writes and what it leaves. The first breach is told in a line and ends the program. What the moves must write is
 * made from what the readings add to a table without rules. The figures are those of the readings, of no text, and of the readings cut in two and whole; what
 * they must be is counted after adds of each text to an empty table. A rule's printed text must stay the same when it is printed again, be another rule or none
 * without a pair of its parentheses, and, alone in the sheet, make the same of a table as the rule that was written. A table's dump is made here too, and so are
 * the readings that it must be read back to; the readings are also read as a dump, and what an accepted one says must come back by way of a table. They are read
 * as captions too, and captions are made for some of the signals; which part of which text is then shown of a signal, or why none is, is found here as well.
 *
 * The input is the sheet's bytes, a zero byte, the readings' bytes, a zero byte, and then, each a byte: the signal asked for, which is shown and is the number of
 * a rule to be printed too, the tick in its word, that word, by how many words the table is too long, and three for each mark of the table that is lent: its word
 * (two bytes) and its tick there. What is missing counts as 0. The longest tables take milliseconds to close, so an input in 32 is lent one, by its length; of the
 * others such a sheet is only checked, the readings moved, rules printed and signals shown.
 *
 * The library is machine code that no sanitizer has prepared. So each text, table and buffer ends or begins where memory that nobody may touch begins
 * or ends, and the calls run above such memory too, on a stack of the 72 KB that a call may take and 2 for what makes it: a step too far in any of them is a crash. */
#define _GNU_SOURCE
#include <stdio.h>
#include <stdlib.h>
#include <string.h>
#include <sys/mman.h>
#include <ucontext.h>

#include "../../include/mikhakun.h"

enum { PAGE = 4096, LONGEST_INPUT = 1 << 17, OFTEN_LENT = 2 * 1024 * 8, MOST_WORDS = 2 * 1024 * 64 + 255, STACK = (72 + 2) * 1024,
       LONGEST_TEXT = 32768, LONGEST_ENTRY = 64, MOST_ROOM = LONGEST_TEXT + LONGEST_ENTRY, MOST_SIGNALS = 64, MOST_SAID = 2 * MOST_SIGNALS * 64,
       MOST_TEXTS = 64, OFTEN_RUN = 1024, MOST_RULES = 64, LONGEST_RULE = MIKHAKUN_RULE_BYTES, OFTEN_DUMPED = 4096, MOST_DUMP = 900000, MOST_DUMPED = 10600000,
       LONGEST_CAPTION = MIKHAKUN_CAPTION_BYTES, LONGEST_LINE = 16 + 1 + LONGEST_CAPTION + 1, MOST_CAPTIONS = (MOST_SIGNALS + 1) * LONGEST_LINE };
static const uint64_t UNWRITTEN = 0x5EC02D5EC02D5EC0;

/* What the fuzzer is told beside the blocks of code that were reached: which answers were given, and how large the results were. */
enum { CHECK = 0, ADD = 30, ASK = 60, TO_SPANS = 90, TO_READINGS = 120, FIGURES = 150, PRINT_RULE = 180, ROWS = 210, FRESH = 240, VALUE = 270, WRITTEN = 300,
       PRINTED = 340, WRITE_DUMP = 360, READ_DUMP = 390, DUMPED = 420, UNDUMPED = 440, CAPTION = 460, SHOWN = 490, KINDS = 510 };
static uint8_t told[KINDS] __attribute__((section("__libfuzzer_extra_counters")));

/* How many inputs there were, and in how many of them the sheet was accepted, the add, an add to a table of several words a row and value, the readings
 * (whatever the table), readings that were spans, figures of several texts, and figures of which some runs clashed and others did not. How many rules were
 * printed, of these not as they were written, and how many had a text over its limit. How many tables were written as dumps, how many clashed, and how many dumps
 * of the input were read, of these not as a table would be written. How many texts of captions were accepted, of these of the input and not empty, and how many
 * were refused; and how often a signal was shown by its caption, and by its name. */
static uint64_t inputs, sheets, adds, wide_adds, texts, span_texts, counted, part_clashed, printed, changed, too_long, dumps, clashing, dumps_read, other_dumps;
static uint64_t captioned, own_captions, not_captioned, by_caption, by_name;

void tell_counts(FILE *to)
{
    fprintf(to, "inputs: %lu, with an accepted sheet: %lu, with an accepted add: %lu, of these over 64 ticks: %lu\n", inputs, sheets, adds, wide_adds);
    fprintf(to, "with accepted readings, moved both ways: %lu, of these spans: %lu\n", texts, span_texts);
    fprintf(to, "with accepted figures of several texts: %lu, of these with some clashing: %lu\n", counted, part_clashed);
    fprintf(to, "rules printed: %lu, of these not as written: %lu; over 256 bytes: %lu\n", printed, changed, too_long);
    fprintf(to, "tables written as dumps: %lu, and refused for a clash: %lu; dumps read: %lu, of these not as written: %lu\n", dumps, clashing, dumps_read, other_dumps);
    fprintf(to, "captions accepted: %lu, of these of the input and not empty: %lu; refused: %lu\n", captioned, own_captions, not_captioned);
    fprintf(to, "signals shown by their captions: %lu, by their names: %lu\n", by_caption, by_name);
}

static void must_hold(int holds, const char *what)
{
    if (holds) return;
    fprintf(stderr, "breach: %s\n", what);
    abort();
}
#define MUST(claim) must_hold((claim), #claim)

/* Memory between two pages that nobody may touch. */
typedef struct { uint8_t *start, *end; } Area;

static Area area(size_t bytes)
{
    size_t inside = (bytes + PAGE - 1) / PAGE * PAGE;
    uint8_t *all = mmap(NULL, inside + 2 * PAGE, PROT_NONE, MAP_PRIVATE | MAP_ANONYMOUS, -1, 0);
    if (all == MAP_FAILED || mprotect(all + PAGE, inside, PROT_READ | PROT_WRITE) != 0) exit(2);
    return (Area){ all + PAGE, all + PAGE + inside };
}

/* A copy that touches the page after the area, or with `low` the page before it. */
static void *lend(Area area, const void *from, size_t bytes, int low)
{
    void *at = low ? area.start : area.end - bytes;
    if (bytes != 0) memcpy(at, from, bytes);
    return at;
}

static Area sheet_area, readings_area, moved_area, rule_area, out_area, table_area, texts_area, lengths_area, records_area, dump_area, captions_area, stack_area;

/* The input, taken apart. */
typedef struct { const uint8_t *start; size_t len; } Text;
static Text sheet, readings, rest;
static int low, any_length, cut_anywhere, many_texts;
static size_t some_room;
static const uint8_t *lent_sheet, *lent_readings;

/* The bytes before the next zero byte, which are taken from `from`. */
static Text part(Text *from)
{
    const uint8_t *zero = from->len == 0 ? NULL : memchr(from->start, 0, from->len);
    Text before = { from->start, zero == NULL ? from->len : (size_t)(zero - from->start) };
    size_t used = before.len + (zero != NULL);
    *from = (Text){ from->start + used, from->len - used };
    return before;
}

/* A number of the rest, up to 127; from 128 on a power of two. */
static uint64_t number_at(size_t place)
{
    uint8_t byte = place < rest.len ? rest.start[place] : 0;
    return byte < 128 ? byte : (uint64_t)1 << (byte & 63);
}

/* How many bits a number has: its size, for what the fuzzer is told. */
static int bits(uint64_t number)
{
    int count = 0;
    for (; number != 0 && count < 19; number /= 2) count++;
    return count;
}

/* The table, and a copy of what it held before a call. */
static uint64_t before[MOST_WORDS], *table;
static size_t words;

/* An accepted sheet: how many signals it has, their names, their numbers in the order of a listing, its window, how many words a row has there for each value,
 * and its rules. */
static uint64_t signals, window, row_words, order[MOST_SIGNALS], rule_count;
static Text names[MOST_SIGNALS], rules[MOST_RULES];

/* The readings texts of figures: one behind the other, and their lengths. */
static struct { uint8_t bytes[2 * LONGEST_INPUT]; uint64_t lengths[MOST_TEXTS + 1]; size_t len, runs; } joined;

static int table_kept(void) { return memcmp(before, table, 8 * words) == 0; }

/* The dump that is read. */
static Text dump;

/* Where a refusal of a dump may be placed: at a line or the text's end; after the key of a signal's line; after the sign of a time. */
static int place_in_dump(uint64_t number, uint64_t place)
{
    if (number == 22) return place <= dump.len && (place == 0 || dump.start[place - 1] == '\n');
    if (place >= dump.len) return 0;
    return number == 13 ? place > 0 && dump.start[place - 1] == '#' : place >= 14 && memcmp(dump.start + place - 14, "$var wire 1 ", 12) == 0;
}

/* The captions that are read, which are refused at a line. */
static Text captions;

static int place_in_captions(uint64_t place) { return place < captions.len && (place == 0 || captions.start[place - 1] == '\n'); }

/* Where a refusal may be placed: in the sheet, in the readings or the joined texts, or at 0. A missing line is at the text's end. */
static int place_allowed(int call, uint64_t number, uint64_t place)
{
    size_t length = call == FIGURES ? joined.len : readings.len;
    if (call == READ_DUMP && (number == 12 || number == 13 || number == 22)) return place_in_dump(number, place);
    if (call == CAPTION && (number == 12 || number == 24)) return place_in_captions(place);
    if (number == 2) return place <= sheet.len;
    if (number >= 3 && number <= 8) return place < sheet.len;
    if (number == 11) return place <= length;
    if ((number >= 12 && number <= 14) || number == 21 || (number == 10 && call == FIGURES)) return place < length;
    return place == 0;
}

/* Which numbers a call may answer. */
static int number_allowed(int call, uint64_t number)
{
    int of_readings = (number >= 10 && number <= 14) || number == 21, of_table = number == 15 || number == 16;
    if (number <= 9) return 1;
    if (call == ADD) return of_readings || of_table;
    if (call == ASK) return of_table || number == 17;
    if (call == FIGURES) return of_readings || number == 15 || number == 18 || number == 19;
    if (call == PRINT_RULE) return number == 17 || number == 20;
    if (call == WRITE_DUMP) return of_table || number == 20 || number == 23;
    if (call == READ_DUMP) return number == 12 || number == 13 || number == 20 || number == 22;
    if (call == CAPTION) return number == 12 || number == 17 || number == 24;
    return (call == TO_SPANS || call == TO_READINGS) && (of_readings || number == 20);
}

/* A call's answer: the number, and the place of a refusal. */
typedef struct { uint64_t number, place, value, clash; } Answer;

/* What holds after every call: results are written exactly at acceptance, the place exactly at a refusal, and the texts stay. */
static void must_be_whole(int call, Answer a)
{
    MUST(number_allowed(call, a.number));
    told[call + a.number] = 1;
    MUST((a.number == 0) == (a.value != UNWRITTEN));
    MUST(a.number == 0 ? a.place == UNWRITTEN : place_allowed(call, a.number, a.place));
    MUST(memcmp(lent_sheet, sheet.start, sheet.len) == 0);
    MUST(memcmp(lent_readings, readings.start, readings.len) == 0);
}

static Answer check(void)
{
    Answer a = { 0, UNWRITTEN, UNWRITTEN, 0 };
    a.number = mikhakun_check(lent_sheet, sheet.len, &a.value, &a.place);
    must_be_whole(CHECK, a);
    return a;
}

static Answer add(const uint8_t *text, size_t len)
{
    Answer a = { 0, UNWRITTEN, UNWRITTEN, UNWRITTEN };
    memcpy(before, table, 8 * words);
    a.number = mikhakun_add(lent_sheet, sheet.len, text, len, table, words, &a.value, &a.clash, &a.place);
    must_be_whole(ADD, a);
    MUST((a.number == 0) == (a.clash != UNWRITTEN));
    MUST(a.number == 0 || table_kept());
    return a;
}

static Answer ask(uint64_t signal, uint64_t tick)
{
    Answer a = { 0, UNWRITTEN, UNWRITTEN, 0 };
    memcpy(before, table, 8 * words);
    a.number = mikhakun_ask(lent_sheet, sheet.len, table, words, signal, tick, &a.value, &a.place);
    must_be_whole(ASK, a);
    MUST(table_kept());
    return a;
}

/* What the lent list of records holds before a call, and that list. */
static mikhakun_record no_records[MOST_SIGNALS + 1], *records;

/* The figures of the joined texts, in a list of so many records. */
static Answer figures(size_t record_count)
{
    Answer a = { 0, UNWRITTEN, UNWRITTEN, 0 };
    const uint8_t *lent_texts = lend(texts_area, joined.bytes, joined.len, low);
    const uint64_t *lent_lengths = lend(lengths_area, joined.lengths, 8 * joined.runs, low);
    size_t bytes = record_count * sizeof *records;
    records = lend(records_area, no_records, bytes, low);
    memcpy(before, table, 8 * words);
    a.number = mikhakun_figures(lent_sheet, sheet.len, lent_texts, joined.len, lent_lengths, joined.runs, table, words, records, record_count, &a.place);
    if (record_count != 0) a.value = records[record_count - 1].signal;
    must_be_whole(FIGURES, a);
    MUST(a.number == 0 || (table_kept() && memcmp(records, no_records, bytes) == 0));
    MUST(memcmp(lent_texts, joined.bytes, joined.len) == 0);
    MUST(memcmp(lent_lengths, joined.lengths, 8 * joined.runs) == 0);
    return a;
}

/* The forms of readings, each with the move to it. */
enum { SPANS, SINGLE, FORMS };
typedef uint64_t Move(const uint8_t *, size_t, const uint8_t *, size_t, uint8_t *, size_t, uint64_t *, uint64_t *);
static Move *const to_form[FORMS] = { mikhakun_to_spans, mikhakun_to_readings };

static int form_of_readings(void) { return readings.len > 0 && readings.start[0] == 'f' ? SPANS : SINGLE; }

/* What the lent buffer holds before a call: bytes that no text has. */
static uint8_t unwritten[MOST_DUMPED], *out;

/* A call writes the text, whose length it answers, and nothing else. */
static void must_write_alone(Answer a, size_t room, size_t longest)
{
    size_t written = a.number == 0 ? a.value : 0;
    MUST(written <= room && written <= longest);
    MUST(memcmp(out + written, unwritten, room - written) == 0);
}

/* A move of a text into a buffer of so many bytes. */
static Answer move(int form, Text text, size_t room)
{
    Answer a = { 0, UNWRITTEN, UNWRITTEN, 0 };
    out = lend(out_area, unwritten, room, low);
    a.number = to_form[form](lent_sheet, sheet.len, text.start, text.len, out, room, &a.value, &a.place);
    must_be_whole(form == SPANS ? TO_SPANS : TO_READINGS, a);
    must_write_alone(a, room, LONGEST_TEXT);
    return a;
}

/* A rule printed into a buffer of so many bytes. */
static Answer print_rule(uint64_t rule, size_t room)
{
    Answer a = { 0, UNWRITTEN, UNWRITTEN, 0 };
    out = lend(out_area, unwritten, room, low);
    a.number = mikhakun_print_rule(lent_sheet, sheet.len, rule, out, room, &a.value, &a.place);
    must_be_whole(PRINT_RULE, a);
    must_write_alone(a, room, LONGEST_RULE);
    return a;
}

/* The table as a dump, in a buffer of so many bytes. */
static Answer write_dump(size_t room)
{
    Answer a = { 0, UNWRITTEN, UNWRITTEN, 0 };
    out = lend(out_area, unwritten, room, low);
    memcpy(before, table, 8 * words);
    a.number = mikhakun_write_dump(lent_sheet, sheet.len, table, words, out, room, &a.value, &a.place);
    must_be_whole(WRITE_DUMP, a);
    must_write_alone(a, room, MOST_DUMP);
    MUST(table_kept());
    return a;
}

/* A dump read into a buffer of so many bytes. */
static Answer read_dump(Text text, size_t room)
{
    Answer a = { 0, UNWRITTEN, UNWRITTEN, 0 };
    const uint8_t *lent = lend(dump_area, text.start, text.len, low);
    out = lend(out_area, unwritten, room, low);
    dump = text;
    a.number = mikhakun_read_dump(lent_sheet, sheet.len, lent, text.len, out, room, &a.value, &a.place);
    must_be_whole(READ_DUMP, a);
    must_write_alone(a, room, MOST_DUMPED);
    MUST(memcmp(lent, text.start, text.len) == 0);
    return a;
}

/* A part of the captions or of the sheet, and the one that is shown. */
typedef struct { uint64_t in_captions, start, length; } Part;
static Part shown;

/* What is shown of a signal: all three numbers are written, or none. */
static Answer caption(uint64_t signal)
{
    Answer a = { 0, UNWRITTEN, UNWRITTEN, 0 };
    const uint8_t *lent = lend(captions_area, captions.start, captions.len, low);
    shown = (Part){ UNWRITTEN, UNWRITTEN, UNWRITTEN };
    a.number = mikhakun_caption(lent_sheet, sheet.len, lent, captions.len, signal, &shown.in_captions, &shown.start, &shown.length, &a.place);
    a.value = shown.start;
    must_be_whole(CAPTION, a);
    MUST((a.number == 0) == (shown.in_captions != UNWRITTEN) && (a.number == 0) == (shown.length != UNWRITTEN));
    MUST(captions.len == 0 || memcmp(lent, captions.start, captions.len) == 0);
    return a;
}

/* Both moves of the readings are refused so. */
static void must_not_move(uint64_t number, uint64_t place)
{
    for (int form = 0; form < FORMS; form++) {
        Answer a = move(form, (Text){ lent_readings, readings.len }, some_room);
        MUST(a.number == number && a.place == place);
    }
}

/* The lent table: so many words, with the marks that the rest names. */
static void lend_table(size_t length)
{
    words = length;
    memset(before, 0, 8 * words);
    for (size_t at = 4; words != 0 && at + 2 < rest.len; at += 3)
        before[(rest.start[at] + 256u * rest.start[at + 1]) % words] |= (uint64_t)1 << (rest.start[at + 2] & 63);
    table = lend(table_area, before, 8 * words, low);
}

/* Is a row both true and false at one tick? Its false words stand after its true ones. */
static int clashes(void)
{
    for (size_t row = 0; row < words; row += 2 * row_words)
        for (size_t at = row; at < row + row_words; at++)
            if (table[at] & table[at + row_words]) return 1;
    return 0;
}

static uint64_t marks(const uint64_t *from, size_t count)
{
    uint64_t sum = 0;
    for (size_t at = 0; at < count; at++) sum += (uint64_t)__builtin_popcountll(from[at]);
    return sum;
}

/* Is there a mark past the window, in the last of a row's words for a value? */
static int marked_outside(void)
{
    uint64_t outside = window % 64 == 0 ? 0 : ~(uint64_t)0 << window % 64;
    for (size_t last = row_words - 1; last < words; last += row_words)
        if (table[last] & outside) return 1;
    return 0;
}

static uint64_t signal_asked(void) { return number_at(0); }
static uint64_t tick_asked(void) { return number_at(1) + 64 * number_at(2); }

/* A refused sheet, or a table of a wrong length: add, ask and write_dump give that refusal. */
static void must_be_refused(uint64_t number, uint64_t place)
{
    Answer added = add(lent_readings, readings.len), asked = ask(signal_asked(), tick_asked()), written = write_dump(some_room);
    MUST(added.number == number && added.place == place);
    MUST(asked.number == number && asked.place == place);
    MUST(written.number == number && written.place == place);
}

/* Ask tells what the table's words say. */
static void must_be_told(void)
{
    uint64_t signal = signal_asked(), tick = tick_asked();
    Answer a = ask(signal, tick);
    if (signal >= signals || tick >= window) {
        MUST(a.number == 17);
        return;
    }
    const uint64_t *word = table + 2 * signal * row_words + tick / 64;
    int holds = word[0] >> tick % 64 & 1, fails = word[row_words] >> tick % 64 & 1;
    MUST(a.number == 0);
    MUST(a.value == (uint64_t)(clashes() ? MIKHAKUN_CONTRADICTION : holds ? MIKHAKUN_TRUE : fails ? MIKHAKUN_FALSE : MIKHAKUN_UNSETTLED));
    told[VALUE + a.value] = 1;
}

/* Closed with the same readings, or with none, a closed table stays. */
static void must_stay(const uint8_t *text, size_t len, uint64_t clash)
{
    Answer a = add(text, len);
    MUST(a.number == 0 && a.value == 0 && a.clash == clash);
    MUST(table_kept());
}

/* An accepted add: nothing is taken away or put outside the window, and the answers are those that the words give. */
static void must_be_closed(Answer added)
{
    for (size_t at = 0; at < words; at++) MUST((before[at] & ~table[at]) == 0);
    MUST(!marked_outside());
    MUST(added.value == marks(table, 2 * signals * row_words) - marks(before, 2 * signals * row_words));
    MUST(added.clash == (uint64_t)clashes());
    told[FRESH + bits(added.value)] = 1;
    must_stay(lent_readings, readings.len, added.clash);
    must_stay(lend(readings_area, NULL, 0, low), 0, added.clash);
}

/* The numbers in an accepted sheet. */
static void read_numbers(void)
{
    char *next;
    window = strtoul((const char *)sheet.start + strlen("window="), &next, 10);
    signals = strtoul(next + strlen("\nsignals="), NULL, 10);
    MUST(signals >= 1 && signals <= MOST_SIGNALS);
    row_words = window / 64 + (window % 64 != 0);
    MUST(window >= 1 && window <= 4096);
    MUST(mikhakun_window(lent_sheet) == window && mikhakun_signals(lent_sheet) == signals);
}

/* How many bytes of a name stand before the digits at its end. */
static size_t stem(Text name)
{
    size_t bytes = name.len;
    while (bytes > 0 && name.start[bytes - 1] >= '0' && name.start[bytes - 1] <= '9') bytes--;
    return bytes;
}

/* Whether the digits at the end of a name are none, 0 alone, or a number up to 9,999 without a leading zero. */
static int end_number_allowed(Text name)
{
    size_t digits = name.len - stem(name);
    return digits <= 1 || (digits <= 4 && name.start[stem(name)] != '0');
}

/* The order of two signals in a listing: by the bytes before the digits, then by these as a number, which is the smaller the fewer they are. */
static int in_order(const void *one, const void *other)
{
    Text a = names[*(const uint64_t *)one], b = names[*(const uint64_t *)other];
    size_t stem_a = stem(a), stem_b = stem(b);
    int bytes = memcmp(a.start, b.start, stem_a < stem_b ? stem_a : stem_b);
    if (bytes != 0) return bytes;
    if (stem_a != stem_b) return stem_a < stem_b ? -1 : 1;
    if (a.len != b.len) return a.len < b.len ? -1 : 1;
    return memcmp(a.start, b.start, a.len);
}

/* Takes the names that an accepted sheet declares. Its lines end in LF, and its names in such digits. */
static void read_names(void)
{
    static const char key[] = "signal=";
    const uint8_t *line = sheet.start, *end = line + sheet.len;
    size_t count = 0;
    while (line < end) {
        const uint8_t *lf = memchr(line, '\n', (size_t)(end - line)), *name = line + strlen(key);
        MUST(lf != NULL);
        if ((size_t)(lf - line) >= strlen(key) && memcmp(line, key, strlen(key)) == 0) {
            MUST(count < signals);
            names[count] = (Text){ name, (size_t)(lf - name) };
            MUST(end_number_allowed(names[count]));
            order[count] = count;
            count++;
        }
        line = lf + 1;
    }
    MUST(count == signals);
    qsort(order, signals, sizeof *order, in_order);
}

/* The number of the signal with this name, or how many signals there are. */
static uint64_t number_of(Text name)
{
    uint64_t signal = 0;
    while (signal < signals && (names[signal].len != name.len || memcmp(names[signal].start, name.start, name.len) != 0)) signal++;
    return signal;
}

/* How many bytes of an accepted sheet stand before its line `rules=`. */
static size_t head_length(void) { return (size_t)(names[signals - 1].start - sheet.start) + names[signals - 1].len + 1; }

/* Takes the rules of an accepted sheet, which are its last lines. */
static void read_rules(void)
{
    const uint8_t *line = sheet.start + head_length(), *end = sheet.start + sheet.len;
    rule_count = strtoul((const char *)line + strlen("rules="), NULL, 10);
    MUST(rule_count <= MOST_RULES);
    for (size_t at = 0; at < rule_count; at++) {
        const uint8_t *before = memchr(line, '\n', (size_t)(end - line)), *rule = before + 1 + strlen("rule=");
        line = memchr(rule, '\n', (size_t)(end - rule));
        rules[at] = (Text){ rule, (size_t)(line - rule) };
    }
}

/* Adds a text to the empty table of the sheet without its rules: that has then the marks that the text says, and no others. */
static Answer say(Text text, uint64_t *marks)
{
    static const char no_rules[] = "rules=0\n";
    static uint8_t bare[LONGEST_TEXT];
    Answer a = { 0, UNWRITTEN, UNWRITTEN, UNWRITTEN };
    size_t head = head_length(), length = 2 * signals * row_words;
    memcpy(bare, sheet.start, head);
    memcpy(bare + head, no_rules, strlen(no_rules));
    memset(marks, 0, 8 * length);
    a.number = mikhakun_add(bare, head + strlen(no_rules), text.start, text.len, marks, length, &a.value, &a.clash, &a.place);
    must_be_whole(ADD, a);
    MUST(a.number == 0 || (a.number >= 10 && a.number != 15 && a.number != 16));
    return a;
}

/* What the readings say, and what each move must write of that: a text, or one over LONGEST_TEXT, cut somewhere after that. */
static uint64_t said[MOST_SAID];
static struct { char text[MOST_ROOM]; size_t len; } wanted[FORMS];

/* The first tick from `tick` on that has a mark, or has none; the window's end, if there is none. */
static uint64_t next_tick(const uint64_t *row, uint64_t tick, int has_mark)
{
    while (tick < window && (int)(row[tick / 64] >> tick % 64 & 1) != has_mark) tick++;
    return tick;
}

/* Writes an entry: a span, or a reading of its first tick. */
static void want_entry(int form, uint64_t first, uint64_t last, Text name, int value)
{
    char *at = wanted[form].text + wanted[form].len;
    int length = form == SPANS
        ? sprintf(at, "from=%lu\nto=%lu\nsignal=%.*s\nvalue=%d\n", first, last, (int)name.len, (const char *)name.start, value)
        : sprintf(at, "at=%lu\nsignal=%.*s\nvalue=%d\n", first, (int)name.len, (const char *)name.start, value);
    wanted[form].len += (size_t)length;
}

/* Writes what the marks of a row say: by its longest spans, or by its ticks. */
static void want_row(int form, const uint64_t *row, Text name, int value)
{
    uint64_t after;
    for (uint64_t first = next_tick(row, 0, 1); first < window && wanted[form].len <= LONGEST_TEXT; first = next_tick(row, after, 1)) {
        after = form == SPANS ? next_tick(row, first, 0) : first + 1;
        want_entry(form, first, after - 1, name, value);
    }
}

/* By signal, then value with 0 first. The words of truth stand before those of falsehood. */
static void want(int form)
{
    wanted[form].len = 0;
    for (uint64_t signal = 0; signal < signals; signal++)
        for (int value = 0; value < 2; value++)
            want_row(form, said + (2 * signal + (value == 0)) * row_words, names[signal], value);
    told[WRITTEN + 20 * form + bits(wanted[form].len)] = 1;
}

/* The move writes what is wanted where it has room for it, or is refused by 20. */
static void must_move(int form, Text text)
{
    size_t length = wanted[form].len;
    if (length > LONGEST_TEXT) {
        MUST(move(form, text, MOST_ROOM).number == 20);
        return;
    }
    Answer a = move(form, text, length + some_room);
    MUST(a.number == 0 && a.value == length && memcmp(out, wanted[form].text, length) == 0);
    MUST(length == 0 || move(form, text, length - 1).number == 20);
}

/* A written text says the same, moved again it is the same, and moved on it is what the readings are in that form. */
static void must_come_back(int form)
{
    static uint64_t said_again[MOST_SAID];
    Text written = { lend(moved_area, wanted[form].text, wanted[form].len, low), wanted[form].len };
    MUST(say(written, said_again).number == 0);
    MUST(memcmp(said_again, said, 8 * 2 * signals * row_words) == 0);
    for (int to = 0; to < FORMS; to++) must_move(to, written);
    MUST(memcmp(written.start, wanted[form].text, written.len) == 0);
}

/* The moves of readings, for an accepted sheet: what add refuses of them is refused. What is of a form already gets no longer. */
static Answer must_be_moved(void)
{
    Text given = { lent_readings, readings.len };
    Answer a = say(given, said);
    if (a.number != 0) {
        must_not_move(a.number, a.place);
        return a;
    }
    int form = form_of_readings();
    texts++;
    span_texts += form == SPANS;
    for (int to = 0; to < FORMS; to++) want(to);
    MUST(wanted[form].len <= readings.len);
    for (int to = 0; to < FORMS; to++) must_move(to, given);
    for (int from = 0; from < FORMS; from++)
        if (wanted[from].len <= LONGEST_TEXT) must_come_back(from);
    return a;
}

/* The sheet with a rule of its own in the place of its rules, lent. */
static Text sheet_of(Text rule)
{
    static const char one[] = "rules=1\nrule=";
    static uint8_t bytes[LONGEST_TEXT + LONGEST_RULE];
    size_t head = head_length(), start = head + strlen(one), length = start + rule.len + 1;
    memcpy(bytes, sheet.start, head);
    memcpy(bytes + head, one, strlen(one));
    memcpy(bytes + start, rule.start, rule.len);
    bytes[length - 1] = '\n';
    return (Text){ lend(rule_area, bytes, length, low), length };
}

/* Is a rule printed as this text, in a sheet of its own? */
static int printed_as(Text rule, Text text)
{
    Text alone = sheet_of(rule);
    uint64_t length, place;
    out = lend(out_area, unwritten, LONGEST_RULE, low);
    return mikhakun_print_rule(alone.start, alone.len, 0, out, LONGEST_RULE, &length, &place) == 0 && length == text.len && memcmp(out, text.start, length) == 0;
}

/* The text without the pair of parentheses that opens at a byte. */
static Text without_pair(Text text, size_t open)
{
    static uint8_t bytes[LONGEST_RULE];
    size_t length = 0, inside = 0, close = open;
    do inside += (text.start[close] == '(') - (text.start[close] == ')');
    while (inside > 0 && ++close < text.len);
    for (size_t at = 0; at < text.len; at++)
        if (at != open && at != close) bytes[length++] = text.start[at];
    return (Text){ bytes, length };
}

/* Does a pair of parentheses open at a byte, not that of a since or until? These stand behind a letter. */
static int opens_pair(Text text, size_t at)
{
    return text.start[at] == '(' && (at == 0 || text.start[at - 1] < 'a' || text.start[at - 1] > 'z');
}

/* A printed text has square brackets only. Printed again it is the same, and with a pair of parentheses less it is another rule or none. */
static void must_be_least(Text text)
{
    MUST(printed_as(text, text));
    for (size_t at = 0; at < text.len; at++) {
        MUST((text.start[at] != '@' && text.start[at] != '?') || text.start[at + 1] == '[');
        if (opens_pair(text, at)) MUST(!printed_as(without_pair(text, at), text));
    }
}

/* What a rule alone in the sheet makes of a table, if that is short, in which each row is true at a tick and false at another; and how many rows there are. */
typedef struct { uint64_t rows, table[OFTEN_RUN]; } Closed;

static void close_alone(Text rule, Closed *closed)
{
    Text alone = sheet_of(rule);
    uint64_t fresh, clash, place;
    memset(closed, 0, sizeof *closed);
    MUST(mikhakun_check(alone.start, alone.len, &closed->rows, &place) == 0);
    size_t length = mikhakun_words(closed->rows, window);
    if (length > OFTEN_RUN) return;
    for (uint64_t row = 0; row < closed->rows; row++)
        for (uint64_t falsehood = 0; falsehood < 2; falsehood++) {
            uint64_t tick = (row + falsehood * window / 2) % window;
            closed->table[(2 * row + falsehood) * row_words + tick / 64] |= (uint64_t)1 << tick % 64;
        }
    MUST(mikhakun_add(alone.start, alone.len, lent_readings, 0, closed->table, length, &fresh, &clash, &place) == 0);
}

/* Alone in the sheet, the two rules make the same of the table. A row's marks go to the rows of its parts, so these must be the same. */
static void must_be_the_same(Text one, Text other)
{
    static Closed of_one, of_other;
    close_alone(one, &of_one);
    close_alone(other, &of_other);
    MUST(memcmp(&of_one, &of_other, sizeof of_one) == 0);
}

/* The most bytes that a rule's text may have: one more for each interval. */
static size_t most_printed(Text rule)
{
    size_t most = rule.len;
    for (size_t at = 0; at < rule.len; at++) most += rule.start[at] == '@' || rule.start[at] == '?';
    return most;
}

/* A rule is printed where there is room, as the same rule with nothing needless, or refused by 20 where its text is over the limit. */
static void must_be_printed(uint64_t rule)
{
    static uint8_t bytes[LONGEST_RULE];
    Answer a = print_rule(rule, LONGEST_RULE);
    MUST(a.number == 0 || a.number == 20);
    if (a.number == 20) {
        MUST(most_printed(rules[rule]) > LONGEST_RULE);
        MUST(print_rule(rule, MOST_ROOM).number == 20);
        too_long++;
        return;
    }
    Text text = { bytes, a.value };
    memcpy(bytes, out, text.len);
    MUST(text.len > 0 && text.len <= most_printed(rules[rule]));
    MUST(print_rule(rule, text.len - 1).number == 20);
    MUST(print_rule(rule, text.len + some_room).value == text.len && memcmp(out, bytes, text.len) == 0);
    must_be_least(text);
    must_be_the_same(rules[rule], text);
    printed++;
    changed += text.len != rules[rule].len || memcmp(bytes, rules[rule].start, text.len) != 0;
    told[PRINTED + bits(text.len)] = 1;
}

/* The rule asked for, one chosen by the input's length, and the one after the last, which there is not. */
static void some_must_be_printed(void)
{
    if (signal_asked() < rule_count) must_be_printed(signal_asked());
    else MUST(print_rule(signal_asked(), some_room).number == 17);
    if (rule_count > 0) must_be_printed(some_room % rule_count);
    MUST(print_rule(rule_count, some_room).number == 17);
}

/* A refused sheet: no rule is printed, whatever the number and the room. */
static void must_not_be_printed(uint64_t number, uint64_t place)
{
    Answer a = print_rule(signal_asked(), some_room);
    MUST(a.number == number && a.place == place);
}

/* A dump and the readings that it says, made of a table's words. */
static struct { char dump[MOST_DUMP], readings[MOST_DUMPED]; size_t dump_len, readings_len; } made;

/* The sign of a signal at a tick. */
static char sign_in(const uint64_t *marks, uint64_t signal, uint64_t tick)
{
    const uint64_t *word = marks + 2 * signal * row_words + tick / 64;
    if (word[0] >> tick % 64 & 1) return '1';
    return word[row_words] >> tick % 64 & 1 ? '0' : 'x';
}

/* Makes what a dump has for a tick: the signs that are new there, and a reading for each 0 and 1. */
static void make_tick(const uint64_t *marks, uint64_t tick)
{
    char *at = made.dump + made.dump_len, *line = made.readings + made.readings_len;
    int any = 0;
    for (uint64_t signal = 0; signal < signals; signal++) {
        char sign = sign_in(marks, signal, tick);
        if (sign != 'x') line += sprintf(line, "at=%lu\nsignal=%.*s\nvalue=%c\n", tick, (int)names[signal].len, (const char *)names[signal].start, sign);
        if (tick > 0 && sign == sign_in(marks, signal, tick - 1)) continue;
        if (!any) at += sprintf(at, "#%lu\n", tick);
        any = 1;
        at += sprintf(at, "%c%c\n", sign, (int)(33 + signal));
    }
    made.dump_len = (size_t)(at - made.dump);
    made.readings_len = (size_t)(line - made.readings);
}

/* Makes both of a table of which only the signals' rows count. */
static void make_dump(const uint64_t *marks)
{
    char *at = made.dump + sprintf(made.dump, "$timescale 1 s $end\n$scope module sheet $end\n");
    for (uint64_t signal = 0; signal < signals; signal++)
        at += sprintf(at, "$var wire 1 %c %.*s $end\n", (int)(33 + signal), (int)names[signal].len, (const char *)names[signal].start);
    at += sprintf(at, "$upscope $end\n$enddefinitions $end\n");
    made.dump_len = (size_t)(at - made.dump);
    made.readings_len = 0;
    for (uint64_t tick = 0; tick < window; tick++) make_tick(marks, tick);
    MUST(made.dump_len <= mikhakun_dump_room(signals, window) && made.readings_len <= mikhakun_dump_readings_room(signals, window));
}

/* The dump that was made, with another timescale and z for x, says the same. */
static void other_words_must_be_read(void)
{
    static char other[MOST_DUMP];
    static const char timescale[] = "$timescale 100 fs $end\n";
    size_t first_line = strlen("$timescale 1 s $end\n"), length = strlen(timescale);
    memcpy(other, timescale, length);
    memcpy(other + length, made.dump + first_line, made.dump_len - first_line);
    length += made.dump_len - first_line;
    for (size_t at = 0; at + 2 < length; at++)
        if (other[at] == '\n' && other[at + 1] == 'x') other[at + 1] = 'z';
    Answer a = read_dump((Text){ (const uint8_t *)other, length }, made.readings_len);
    MUST(a.number == 0 && a.value == made.readings_len && memcmp(out, made.readings, made.readings_len) == 0);
}

/* The dump that was made is read to the readings that were made, and to no others. */
static void made_must_be_read(void)
{
    Text text = { (const uint8_t *)made.dump, made.dump_len };
    Answer a = read_dump(text, made.readings_len + some_room);
    MUST(a.number == 0 && a.value == made.readings_len && memcmp(out, made.readings, made.readings_len) == 0);
    MUST(made.readings_len == 0 || read_dump(text, made.readings_len - 1).number == 20);
    other_words_must_be_read();
}

/* After the first time of an accepted dump, times rise inside the window, and signs at one time go up. */
static void must_be_in_order(Text text)
{
    const uint8_t *at = text.start, *end = text.start + text.len;
    uint64_t time = 0, next = 0;
    int started = 0;
    for (; at < end; at = (const uint8_t *)memchr(at, '\n', (size_t)(end - at)) + 1) {
        started |= at[0] == '#';
        if (!started) continue;
        if (at[0] == '#') {
            uint64_t later = strtoul((const char *)at + 1, NULL, 10);
            MUST((at[1] == '0' ? at[2] == '\n' && time == 0 : later > time) && later < window);
            time = later;
            next = 33;
        } else {
            MUST(strchr("01xz", at[0]) != NULL && at[1] >= next && at[1] < 33 + signals && at[2] == '\n');
            next = at[1] + 1u;
        }
    }
}

/* The longest dumps take milliseconds, as the longest tables do. */
static int is_dumped(void) { return signals * window <= OFTEN_DUMPED || any_length; }

/* The table is written as the dump that is made of its words, which is read back; or it clashes. */
static void must_be_dumped(void)
{
    if (clashes()) {
        MUST(write_dump(some_room).number == 23);
        clashing++;
        return;
    }
    if (!is_dumped()) return;
    make_dump(table);
    Answer a = write_dump(made.dump_len + some_room);
    MUST(a.number == 0 && a.value == made.dump_len && memcmp(out, made.dump, made.dump_len) == 0);
    MUST(write_dump(made.dump_len - 1).number == 20);
    made_must_be_read();
    dumps++;
    told[DUMPED + bits(made.dump_len)] = 1;
}

/* The number in a line after its key, if the line is that. Goes past it. */
static int number_in(const char **at, const char *key, uint64_t *number)
{
    char *end;
    if (strncmp(*at, key, strlen(key)) != 0) return 0;
    *number = strtoul(*at + strlen(key), &end, 10);
    *at = end + 1;
    return *end == '\n';
}

/* Takes the marks of readings that read_dump wrote, which come by tick, then signal, each once. */
static void mark_readings(const char *at, const char *end, uint64_t *marks)
{
    uint64_t tick, value, next = 0, signal;
    while (at < end) {
        MUST(number_in(&at, "at=", &tick) && tick < window && strncmp(at, "signal=", 7) == 0);
        const char *name = at + 7, *lf = strchr(name, '\n');
        signal = number_of((Text){ (const uint8_t *)name, (size_t)(lf - name) });
        at = lf + 1;
        MUST(signal < signals && tick * signals + signal >= next && number_in(&at, "value=", &value) && value <= 1);
        next = tick * signals + signal + 1;
        marks[(2 * signal + (value == 0)) * row_words + tick / 64] |= (uint64_t)1 << tick % 64;
    }
    MUST(at == end);
}

/* The readings of the input, read as a dump: if it is one, the readings that it says are those of a table, and of that table's dump. */
static void may_be_a_dump(void)
{
    static uint64_t marks[MOST_SAID];
    static char text[MOST_DUMPED + 1];
    Answer first = read_dump(readings, some_room);
    if (first.number != 0 && first.number != 20) return;
    must_be_in_order(readings);
    if (!is_dumped()) return;
    Answer a = read_dump(readings, mikhakun_dump_readings_room(signals, window));
    MUST(a.number == 0 && (first.number == 20) == (a.value > some_room));
    memcpy(text, out, a.value);
    text[a.value] = '\0';
    MUST(read_dump(readings, a.value).number == 0 && (a.value == 0 || read_dump(readings, a.value - 1).number == 20));
    memset(marks, 0, 8 * 2 * signals * row_words);
    mark_readings(text, text + a.value, marks);
    make_dump(marks);
    MUST(made.readings_len == a.value && memcmp(made.readings, text, a.value) == 0);
    made_must_be_read();
    dumps_read++;
    other_dumps += made.dump_len != readings.len || memcmp(made.dump, readings.start, readings.len) != 0;
    told[UNDUMPED + bits(a.value)] = 1;
}

/* A refused sheet: no dump is read. */
static void must_not_be_read(uint64_t number, uint64_t place)
{
    Answer a = read_dump(readings, some_room);
    MUST(a.number == number && a.place == place);
}

/* What must be shown of each signal: where the captions have its name, that line's caption, else the name. */
static Part parts[MOST_SIGNALS];

static int is_caption(const uint8_t *from, const uint8_t *to)
{
    for (const uint8_t *at = from; at < to; at++)
        if (*at < ' ' || *at > '~') return 0;
    return from < to && to - from <= LONGEST_CAPTION;
}

/* Finds the parts, or how the captions must be refused. */
static Answer want_parts(void)
{
    const uint8_t *line = captions.start, *end = line + captions.len, *lf, *equals;
    for (uint64_t signal = 0; signal < signals; signal++)
        parts[signal] = (Part){ 0, (uint64_t)(names[signal].start - sheet.start), names[signal].len };
    for (; line < end; line = lf + 1) {
        Answer form = { 24, (uint64_t)(line - captions.start), 0, 0 }, name = { 12, form.place, 0, 0 };
        lf = memchr(line, '\n', (size_t)(end - line));
        equals = lf == NULL ? NULL : memchr(line, '=', (size_t)(lf - line));
        if (equals == NULL || !is_caption(equals + 1, lf)) return form;
        uint64_t signal = number_of((Text){ line, (size_t)(equals - line) });
        if (signal == signals) return name;
        if (parts[signal].in_captions) return form;
        parts[signal] = (Part){ 1, (uint64_t)(equals + 1 - captions.start), (uint64_t)(lf - equals - 1) };
    }
    return (Answer){ 0, 0, 0, 0 };
}

/* The signal is shown by its part, which lies inside the text that it names and is not empty. */
static void must_be_shown(uint64_t signal)
{
    MUST(caption(signal).number == 0);
    MUST(memcmp(&shown, &parts[signal], sizeof shown) == 0);
    MUST(shown.length > 0 && shown.start + shown.length <= (shown.in_captions ? captions.len : sheet.len));
    by_caption += shown.in_captions;
    by_name += !shown.in_captions;
    told[SHOWN + 10 * shown.in_captions + (uint64_t)bits(shown.length)] = 1;
}

/* Some signals, or for some inputs all, are shown as is wanted, and none after the last; or the captions are refused as is wanted, whatever the signal. */
static int must_be_captioned(Text text)
{
    captions = text;
    Answer wanted = want_parts();
    if (wanted.number != 0) {
        Answer asked = caption(signal_asked()), none = caption(UINT64_MAX);
        MUST(asked.number == wanted.number && asked.place == wanted.place);
        MUST(none.number == wanted.number && none.place == wanted.place);
        not_captioned++;
        return 0;
    }
    must_be_shown(signal_asked() % signals);
    must_be_shown(some_room % signals);
    for (uint64_t signal = 0; any_length && signal < signals; signal++) must_be_shown(signal);
    MUST(caption(signals).number == 17);
    MUST(signal_asked() < signals || caption(signal_asked()).number == 17);
    captioned++;
    return 1;
}

/* A byte for captions that are made: one of the readings. */
static uint8_t some_byte(size_t at) { return readings.len == 0 ? (uint8_t)at : readings.start[at % readings.len]; }

/* Makes captions for most signals, from the last to the first. */
static Text make_captions(uint8_t *bytes)
{
    uint8_t *at = bytes;
    for (uint64_t signal = signals; signal-- > 0;) {
        size_t choice = some_byte(signal) + some_room, length = 1 + choice % LONGEST_CAPTION;
        if (choice % 4 == 0) continue;
        memcpy(at, names[signal].start, names[signal].len);
        at += names[signal].len;
        *at++ = '=';
        for (size_t count = 0; count < length; count++) *at++ = (uint8_t)(' ' + some_byte(choice + count) % ('~' - ' ' + 1));
        *at++ = '\n';
    }
    return (Text){ bytes, (size_t)(at - bytes) };
}

/* The captions that are made are accepted. Without the last LF, with the first line once more, and with another byte, they are what is found here. */
static void made_must_be_captioned(void)
{
    static uint8_t bytes[MOST_CAPTIONS];
    Text text = make_captions(bytes);
    MUST(must_be_captioned(text));
    if (text.len == 0) return;
    MUST(!must_be_captioned((Text){ bytes, text.len - 1 }));
    size_t line = (size_t)((uint8_t *)memchr(bytes, '\n', text.len) - bytes) + 1;
    memcpy(bytes + text.len, bytes, line);
    MUST(!must_be_captioned((Text){ bytes, text.len + line }));
    bytes[(tick_asked() + readings.len) % text.len] = some_byte(some_room);
    must_be_captioned(text);
}

/* The readings of the input, read as captions; and captions that are made. */
static void some_must_be_captioned(void)
{
    own_captions += must_be_captioned(readings) && readings.len > 0;
    made_must_be_captioned();
}

/* A refused sheet: nothing is shown, whatever the captions and the signal. */
static void must_not_be_captioned(uint64_t number, uint64_t place)
{
    captions = readings;
    Answer asked = caption(signal_asked()), none = caption(UINT64_MAX);
    MUST(asked.number == number && asked.place == place);
    MUST(none.number == number && none.place == place);
}

static void join_none(void) { joined.len = joined.runs = 0; }

static void join(Text text)
{
    memcpy(joined.bytes + joined.len, text.start, text.len);
    joined.len += text.len;
    joined.lengths[joined.runs++] = text.len;
}

/* Where the readings are cut in two: after so many entries as the tick asked for says, or at such a byte. */
static size_t cut(void)
{
    size_t at = 0, lines = tick_asked() % 64 * (form_of_readings() == SPANS ? 4 : 3);
    if (cut_anywhere) return tick_asked() % (readings.len + 1);
    for (; lines > 0 && at < readings.len; lines--) {
        const uint8_t *lf = memchr(readings.start + at, '\n', readings.len - at);
        at = lf == NULL ? readings.len : (size_t)(lf - readings.start) + 1;
    }
    return at;
}

/* Joins the readings up to the cut, nothing, the readings from there on, and all of them; for some inputs empty texts too, up to 64 in all or one too many. */
static void join_several(void)
{
    size_t middle = cut();
    join_none();
    join((Text){ readings.start, middle });
    join((Text){ readings.start, 0 });
    join((Text){ readings.start + middle, readings.len - middle });
    join(readings);
    while (many_texts && joined.runs < MOST_TEXTS + 1 - (size_t)low) join((Text){ readings.start, 0 });
}

/* What figures must write, and the table that they must leave. */
static mikhakun_record wanted_records[MOST_SIGNALS];
static uint64_t last_table[MOST_WORDS];

/* Counts in a record what the table of a run says. */
static void count_run(mikhakun_record *record, uint64_t clash)
{
    const uint64_t *holds = last_table + 2 * record->signal * row_words, *fails = holds + row_words;
    uint64_t held = marks(holds, row_words), failed = marks(fails, row_words), first = next_tick(holds, 0, 1), other = next_tick(fails, 0, 1);
    if (clash) {
        record->clashed += window;
        return;
    }
    record->held += held;
    record->failed += failed;
    record->unsettled += window - held - failed;
    if (other < first) first = other;
    if (first < window && first < record->first) record->first = first;
}

/* Makes what figures must write and leave, or answers how they must be refused. */
static Answer want_figures(void)
{
    Answer a = { 0, 0, 0, 0 };
    size_t start = 0;
    if (joined.runs > MOST_TEXTS) return (Answer){ 19, 0, 0, 0 };
    for (size_t at = 0; at < signals; at++) wanted_records[at] = (mikhakun_record){ .signal = order[at], .first = MIKHAKUN_NO_TICK };
    memset(last_table, 0, 8 * words);
    for (size_t run = 0; run < joined.runs; start += joined.lengths[run++]) {
        memset(last_table, 0, 8 * words);
        a.number = mikhakun_add(lent_sheet, sheet.len, joined.bytes + start, joined.lengths[run], last_table, words, &a.value, &a.clash, &a.place);
        if (a.number != 0) return (Answer){ a.number, start + a.place, 0, 0 };
        for (size_t at = 0; at < signals; at++) count_run(&wanted_records[at], a.clash);
    }
    return a;
}

/* The figures of the joined texts are those wanted, and the four counts add up; or they are refused as wanted. Answers the number. */
static uint64_t must_have_figures(void)
{
    Answer wanted = want_figures(), a = figures(signals);
    MUST(a.number == wanted.number);
    if (a.number != 0) {
        MUST(a.place == wanted.place);
        return a.number;
    }
    for (size_t at = 0; at < signals; at++)
        MUST(records[at].held + records[at].failed + records[at].unsettled + records[at].clashed == window * joined.runs);
    MUST(memcmp(records, wanted_records, signals * sizeof *records) == 0);
    MUST(memcmp(table, last_table, 8 * words) == 0);
    return 0;
}

/* Whatever the texts, a list of another length is refused, and lengths whose sum is only right if it wraps. */
static void must_fit(void)
{
    const uint64_t half = (uint64_t)1 << 63;
    joined.lengths[0] += half;
    joined.lengths[1] += half;
    MUST(figures(signals).number == 19);
    MUST(figures(low ? signals - 1 : signals + 1).number == 18);
    joined.lengths[0] -= half;
    joined.lengths[1] -= half;
}

/* The figures of several texts, which count for what is told at the end. */
static void several_must_be_counted(void)
{
    must_fit();
    if (must_have_figures() != 0) return;
    counted++;
    part_clashed += records[0].clashed != 0 && records[0].clashed < window * joined.runs;
}

/* The figures of several texts, of the readings, where the table is what add leaves and ask tells, and of none. The marks of the lent table are ignored. Many
 * texts are run over short tables only. */
static void must_be_counted(size_t length)
{
    lend_table(length);
    if (!many_texts || length <= OFTEN_RUN) several_must_be_counted();
    lend_table(length);
    join_none();
    join(readings);
    if (must_have_figures() == 0) must_be_told();
    join_none();
    MUST(must_have_figures() == 0);
}

/* A refused sheet, or a table of a wrong length: figures give that refusal, whatever the list. */
static void must_not_be_counted(uint64_t number, uint64_t place)
{
    Answer a = figures(some_room);
    MUST(a.number == number && a.place == place);
}

/* A table of another length than the sheet's is refused. */
static void must_have_length(size_t lent, size_t length)
{
    if (lent == length) return;
    lend_table(lent);
    must_be_refused(15, 0);
    must_not_be_counted(15, 0);
}

static void accepted_sheet(uint64_t rows)
{
    sheets++;
    MUST(rows >= 1 && rows <= 1024);
    told[ROWS + bits(rows)] = 1;
    read_numbers();
    read_names();
    read_rules();
    Answer moved = must_be_moved();
    some_must_be_printed();
    some_must_be_captioned();
    may_be_a_dump();
    size_t length = mikhakun_words(rows, window), too_long = rest.len > 3 ? rest.start[3] : 0;
    MUST(length == 2 * rows * row_words);
    if (length > OFTEN_LENT && !any_length) return;
    must_have_length(length + too_long, length);
    must_have_length(2 * rows, length);
    must_be_counted(length);
    lend_table(length);
    if (marked_outside()) {
        must_be_refused(16, 0);
        return;
    }
    must_be_told();
    must_be_dumped();
    Answer added = add(lent_readings, readings.len);
    MUST(added.number == moved.number && added.place == moved.place);
    if (added.number == 0) must_be_closed(added);
    adds += added.number == 0;
    wide_adds += added.number == 0 && row_words > 1;
    must_be_told();
    if (added.number == 0) must_be_dumped();
}

static ucontext_t outside, inside;

static void calls(void)
{
    Answer checked = check();
    join_several();
    if (checked.number == 0) {
        accepted_sheet(checked.value);
    } else {
        lend_table(number_at(3) % OFTEN_LENT);
        must_be_refused(checked.number, checked.place);
        must_not_be_counted(checked.number, checked.place);
        must_not_move(checked.number, checked.place);
        must_not_be_printed(checked.number, checked.place);
        must_not_be_read(checked.number, checked.place);
        must_not_be_captioned(checked.number, checked.place);
    }
}

int LLVMFuzzerTestOneInput(const uint8_t *data, size_t size)
{
    if (size > LONGEST_INPUT) return 0;
    if (stack_area.start == NULL) {
        sheet_area = area(LONGEST_INPUT);
        readings_area = area(LONGEST_INPUT);
        moved_area = area(LONGEST_TEXT);
        rule_area = area(LONGEST_TEXT + LONGEST_RULE);
        out_area = area(MOST_DUMPED);
        dump_area = area(MOST_DUMP);
        captions_area = area(LONGEST_INPUT);
        memset(unwritten, 0xA5, sizeof unwritten);
        table_area = area(8 * MOST_WORDS);
        texts_area = area(2 * LONGEST_INPUT);
        lengths_area = area(8 * (MOST_TEXTS + 1));
        records_area = area(sizeof no_records);
        for (size_t at = 0; at <= MOST_SIGNALS; at++)
            no_records[at] = (mikhakun_record){ UNWRITTEN, UNWRITTEN, UNWRITTEN, UNWRITTEN, UNWRITTEN, UNWRITTEN };
        stack_area = area(STACK);
    }
    inputs++;
    rest = (Text){ data, size };
    sheet = part(&rest);
    readings = part(&rest);
    low = size % 2;
    any_length = size / 2 % 32 == 0;
    cut_anywhere = size / 2 % 4 == 2;
    many_texts = size / 2 % 16 == 1;
    some_room = size % LONGEST_ENTRY;
    lent_sheet = lend(sheet_area, sheet.start, sheet.len, low);
    lent_readings = lend(readings_area, readings.start, readings.len, low);
    getcontext(&inside);
    inside.uc_stack.ss_sp = stack_area.start;
    inside.uc_stack.ss_size = STACK;
    inside.uc_link = &outside;
    makecontext(&inside, calls, 0);
    swapcontext(&outside, &inside);
    return 0;
}
