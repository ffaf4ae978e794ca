/* Mikhakun for C: check, add, ask, the moves between readings and spans, the figures of several readings texts, a rule printed back, value change dumps and
 * captions.
 * Link crates/c_api/out/libc_api.a, which `rt lib` in crates/c_api proves and builds (x86-64 Linux).
 *
 * Each call answers 0, or the number of a refusal. `place` is written at a refusal only, the other results at acceptance only.
 * A refusal changes no word of a table, no byte of a buffer and no record. Nothing is kept between calls but the table that you lend.
 *
 * You owe what the proof assumes of a caller: behind each pointer lies memory of the length given, no two of one call overlap, nobody else
 * writes there during the call, and no pointer is null, also where its length is 0. The texts, the table's words, the buffers, the records and the
 * numbers may be anything at all. A call needs 72 KB (73,728 bytes) of stack: the deepest sheets that are known take 50,632.
 *
 * The table. With n the fewest words that have a bit for each tick of the window, (window + 63) / 64, a sheet of `rows` rows (see mikhakun_check)
 * has a table of 2 * rows * n words, and words of zeros are the empty one. Row x is that of signal x, numbered from 0 in sheet order; the rows of
 * hidden signals and of the parts of rules follow. The n words from 2 * r * n on have the ticks at which row r is true, the n words after them those
 * at which it is false. Tick t is bit t % 64, of value 2 to the t % 64, in word t / 64 of the n. So in a window up to 64, word 2 * r has the ticks
 * at which row r is true, word 2 * r + 1 those at which it is false, and bit t is tick t.
 *
 * The readings. A readings text has one of two forms, told by its first key. Single readings: three lines each, `at=` a tick, `signal=` a name, `value=` 0
 * or 1. Spans: four lines each, `from=` a tick, `to=` a tick that is not below it, `signal=`, `value=`, for every tick from the first to the last. An empty
 * text is both. Whatever takes a readings text takes either form; what counts is the readings that it says.
 *
 * An example, with the sheet and the readings in `sheet` and `readings`:
 *
 *     uint64_t rows, fresh, clash, value, place;
 *     uint64_t number = mikhakun_check(sheet, sheet_len, &rows, &place);
 *     if (number != 0) return refused(number, place);
 *     size_t words = mikhakun_words(rows, mikhakun_window(sheet));
 *     uint64_t *table = calloc(words, sizeof *table);
 *     number = mikhakun_add(sheet, sheet_len, readings, readings_len, table, words, &fresh, &clash, &place);
 *     if (number != 0) return refused(number, place);
 *     number = mikhakun_ask(sheet, sheet_len, table, words, 0, 3, &value, &place);
 *     if (number != 0) return refused(number, place);
 *     if (value == MIKHAKUN_TRUE) puts("signal 0 is true at tick 3 in every history");
 */
#ifndef MIKHAKUN_H
#define MIKHAKUN_H

#include <stddef.h>
#include <stdint.h>

#ifdef __cplusplus
extern "C" {
#endif

/* The numbers of refusal. A place is counted in bytes from 0: for 2 to 8 in the sheet, for 11 to 14 and 21 in the readings, for 22, and for 12 and 13 of
 * mikhakun_read_dump, in the dump, for 24, and for 12 of mikhakun_caption, in the captions, and else it is 0. Of a line it is the first byte, or the text's
 * length where the line is missing; of a value, a name, an interval or a sign its first byte. mikhakun_figures counts the place of 10 to 14 and 21 in the joined
 * texts: for 10 it is the text's first byte, for 11 where a line is missing the text's end. No function here answers 29: the programs `settle` and
 * `settle_captioned` print it, after the sheet's refusals and the captions', for a sheet whose table has over 8,192 words.
 *
 * A name is a lower-case letter and then lower-case letters or digits, 1 to 16 in all; since and until are reserved. The number at its end, if there
 * is one, has no leading zero unless it is 0 alone, and is at most 9,999. A name that breaks this can't be declared: aisle02 is 4 in a signal line,
 * 6 in a rule and 12 in readings, dumps and captions. */
enum {
    MIKHAKUN_SHEET_TOO_LONG = 1,     /* the sheet is over 32,768 bytes */
    MIKHAKUN_SHEET_LINE = 2,         /* a sheet line is missing, not of its form, out of order or without LF; or bytes follow the last line */
    MIKHAKUN_OUT_OF_RANGE = 3,       /* window is outside 1 to 4,096, signals outside 1 to 64 or rules outside 0 to 64: the value */
    MIKHAKUN_SIGNAL_NAME = 4,        /* a signal's name is not of the form above, reserved or given twice: the value */
    MIKHAKUN_RULE = 5,               /* a rule's length is outside 1 to 256: the value; or its formula does not fit: what cannot follow */
    MIKHAKUN_NOT_DECLARED = 6,       /* a rule has a name that is not declared: the name */
    MIKHAKUN_INTERVAL = 7,           /* an interval has an end outside -63 to 63, or no whole number inside: its opening bracket */
    MIKHAKUN_TOO_DEEP = 8,           /* a 33rd ( or ! is open: that sign */
    MIKHAKUN_TOO_LARGE = 9,          /* the sheet has over 32 hidden signals or 1,024 rows */
    MIKHAKUN_READINGS_TOO_LONG = 10, /* the readings are over 32,768 bytes */
    MIKHAKUN_READINGS_LINE = 11,     /* a readings line is missing, not of its form, of the other form or without LF */
    MIKHAKUN_UNKNOWN_NAME = 12,      /* a reading, a signal's line in a dump, or a caption's line names no signal of the sheet: what stands in the name's place */
    MIKHAKUN_OUTSIDE_WINDOW = 13,    /* a reading's tick, or a dump's, is outside the window: the value, or the number after # */
    MIKHAKUN_NOT_0_OR_1 = 14,        /* a reading's value is a number other than 0 or 1: the value */
    MIKHAKUN_TABLE_LENGTH = 15,      /* the table's length is not 2 * rows * n */
    MIKHAKUN_TABLE_MARK = 16,        /* the table has a mark at a tick outside the window, in the last of a row's n true or n false words */
    MIKHAKUN_NO_SUCH_CELL = 17,      /* ask: the signal or the tick is outside its range; print_rule, caption: the sheet has no rule, no signal of this number */
    MIKHAKUN_RECORD_COUNT = 18,      /* the list of records is not as long as the sheet has signals */
    MIKHAKUN_LENGTHS = 19,           /* there are over 64 lengths, or their sum is not the length of the joined texts */
    MIKHAKUN_NO_ROOM = 20,           /* what is to be written is longer than the buffer, or moved readings over 32,768 bytes, or a rule over 256 */
    MIKHAKUN_TO_BELOW_FROM = 21,     /* a span's last tick is below its first: the value of `to=` */
    MIKHAKUN_DUMP_LINE = 22,         /* a dump line is missing, not one that may stand there, or without LF */
    MIKHAKUN_CLASH = 23,             /* the table to be written as a dump has a row that is both true and false at one tick */
    MIKHAKUN_CAPTION_LINE = 24       /* a caption's line is not of its form or without LF, or an earlier one has its name: the line */
};

/* The values that ask writes. */
enum {
    MIKHAKUN_UNSETTLED = 0,
    MIKHAKUN_TRUE = 1,
    MIKHAKUN_FALSE = 2,
    MIKHAKUN_CONTRADICTION = 3 /* of every cell, where any row of the table is both true and false at one tick */
};

/* Checks a sheet: writes how many rows it has. Refusals 1 to 9. */
uint64_t mikhakun_check(const uint8_t *sheet, size_t sheet_len, uint64_t *rows, uint64_t *place);

/* The window of a sheet, the number in its first line. You owe a sheet that mikhakun_check accepts: this reads up to that line's LF. */
static inline uint64_t mikhakun_window(const uint8_t *sheet)
{
    uint64_t window = 0;
    for (sheet += sizeof "window=" - 1; *sheet != '\n'; sheet++) window = 10 * window + (uint64_t)(*sheet - '0');
    return window;
}

/* How many signals a sheet has, the number in its second line. You owe the same. */
static inline uint64_t mikhakun_signals(const uint8_t *sheet)
{
    uint64_t signals = 0;
    while (*sheet != '\n') sheet++;
    for (sheet += sizeof "\nsignals=" - 1; *sheet != '\n'; sheet++) signals = 10 * signals + (uint64_t)(*sheet - '0');
    return signals;
}

/* The length of a table, 2 * rows * n. */
static inline uint64_t mikhakun_words(uint64_t rows, uint64_t window)
{
    return 2 * rows * ((window + 63) / 64);
}

/* Adds readings to the table and closes it: it then has exactly what the published inference rules lead to from the sheet, the readings and
 * what it held. Writes how many facts (marks of declared signals) are new, and 1 for a clash, 0 for none. Refusals 1 to 9, 15, 16, 10, then
 * 11 to 14 and 21 line by line, in this order. */
uint64_t mikhakun_add(const uint8_t *sheet, size_t sheet_len, const uint8_t *readings, size_t readings_len,
                      uint64_t *table, size_t words, uint64_t *new_facts, uint64_t *clash, uint64_t *place);

/* Asks the table, as it is, for a signal's value at a tick. Refusals 1 to 9, 15, 16, 17, in this order. */
uint64_t mikhakun_ask(const uint8_t *sheet, size_t sheet_len, const uint64_t *table, size_t words,
                      uint64_t signal, uint64_t tick, uint64_t *value, uint64_t *place);

/* Writes the readings, of either form, as spans: equal, overlapping and touching ones merged, sorted by signal number, value (0 first), then first tick. The
 * text starts at out's first byte, and its length is written; the rest of out stays. No text of spans for these readings has fewer spans. Refusals 1 to 9,
 * 10, then 11 to 14 and 21 line by line, last 20, in this order. */
uint64_t mikhakun_to_spans(const uint8_t *sheet, size_t sheet_len, const uint8_t *readings, size_t readings_len,
                           uint8_t *out, size_t room, uint64_t *length, uint64_t *place);

/* Writes the readings, of either form, one by one, each once, by signal number, value (0 first), then tick. For the rest as mikhakun_to_spans. */
uint64_t mikhakun_to_readings(const uint8_t *sheet, size_t sheet_len, const uint8_t *readings, size_t readings_len,
                              uint8_t *out, size_t room, uint64_t *length, uint64_t *place);

/* What the runs of several readings texts say of a signal. A run that clashes counts its whole window in `clashed` and nothing in the other three counts; the
 * four add up to window times runs. */
typedef struct {
    uint64_t signal;    /* its number, from 0 in sheet order */
    uint64_t held;      /* at how many ticks it is true */
    uint64_t failed;    /* at how many it is false */
    uint64_t unsettled; /* at how many it is neither */
    uint64_t clashed;   /* how many ticks the runs that clash have */
    uint64_t first;     /* the earliest tick at which it is true or false in any run without a clash, or MIKHAKUN_NO_TICK */
} mikhakun_record;

/* In a record's `first`: it is settled at no tick of a run without a clash. */
#define MIKHAKUN_NO_TICK UINT64_MAX

/* Runs up to 64 readings texts, of either form each, one by one against the sheet, and writes a record for each signal. The texts stand in `texts` one behind
 * the other with nothing between, and `lengths` has the length of each:
 *
 *     memcpy(texts, early, early_len);
 *     memcpy(texts + early_len, late, late_len);
 *     uint64_t lengths[] = {early_len, late_len};
 *     number = mikhakun_figures(sheet, sheet_len, texts, early_len + late_len, lengths, 2, work, words, records, mikhakun_signals(sheet), &place);
 *
 * The records come in the order of a listing: by the bytes before the number at a name's end, no number before a number, then by the number. The work table is
 * one of the sheet's, whatever marks it holds. It is cleared before each run, in which the text is added to it, and ends as the last run's closed table; with
 * no text at all it ends cleared, and every count is 0.
 *
 * All texts are checked before the first run. Refusals 1 to 9, 15 for the work table, 18, 19, then of each text in turn 10 and, line by line, 11 to 14 and 21,
 * in this order. Where one text ends and the next begins, 11 is of the first if its lines are not a multiple of three, or of four where they are spans. */
uint64_t mikhakun_figures(const uint8_t *sheet, size_t sheet_len, const uint8_t *texts, size_t texts_len, const uint64_t *lengths, size_t runs,
                          uint64_t *work, size_t words, mikhakun_record *records, size_t record_count, uint64_t *place);

/* The most bytes that a rule has, and the most that mikhakun_print_rule writes. */
#define MIKHAKUN_RULE_BYTES 256

/* Writes the formula of a rule, numbered from 0 in sheet order, from what was read: parentheses only where the grammar needs them, intervals in square
 * brackets, since and until as written, names as spelled. So ((a))@(0,3) becomes a@[1,2], and (a&b)&c becomes a&b&c, while a&(b&c) stays. The text starts at
 * out's first byte, and its length is written; the rest of out stays. Read in the rule's place it gives the same formula, and printed again the same bytes.
 *
 * Refusals 1 to 9, 17, 20, in this order. 20 is for a text that is longer than out, and for one over MIKHAKUN_RULE_BYTES, which no rule can have: more room
 * than that is never needed. A long rule can have such a text, for square brackets may take a byte more than round ones: (9,11) becomes [10,10], (-11,-9)
 * becomes [-10,-10] and (-3,0) becomes [-2,-1]. */
uint64_t mikhakun_print_rule(const uint8_t *sheet, size_t sheet_len, uint64_t rule, uint8_t *out, size_t room, uint64_t *length, uint64_t *place);

/* Writes a table as a value change dump (VCD, IEEE 1364), for a trace viewer: these lines, each with its LF,
 *
 *     $timescale 1 s $end
 *     $scope module sheet $end
 *     $var wire 1 ! clear2 $end           one for each signal in sheet order, with its ID, the byte 33 + its number, and its name
 *     $upscope $end
 *     $enddefinitions $end
 *     #0
 *     x!                                  each signal's sign, 0, 1 or x for unsettled, and its ID
 *     #3                                  each later tick at which signs change,
 *     1!                                  and the signs that do, in sheet order
 *
 * The text starts at out's first byte, and its length is written; the rest of out stays. mikhakun_read_dump makes of it exactly the values that are settled.
 *
 * Refusals 1 to 9, 15, 16, 23, 20, in this order. 23 is for a table in which any row clashes, also one of a hidden signal or of a part of a rule. */
uint64_t mikhakun_write_dump(const uint8_t *sheet, size_t sheet_len, const uint64_t *table, size_t words,
                             uint8_t *out, size_t room, uint64_t *length, uint64_t *place);

/* Room that is enough for every dump of a sheet with so many signals over this window: names of 16 bytes, and all signs new at each tick. */
static inline uint64_t mikhakun_dump_room(uint64_t signals, uint64_t window)
{
    return 80 + 36 * signals + (6 + 3 * signals) * window;
}

/* Reads a dump and writes the readings that it says, one by one, by tick, then signal: one for each 0 and 1 at a tick. A sign holds until the signal's next or
 * the window's end. The text starts at out's first byte, and its length is written; the rest of out stays. One of over 32,768 bytes is added in parts, cut
 * between two readings.
 *
 * A dump has the lines that mikhakun_write_dump writes, and no others, but:
 * - its timescale is 1, 10 or 100 and s, ms, us, ns, ps or fs, all of which mean the same here: a time is a tick;
 * - the sign z counts as x;
 * - a sign may be said again, and a time may have no sign.
 * Times rise strictly, from #0 on. Signs at one time are in sheet order, none twice, and at #0 every signal has one. A dump may have any length.
 *
 * Refusals 1 to 9, then line by line 22 at the line's first byte, 12 and 13, last 20, in this order. 22 is for any other line, also a time that does not rise or
 * is no number of one to five digits without a leading zero, a sign out of order or of no signal, another ID, and a declared name in another's place. 12 is for a
 * signal's line that is right but for what stands between `$var wire 1 ID ` and ` $end`: it is no declared name. */
uint64_t mikhakun_read_dump(const uint8_t *sheet, size_t sheet_len, const uint8_t *dump, size_t dump_len,
                            uint8_t *out, size_t room, uint64_t *length, uint64_t *place);

/* Room that is enough for the readings of every dump of such a sheet: one at each tick of each signal. */
static inline uint64_t mikhakun_dump_readings_room(uint64_t signals, uint64_t window)
{
    return 40 * signals * window;
}

/* The most bytes of a caption. */
#define MIKHAKUN_CAPTION_BYTES 40

/* What is shown of a signal, numbered from 0 in sheet order, where a house has its own words for some. The captions' text has lines, each with its LF,
 *
 *     clear2=North aisle empty            a declared name, the sign =, and a caption of 1 to 40 printable ASCII bytes (32 to 126), which may hold = too
 *     go10=Drive M10 = on
 *
 * in any order, at most one for each name; an empty text has none. Where the signal's name has a line, its caption is shown, a part of the captions, and
 * `in_captions` is 1; else the name itself, a part of the sheet, and it is 0. The part has `length` bytes from byte `start` of that text on. It lies inside the
 * text and is never empty. Nothing is copied:
 *
 *     number = mikhakun_caption(sheet, sheet_len, captions, captions_len, signal, &in_captions, &start, &length, &place);
 *     if (number != 0) return refused(number, place);
 *     printf("%.*s\n", (int)length, (const char *)(in_captions ? captions : sheet) + start);
 *
 * Use it wherever a signal is shown to somebody of that house. Sheets, readings, dumps and the other calls keep the names and the numbers.
 *
 * Refusals 1 to 9, then line by line, each at the line's first byte, 24 for a line of another form, 12 where no declared name stands before the first =, and 24
 * for a name that an earlier line has, last 17, in this order. The whole text is read, whichever signal is asked for. It may have any length; one that is
 * accepted has at most 3,712 bytes. */
uint64_t mikhakun_caption(const uint8_t *sheet, size_t sheet_len, const uint8_t *captions, size_t captions_len, uint64_t signal,
                          uint64_t *in_captions, uint64_t *start, uint64_t *length, uint64_t *place);

#ifdef __cplusplus
}
#endif

#endif
