/* Checks the shipped example, adds its readings, asks, moves them to spans and back, has the figures of several texts, prints rules back, writes and reads dumps,
 * shows captions, and is refused, through the static library; then the same over windows of several words; then names that end in a number. Prints what differs
 * from what is wanted, and 'N passed, M failed' at the end. */
#include "mikhakun.h"

#include <stdio.h>
#include <stdlib.h>
#include <string.h>

#define UNWRITTEN 777

static const char SHEET[] = "window=10\nsignals=3\nsignal=clear2\nsignal=go10\nsignal=open10\n"
                            "rules=2\nrule=clear2@[-3,0]=>go10\nrule=go10=>open10@[2,2]\n";
static const char READINGS[] = "at=3\nsignal=clear2\nvalue=1\nat=4\nsignal=clear2\nvalue=1\n"
                               "at=5\nsignal=clear2\nvalue=1\nat=6\nsignal=clear2\nvalue=1\n";

static const char SPANS[] = "from=3\nto=6\nsignal=clear2\nvalue=1\n";

static int passed, failed;

static void same(const char *what, uint64_t found, uint64_t wanted) {
    if (found == wanted) {
        passed++;
        return;
    }
    failed++;
    printf("%s: %llu, wanted %llu\n", what, (unsigned long long)found, (unsigned long long)wanted);
}

static const uint8_t *bytes(const char *text) { return (const uint8_t *)text; }

/* The sheet is accepted: the row count is written, and the place stays. */
static void check_accepts(void) {
    uint64_t rows = UNWRITTEN, place = UNWRITTEN;
    same("check", mikhakun_check(bytes(SHEET), strlen(SHEET), &rows, &place), 0);
    same("rows", rows, 15);
    same("place after check", place, UNWRITTEN);
}

/* The sheet without its last LF is refused at its last line: the place is written, and the row count stays. */
static void check_refuses(void) {
    uint64_t rows = UNWRITTEN, place = UNWRITTEN;
    same("check of a torn sheet", mikhakun_check(bytes(SHEET), strlen(SHEET) - 1, &rows, &place), MIKHAKUN_SHEET_LINE);
    same("rows of a torn sheet", rows, UNWRITTEN);
    same("place in a torn sheet", place, (uint64_t)(strstr(SHEET, "rule=go10") - SHEET));
}

/* The readings give six facts, and every cell of the listing. */
static void add_and_ask(uint64_t *table) {
    static const char *const signs[3] = {"???1111???", "??????1???", "????????1?"};
    uint64_t fresh = UNWRITTEN, clash = UNWRITTEN, place = UNWRITTEN;
    same("add", mikhakun_add(bytes(SHEET), strlen(SHEET), bytes(READINGS), strlen(READINGS), table, 30, &fresh, &clash, &place), 0);
    same("new facts", fresh, 6);
    same("clash", clash, 0);
    for (uint64_t signal = 0; signal < 3; signal++)
        for (uint64_t tick = 0; tick < 10; tick++) {
            uint64_t value = UNWRITTEN;
            same("ask", mikhakun_ask(bytes(SHEET), strlen(SHEET), table, 30, signal, tick, &value, &place), 0);
            same("value", value, signs[signal][tick] == '1' ? MIKHAKUN_TRUE : MIKHAKUN_UNSETTLED);
        }
    same("place after add and ask", place, UNWRITTEN);
}

/* A refused reading and a refused question change nothing but the place. */
static void refusals_keep_the_table(uint64_t *table) {
    static const char late[] = "at=3\nsignal=go10\nvalue=0\nat=10\nsignal=go10\nvalue=0\n";
    uint64_t before[30], fresh = UNWRITTEN, clash = UNWRITTEN, value = UNWRITTEN, place = UNWRITTEN;
    memcpy(before, table, sizeof before);
    same("add past the window", mikhakun_add(bytes(SHEET), strlen(SHEET), bytes(late), strlen(late), table, 30, &fresh, &clash, &place), MIKHAKUN_OUTSIDE_WINDOW);
    same("place of the tick", place, (uint64_t)(strstr(late, "at=10") + 3 - late));
    same("table unchanged", (uint64_t)memcmp(before, table, sizeof before), 0);
    same("add with a word missing", mikhakun_add(bytes(SHEET), strlen(SHEET), bytes(READINGS), strlen(READINGS), table, 29, &fresh, &clash, &place), MIKHAKUN_TABLE_LENGTH);
    same("ask past the signals", mikhakun_ask(bytes(SHEET), strlen(SHEET), table, 30, 3, 0, &value, &place), MIKHAKUN_NO_SUCH_CELL);
    same("place of a question", place, 0);
    same("new facts of a refusal", fresh, UNWRITTEN);
    same("clash of a refusal", clash, UNWRITTEN);
    same("value of a refusal", value, UNWRITTEN);
}

/* A reading against what follows: a clash, and contradiction everywhere. */
static void clash_is_told(uint64_t *table) {
    static const char against[] = "at=6\nsignal=go10\nvalue=0\n";
    uint64_t fresh, clash, value, place;
    same("add against the rules", mikhakun_add(bytes(SHEET), strlen(SHEET), bytes(against), strlen(against), table, 30, &fresh, &clash, &place), 0);
    same("the clash", clash, 1);
    same("ask after a clash", mikhakun_ask(bytes(SHEET), strlen(SHEET), table, 30, 0, 0, &value, &place), 0);
    same("the contradiction", value, MIKHAKUN_CONTRADICTION);
}

typedef uint64_t Move(const uint8_t *, size_t, const uint8_t *, size_t, uint8_t *, size_t, uint64_t *, uint64_t *);
enum { LONGEST_TEXT = 32768, MOST_ROOM = LONGEST_TEXT + 100, UNTOUCHED = '.' };
static uint8_t out[MOST_ROOM];

/* How many bytes of the buffer from `from` on are not as they were before the call. */
static uint64_t touched(size_t from) {
    uint64_t count = 0;
    for (size_t at = from; at < MOST_ROOM; at++)
        count += out[at] != UNTOUCHED;
    return count;
}

/* What a call that writes a text answers. */
typedef struct {
    uint64_t number, length, place;
} Written;

static Written before_writing(void) {
    memset(out, UNTOUCHED, sizeof out);
    return (Written){.length = UNWRITTEN, .place = UNWRITTEN};
}

/* The call wrote the text wanted, its length and nothing else. */
static void has_written(const char *what, Written found, const char *wanted) {
    same(what, found.number, 0);
    same("length of a text", found.length, strlen(wanted));
    same("bytes of a text", (uint64_t)memcmp(out, wanted, strlen(wanted)), 0);
    same("bytes after a text", touched(strlen(wanted)), 0);
    same("place after a text", found.place, UNWRITTEN);
}

/* The call was refused by this number at this place: it wrote no byte, and no length. */
static void has_refused(const char *what, Written found, uint64_t number, uint64_t at) {
    same(what, found.number, number);
    same("place of a refused text", found.place, at);
    same("length of a refused text", found.length, UNWRITTEN);
    same("bytes after a refused text", touched(0), 0);
}

static Written moved(Move *move, const char *sheet, const char *readings, size_t room) {
    Written found = before_writing();
    found.number = move(bytes(sheet), strlen(sheet), bytes(readings), strlen(readings), out, room, &found.length, &found.place);
    return found;
}

/* The move writes the text wanted, in room that is just enough and in all there is. */
static void moves(const char *what, Move *move, const char *readings, const char *wanted) {
    has_written(what, moved(move, SHEET, readings, strlen(wanted)), wanted);
    has_written(what, moved(move, SHEET, readings, MOST_ROOM), wanted);
}

static void no_move(const char *what, Move *move, const char *sheet, const char *readings, size_t room, uint64_t number, uint64_t at) {
    has_refused(what, moved(move, sheet, readings, room), number, at);
}

/* The readings as spans and back, from either form; an empty text is both. */
static void moved_there_and_back(void) {
    moves("readings to spans", mikhakun_to_spans, READINGS, SPANS);
    moves("spans to readings", mikhakun_to_readings, SPANS, READINGS);
    moves("spans to spans", mikhakun_to_spans, SPANS, SPANS);
    moves("readings to readings", mikhakun_to_readings, READINGS, READINGS);
    moves("nothing to spans", mikhakun_to_spans, "", "");
    moves("nothing to readings", mikhakun_to_readings, "", "");
    moves("spans that touch", mikhakun_to_spans, "from=5\nto=6\nsignal=clear2\nvalue=1\nfrom=3\nto=4\nsignal=clear2\nvalue=1\n", SPANS);
}

/* What the moves refuse, and add with them, but for the room. */
static void refused_moves(void) {
    static const char below[] = "from=6\nto=3\nsignal=clear2\nvalue=1\n", mixed[] = "at=3\nsignal=clear2\nvalue=1\nfrom=4\n";
    static const char night[] = "window=4096\nsignals=1\nsignal=shut\nrules=0\n", shut[] = "from=0\nto=4095\nsignal=shut\nvalue=1\n";
    Move *const both[] = {mikhakun_to_spans, mikhakun_to_readings};
    uint64_t table[30] = {0}, fresh = UNWRITTEN, clash = UNWRITTEN, place = UNWRITTEN;
    for (size_t i = 0; i < 2; i++) {
        no_move("move by a torn sheet", both[i], "window=10\n", READINGS, MOST_ROOM, MIKHAKUN_SHEET_LINE, strlen("window=10\n"));
        no_move("move of to below from", both[i], SHEET, below, MOST_ROOM, MIKHAKUN_TO_BELOW_FROM, strlen("from=6\nto="));
        no_move("move of a mixed text", both[i], SHEET, mixed, MOST_ROOM, MIKHAKUN_READINGS_LINE, (uint64_t)(strstr(mixed, "from=") - mixed));
        no_move("move without room", both[i], SHEET, SPANS, 0, MIKHAKUN_NO_ROOM, 0);
    }
    no_move("spans and a byte too little", mikhakun_to_spans, SHEET, READINGS, strlen(SPANS) - 1, MIKHAKUN_NO_ROOM, 0);
    no_move("readings and a byte too little", mikhakun_to_readings, SHEET, SPANS, strlen(READINGS) - 1, MIKHAKUN_NO_ROOM, 0);
    no_move("readings over 32,768 bytes", mikhakun_to_readings, night, shut, MOST_ROOM, MIKHAKUN_NO_ROOM, 0);
    same("add of to below from", mikhakun_add(bytes(SHEET), strlen(SHEET), bytes(below), strlen(below), table, 30, &fresh, &clash, &place), MIKHAKUN_TO_BELOW_FROM);
    same("place of to", place, strlen("from=6\nto="));
}

/* The spans give the table that the readings gave. */
static void add_spans(const uint64_t *wanted) {
    uint64_t table[30] = {0}, fresh = UNWRITTEN, clash = UNWRITTEN, place = UNWRITTEN;
    same("add of spans", mikhakun_add(bytes(SHEET), strlen(SHEET), bytes(SPANS), strlen(SPANS), table, 30, &fresh, &clash, &place), 0);
    same("new facts of spans", fresh, 6);
    same("clash of spans", clash, 0);
    same("table of spans", (uint64_t)memcmp(table, wanted, sizeof table), 0);
}

enum { SIGNALS = 3, WORDS = 30, MOST_RECORDS = SIGNALS + 1, MOST_TEXTS = 64 };

/* Readings that clash with the sheet; and three texts, of which the second clashes and the third is the first once more, as spans. */
static const char AGAINST[] = "at=0\nsignal=open10\nvalue=0\nat=1\nsignal=go10\nvalue=1\nat=3\nsignal=open10\nvalue=0\n";
static const char *const SHIFTS[] = {READINGS, AGAINST, SPANS};

/* Texts one behind the other, and their lengths. */
typedef struct {
    char joined[400];
    uint64_t lengths[MOST_TEXTS + 1];
    size_t runs;
} Texts;

static Texts join(const char *const *texts, size_t runs) {
    Texts all = {.runs = runs};
    for (size_t i = 0; i < runs; i++) {
        strcat(all.joined, texts[i]);
        all.lengths[i] = strlen(texts[i]);
    }
    return all;
}

/* What a call of figures is lent, and what it answers. */
typedef struct {
    uint64_t work[WORDS], number, place;
    mikhakun_record records[MOST_RECORDS];
} Figures;

static const mikhakun_record NO_RECORD = {UNWRITTEN, UNWRITTEN, UNWRITTEN, UNWRITTEN, UNWRITTEN, UNWRITTEN};

/* What is lent before the call: a table with marks everywhere, past the window too, and records of nothing. */
static Figures before_figures(void) {
    Figures lent = {.place = UNWRITTEN};
    memset(lent.work, 0xFF, sizeof lent.work);
    for (size_t i = 0; i < MOST_RECORDS; i++)
        lent.records[i] = NO_RECORD;
    return lent;
}

static Figures figures(const char *sheet, const Texts *texts, size_t words, size_t record_count) {
    Figures found = before_figures();
    found.number = mikhakun_figures(bytes(sheet), strlen(sheet), bytes(texts->joined), strlen(texts->joined), texts->lengths, texts->runs, found.work, words,
                                    found.records, record_count, &found.place);
    return found;
}

static void same_record(const char *what, mikhakun_record found, mikhakun_record wanted) {
    same(what, found.signal, wanted.signal);
    same(what, found.held, wanted.held);
    same(what, found.failed, wanted.failed);
    same(what, found.unsettled, wanted.unsettled);
    same(what, found.clashed, wanted.clashed);
    same(what, found.first, wanted.first);
}

/* The figures of the first so many texts: a record for each signal, and the place stays. The work table ends as these words, those of the last text added to an
 * empty one. */
static void has_figures(const char *what, size_t runs, const mikhakun_record *wanted, const uint64_t *last) {
    Texts texts = join(SHIFTS, runs);
    Figures found = figures(SHEET, &texts, WORDS, SIGNALS);
    same(what, found.number, 0);
    for (size_t i = 0; i < SIGNALS; i++)
        same_record(what, found.records[i], wanted[i]);
    same_record("what follows the records", found.records[SIGNALS], NO_RECORD);
    same("work table after figures", (uint64_t)memcmp(found.work, last, sizeof found.work), 0);
    same("place after figures", found.place, UNWRITTEN);
}

/* The figures of none, one, two and three texts. The second clashes: its ten ticks count in a column of their own, and its first settled tick, 0, nowhere. */
static void figures_of_texts(const uint64_t *closed) {
    static const mikhakun_record none[SIGNALS] = {{0, 0, 0, 0, 0, MIKHAKUN_NO_TICK}, {1, 0, 0, 0, 0, MIKHAKUN_NO_TICK}, {2, 0, 0, 0, 0, MIKHAKUN_NO_TICK}};
    static const mikhakun_record one[SIGNALS] = {{0, 4, 0, 6, 0, 3}, {1, 1, 0, 9, 0, 6}, {2, 1, 0, 9, 0, 8}};
    static const mikhakun_record two[SIGNALS] = {{0, 4, 0, 6, 10, 3}, {1, 1, 0, 9, 10, 6}, {2, 1, 0, 9, 10, 8}};
    static const mikhakun_record three[SIGNALS] = {{0, 8, 0, 12, 10, 3}, {1, 2, 0, 18, 10, 6}, {2, 2, 0, 18, 10, 8}};
    uint64_t clashing[WORDS] = {0}, cleared[WORDS] = {0}, fresh, clash, place;
    same("add of what clashes", mikhakun_add(bytes(SHEET), strlen(SHEET), bytes(AGAINST), strlen(AGAINST), clashing, WORDS, &fresh, &clash, &place), 0);
    same("the clash of a run", clash, 1);
    same("signals of a sheet", mikhakun_signals(bytes(SHEET)), SIGNALS);
    has_figures("figures of no text", 0, none, cleared);
    has_figures("figures of a text", 1, one, closed);
    has_figures("figures of two texts", 2, two, clashing);
    has_figures("figures of three texts", 3, three, closed);
}

/* The records of this sheet come by name, the number at its end as a number. */
static void figures_in_order(void) {
    static const char sheet[] = "window=4\nsignals=3\nsignal=aisle10\nsignal=aisle2\nsignal=aisle\nrules=0\n", *const texts[] = {"at=1\nsignal=aisle2\nvalue=0\n"};
    static const mikhakun_record wanted[SIGNALS] = {{2, 0, 0, 4, 0, MIKHAKUN_NO_TICK}, {1, 0, 1, 3, 0, 1}, {0, 0, 0, 4, 0, MIKHAKUN_NO_TICK}};
    Texts all = join(texts, 1);
    Figures found = figures(sheet, &all, 2 * SIGNALS, SIGNALS);
    same("figures by name", found.number, 0);
    for (size_t i = 0; i < SIGNALS; i++)
        same_record("a record by name", found.records[i], wanted[i]);
}

/* Figures are refused by this number at this place: no word of the work table is written, and no record. */
static void no_figures(const char *what, const char *sheet, const Texts *texts, size_t words, size_t record_count, uint64_t number, uint64_t at) {
    Figures found = figures(sheet, texts, words, record_count), before = before_figures();
    same(what, found.number, number);
    same("place of refused figures", found.place, at);
    same("work table of refused figures", (uint64_t)memcmp(found.work, before.work, sizeof found.work), 0);
    same("records of refused figures", (uint64_t)memcmp(found.records, before.records, sizeof found.records), 0);
}

/* A text of the joined ones is refused where it stands; the lengths, the list of records and the work table come before that, the sheet before all. */
static void refused_figures(void) {
    static const char *const late[] = {SPANS, "", "at=3\nsignal=go10\nvalue=0\nat=10\n"}, *const torn[] = {READINGS, "at=3\nsignal=go10\n", SPANS};
    Texts texts = join(late, 3), cut = join(torn, 3), wrapped = join(SHIFTS, 3), many = {.runs = MOST_TEXTS + 1}, most = {.runs = MOST_TEXTS};
    no_figures("figures past the window", SHEET, &texts, WORDS, SIGNALS, MIKHAKUN_OUTSIDE_WINDOW, strlen(texts.joined) - strlen("10\n"));
    no_figures("figures without a line", SHEET, &cut, WORDS, SIGNALS, MIKHAKUN_READINGS_LINE, strlen(READINGS) + strlen(torn[1]));
    texts.lengths[1] = 1;
    no_figures("figures and a byte too many", SHEET, &texts, WORDS, SIGNALS, MIKHAKUN_LENGTHS, 0);
    no_figures("figures and a record too few", SHEET, &texts, WORDS, SIGNALS - 1, MIKHAKUN_RECORD_COUNT, 0);
    no_figures("figures and a record too many", SHEET, &texts, WORDS, SIGNALS + 1, MIKHAKUN_RECORD_COUNT, 0);
    no_figures("figures and a word too few", SHEET, &texts, WORDS - 1, SIGNALS - 1, MIKHAKUN_TABLE_LENGTH, 0);
    no_figures("figures by a torn sheet", "window=10\n", &texts, WORDS - 1, SIGNALS - 1, MIKHAKUN_SHEET_LINE, strlen("window=10\n"));
    wrapped.lengths[0] += (uint64_t)1 << 63;
    wrapped.lengths[1] += (uint64_t)1 << 63;
    no_figures("figures and lengths that wrap", SHEET, &wrapped, WORDS, SIGNALS, MIKHAKUN_LENGTHS, 0);
    no_figures("figures of 65 texts", SHEET, &many, WORDS, SIGNALS, MIKHAKUN_LENGTHS, 0);
    Figures empty = figures(SHEET, &most, WORDS, SIGNALS);
    same("figures of 64 texts", empty.number, 0);
    same_record("a record of 64 texts", empty.records[0], (mikhakun_record){0, 0, 0, 640, 0, MIKHAKUN_NO_TICK});
}

static Written printed(const char *sheet, uint64_t rule, size_t room) {
    Written found = before_writing();
    found.number = mikhakun_print_rule(bytes(sheet), strlen(sheet), rule, out, room, &found.length, &found.place);
    return found;
}

/* Writes the sheet of one rule over three signals. */
static void one_rule(char *sheet, const char *rule) { sprintf(sheet, "window=4\nsignals=3\nsignal=a\nsignal=b\nsignal=c20\nrules=1\nrule=%s\n", rule); }
enum { ONE_RULE = MIKHAKUN_RULE_BYTES + 80 };

/* The rule is printed so, in room that is just enough, in that of the longest rule and in all there is, and refused with a byte less. */
static void prints(const char *rule, const char *wanted) {
    char sheet[ONE_RULE];
    one_rule(sheet, rule);
    has_written(rule, printed(sheet, 0, strlen(wanted)), wanted);
    has_written(rule, printed(sheet, 0, MIKHAKUN_RULE_BYTES), wanted);
    has_written(rule, printed(sheet, 0, MOST_ROOM), wanted);
    has_refused(rule, printed(sheet, 0, strlen(wanted) - 1), MIKHAKUN_NO_ROOM, 0);
}

/* Rules as written and as printed. What is printed is printed again as it is. */
static void rules_printed(void) {
    static const char *const rules[][2] = {
        {"((a))", "a"}, {"(a&b)&c20", "a&b&c20"}, {"a&(b&c20)", "a&(b&c20)"}, {"(a|b)|c20", "a|b|c20"}, {"a|(b&c20)", "a|b&c20"}, {"(a|b)&c20", "(a|b)&c20"},
        {"!(a@[0,1])", "!(a@[0,1])"}, {"(!a)@[0,1]", "!a@[0,1]"}, {"(a=>b)=>c20", "(a=>b)=>c20"}, {"a=>(b=>c20)", "a=>(b=>c20)"}, {"(a=>b)<=>(!(c20))", "a=>b<=>!c20"},
        {"a@(0,3)", "a@[1,2]"}, {"(a?[0,3))@(-1,1)", "a?[0,2]@[0,0]"}, {"a@(9,11)", "a@[10,10]"}, {"a?(-11,-9)", "a?[-10,-10]"}, {"a@(-3,0)", "a@[-2,-1]"},
        {"since((a),(b|c20))", "since(a,b|c20)"}, {"(until(((a)),b))&(c20)", "until(a,b)&c20"},
    };
    for (size_t i = 0; i < sizeof rules / sizeof *rules; i++) {
        prints(rules[i][0], rules[i][1]);
        prints(rules[i][1], rules[i][1]);
    }
    has_written("the last rule of a sheet", printed(SHEET, 1, MIKHAKUN_RULE_BYTES), "go10=>open10@[2,2]");
}

/* Writes the beginning of a rule and 31 times an interval. */
static char *with_intervals(char *rule, const char *start, const char *interval) {
    strcpy(rule, start);
    for (int i = 0; i < 31; i++)
        strcat(rule, interval);
    return rule;
}

/* A text may have 256 bytes, and no more, however much room there is. Each interval has a byte more in square brackets. */
static void longest_printed(void) {
    char round[MIKHAKUN_RULE_BYTES + 1], square[MIKHAKUN_RULE_BYTES + 1], sheet[ONE_RULE];
    prints(with_intervals(round, "a&a&!c20", "@(9,11)"), with_intervals(square, "a&a&!c20", "@[10,10]"));
    same("bytes of the longest text", strlen(square), MIKHAKUN_RULE_BYTES);
    one_rule(sheet, with_intervals(round, "a&a&!!c20", "@(9,11)"));
    has_refused("a text of 257 bytes", printed(sheet, 0, MIKHAKUN_RULE_BYTES), MIKHAKUN_NO_ROOM, 0);
    has_refused("a text of 257 bytes in all room", printed(sheet, 0, MOST_ROOM), MIKHAKUN_NO_ROOM, 0);
}

/* The sheet's refusal comes first, then that of the rule's number, then that of the room. */
static void refused_prints(void) {
    static const char torn[] = "window=10\n", no_rules[] = "window=10\nsignals=1\nsignal=a\nrules=0\n";
    has_refused("a rule of a torn sheet", printed(torn, UINT64_MAX, 0), MIKHAKUN_SHEET_LINE, strlen(torn));
    has_refused("the rule after the last", printed(SHEET, 2, 0), MIKHAKUN_NO_SUCH_CELL, 0);
    has_refused("the largest number of a rule", printed(SHEET, UINT64_MAX, MOST_ROOM), MIKHAKUN_NO_SUCH_CELL, 0);
    has_refused("a rule where there is none", printed(no_rules, 0, MOST_ROOM), MIKHAKUN_NO_SUCH_CELL, 0);
    has_refused("a rule without room", printed(SHEET, 0, 0), MIKHAKUN_NO_ROOM, 0);
}

/* The dump of the example, up to its first time, and whole; and what it says. */
#define VARS "$var wire 1 ! clear2 $end\n$var wire 1 \" go10 $end\n$var wire 1 # open10 $end\n"
#define DUMP_HEAD "$timescale 1 s $end\n$scope module sheet $end\n" VARS "$upscope $end\n$enddefinitions $end\n"
static const char DUMP[] = DUMP_HEAD "#0\nx!\nx\"\nx#\n#3\n1!\n#6\n1\"\n#7\nx!\nx\"\n#8\n1#\n#9\nx#\n";
static const char SETTLED[] = "at=3\nsignal=clear2\nvalue=1\nat=4\nsignal=clear2\nvalue=1\nat=5\nsignal=clear2\nvalue=1\n"
                              "at=6\nsignal=clear2\nvalue=1\nat=6\nsignal=go10\nvalue=1\nat=8\nsignal=open10\nvalue=1\n";

static Written dumped(const char *sheet, const uint64_t *table, size_t words, size_t room) {
    Written found = before_writing();
    found.number = mikhakun_write_dump(bytes(sheet), strlen(sheet), table, words, out, room, &found.length, &found.place);
    return found;
}

static Written undumped(const char *sheet, const char *dump, size_t room) {
    Written found = before_writing();
    found.number = mikhakun_read_dump(bytes(sheet), strlen(sheet), bytes(dump), strlen(dump), out, room, &found.length, &found.place);
    return found;
}

/* The closed table as a dump, and the dump as readings, in room that is just enough and in all there is; refused with a byte less. */
static void dumped_there_and_back(const uint64_t *closed) {
    uint64_t empty[WORDS] = {0};
    has_written("a dump", dumped(SHEET, closed, WORDS, strlen(DUMP)), DUMP);
    has_written("a dump in all room", dumped(SHEET, closed, WORDS, MOST_ROOM), DUMP);
    has_written("the dump of no marks", dumped(SHEET, empty, WORDS, MOST_ROOM), DUMP_HEAD "#0\nx!\nx\"\nx#\n");
    has_refused("a dump and a byte too little", dumped(SHEET, closed, WORDS, strlen(DUMP) - 1), MIKHAKUN_NO_ROOM, 0);
    has_written("a dump read", undumped(SHEET, DUMP, strlen(SETTLED)), SETTLED);
    has_written("a dump read in all room", undumped(SHEET, DUMP, MOST_ROOM), SETTLED);
    has_written("a dump of nothing read", undumped(SHEET, DUMP_HEAD "#0\nx!\nz\"\nx#\n", 0), "");
    has_refused("a dump read and a byte too little", undumped(SHEET, DUMP, strlen(SETTLED) - 1), MIKHAKUN_NO_ROOM, 0);
    same("room for a dump", strlen(DUMP) <= mikhakun_dump_room(SIGNALS, 10), 1);
    same("room for its readings", strlen(SETTLED) <= mikhakun_dump_readings_room(SIGNALS, 10), 1);
}

/* Another timescale, z, signs said again, and times without a sign: the same readings. */
static void dumps_of_other_writers(void) {
    static const char again[] = "$timescale 100 ps $end\n$scope module sheet $end\n" VARS "$upscope $end\n$enddefinitions $end\n"
                                "#0\nz!\nz\"\nx#\n#1\n#3\n1!\n#6\n1!\n1\"\n#7\nz!\nz\"\nz#\n#8\n1#\n#9\nz!\nx#\n";
    has_written("a dump with z and signs said again", undumped(SHEET, again, MOST_ROOM), SETTLED);
    has_written("signs up to the window's end", undumped(SHEET, DUMP_HEAD "#0\nx!\nx\"\nx#\n#8\n0\"\n", MOST_ROOM), "at=8\nsignal=go10\nvalue=0\nat=9\nsignal=go10\nvalue=0\n");
}

/* A table of a wrong length, with a mark past the window, and with a clash in a signal's row and in the last row. */
static void refused_dumps(const uint64_t *closed) {
    uint64_t table[WORDS];
    static const char torn[] = "window=10\n";
    memcpy(table, closed, sizeof table);
    table[0] |= table[1] = (uint64_t)1 << 9;
    has_refused("the dump of a clash", dumped(SHEET, table, WORDS, 0), MIKHAKUN_CLASH, 0);
    table[1] |= (uint64_t)1 << 10;
    has_refused("the dump of a mark past the window", dumped(SHEET, table, WORDS, 0), MIKHAKUN_TABLE_MARK, 0);
    has_refused("the dump of a table too short", dumped(SHEET, table, WORDS - 1, 0), MIKHAKUN_TABLE_LENGTH, 0);
    has_refused("a dump by a torn sheet", dumped(torn, table, WORDS - 1, 0), MIKHAKUN_SHEET_LINE, strlen(torn));
    memcpy(table, closed, sizeof table);
    table[WORDS - 2] |= 1;
    table[WORDS - 1] |= 1;
    has_refused("the dump of a clash in the last row", dumped(SHEET, table, WORDS, MOST_ROOM), MIKHAKUN_CLASH, 0);
    has_refused("a dump read by a torn sheet", undumped(torn, "", 0), MIKHAKUN_SHEET_LINE, strlen(torn));
}

/* A dump's text, what number it is refused by, and before which part of it the place is. */
static void refused_dump_lines(void) {
    static const struct { const char *before, *rest; uint64_t number; } cases[] = {
        {"", "", MIKHAKUN_DUMP_LINE},
        {"", "$timescale 2 s $end\n", MIKHAKUN_DUMP_LINE},
        {"$timescale 1 s $end\n", "$date\n", MIKHAKUN_DUMP_LINE},
        {"$timescale 1 s $end\n$scope module sheet $end\n", "$var wire 1 \" clear2 $end\n", MIKHAKUN_DUMP_LINE},
        {"$timescale 1 s $end\n$scope module sheet $end\n", "$var wire 1 ! go10 $end\n", MIKHAKUN_DUMP_LINE},
        {"$timescale 1 s $end\n$scope module sheet $end\n", "$var wire 1 ! $end\n", MIKHAKUN_DUMP_LINE},
        {"$timescale 1 s $end\n$scope module sheet $end\n$var wire 1 ! ", "clear02 $end\n", MIKHAKUN_UNKNOWN_NAME},
        {"$timescale 1 s $end\n$scope module sheet $end\n$var wire 1 ! ", " $end\n", MIKHAKUN_UNKNOWN_NAME},
        {DUMP_HEAD, "#1\n", MIKHAKUN_DUMP_LINE},
        {DUMP_HEAD "#0\n", "#1\n", MIKHAKUN_DUMP_LINE},
        {DUMP_HEAD "#0\nx!\n", "x#\n", MIKHAKUN_DUMP_LINE},
        {DUMP_HEAD "#0\nx!\nx\"\n", "", MIKHAKUN_DUMP_LINE},
        {DUMP_HEAD "#0\nx!\nx\"\n", "x#", MIKHAKUN_DUMP_LINE},
        {DUMP_HEAD "#0\nx!\nx\"\nx#\n", "1!\n", MIKHAKUN_DUMP_LINE},
        {DUMP_HEAD "#0\nx!\nx\"\nx#\n", "#0\n", MIKHAKUN_DUMP_LINE},
        {DUMP_HEAD "#0\nx!\nx\"\nx#\n", "#01\n", MIKHAKUN_DUMP_LINE},
        {DUMP_HEAD "#0\nx!\nx\"\nx#\n", "#100000\n", MIKHAKUN_DUMP_LINE},
        {DUMP_HEAD "#0\nx!\nx\"\nx#\n#", "10\n", MIKHAKUN_OUTSIDE_WINDOW},
        {DUMP_HEAD "#0\nx!\nx\"\nx#\n#", "99999\n", MIKHAKUN_OUTSIDE_WINDOW},
        {DUMP_HEAD "#0\nx!\nx\"\nx#\n#5\n1\"\n", "1!\n", MIKHAKUN_DUMP_LINE},
        {DUMP_HEAD "#0\nx!\nx\"\nx#\n#5\n1\"\n", "0\"\n", MIKHAKUN_DUMP_LINE},
        {DUMP_HEAD "#0\nx!\nx\"\nx#\n#5\n", "1$\n", MIKHAKUN_DUMP_LINE},
        {DUMP_HEAD "#0\nx!\nx\"\nx#\n#5\n", "\n", MIKHAKUN_DUMP_LINE},
    };
    for (size_t i = 0; i < sizeof cases / sizeof *cases; i++) {
        char dump[sizeof DUMP + 50];
        strcat(strcpy(dump, cases[i].before), cases[i].rest);
        has_refused(dump, undumped(SHEET, dump, MOST_ROOM), cases[i].number, strlen(cases[i].before));
    }
}

/* What a call of caption answers. */
typedef struct {
    uint64_t number, in_captions, start, length, place;
} Shown;

static Shown shown(const char *sheet, const char *captions, uint64_t signal) {
    Shown found = {0, UNWRITTEN, UNWRITTEN, UNWRITTEN, UNWRITTEN};
    found.number = mikhakun_caption(bytes(sheet), strlen(sheet), bytes(captions), strlen(captions), signal, &found.in_captions, &found.start, &found.length, &found.place);
    return found;
}

/* The signal is shown by these words, which stand at `start` in the captions or in the sheet; the place stays. */
static void shows(const char *captions, uint64_t signal, uint64_t in_captions, uint64_t start, const char *words) {
    Shown found = shown(SHEET, captions, signal);
    same(captions, found.number, 0);
    same("the text of a part", found.in_captions, in_captions);
    same("the start of a part", found.start, start);
    same("the length of a part", found.length, strlen(words));
    same("the words of a part", (uint64_t)memcmp((in_captions ? captions : SHEET) + start, words, strlen(words)), 0);
    same("place after a caption", found.place, UNWRITTEN);
}

/* Whichever signal is asked for, also one that there is not, caption is refused by this number at this place, and shows no part. */
static void shows_nothing(const char *sheet, const char *captions, uint64_t number, uint64_t at) {
    static const uint64_t signals[] = {0, SIGNALS - 1, SIGNALS, UINT64_MAX};
    for (size_t i = 0; i < sizeof signals / sizeof *signals; i++) {
        Shown found = shown(sheet, captions, signals[i]);
        same(captions, found.number, number);
        same("place of refused captions", found.place, at);
        same("text of refused captions", found.in_captions, UNWRITTEN);
        same("start of refused captions", found.start, UNWRITTEN);
        same("length of refused captions", found.length, UNWRITTEN);
    }
}

/* Captions, a signal, and what is shown of it: whether it is in the captions, where it starts, and the words. */
static void captions_shown(void) {
    static const struct { const char *captions; uint64_t signal, in_captions, start; const char *words; } cases[] = {
        {"", 0, 0, 27, "clear2"},
        {"", 1, 0, 41, "go10"},
        {"", 2, 0, 53, "open10"},
        {"clear2=North aisle\n", 0, 1, 7, "North aisle"},
        {"clear2=North aisle\n", 1, 0, 41, "go10"},
        {"open10=Maps\ngo10=Drive M10 = on\n", 0, 0, 27, "clear2"},
        {"open10=Maps\ngo10=Drive M10 = on\n", 1, 1, 17, "Drive M10 = on"},
        {"open10=Maps\ngo10=Drive M10 = on\n", 2, 1, 7, "Maps"},
        {"open10==\nclear2= \ngo10=~\n", 0, 1, 16, " "},
        {"open10==\nclear2= \ngo10=~\n", 1, 1, 23, "~"},
        {"open10==\nclear2= \ngo10=~\n", 2, 1, 7, "="},
        {"go10=clear2\n", 0, 0, 27, "clear2"},
        {"go10=clear2\n", 1, 1, 5, "clear2"},
    };
    for (size_t i = 0; i < sizeof cases / sizeof *cases; i++)
        shows(cases[i].captions, cases[i].signal, cases[i].in_captions, cases[i].start, cases[i].words);
}

/* A caption may have 40 bytes, and no more. */
static void longest_caption(void) {
    char words[MIKHAKUN_CAPTION_BYTES + 2] = {0}, captions[80];
    memset(words, 'x', MIKHAKUN_CAPTION_BYTES);
    sprintf(captions, "go10=Go\nopen10=%s\n", words);
    shows(captions, 2, 1, strlen("go10=Go\nopen10="), words);
    words[MIKHAKUN_CAPTION_BYTES] = 'x';
    sprintf(captions, "go10=Go\nopen10=%s\n", words);
    shows_nothing(SHEET, captions, MIKHAKUN_CAPTION_LINE, strlen("go10=Go\n"));
}

/* Captions, the first lines of which are accepted, and what number they are refused by at the line that follows. */
static void refused_caption_lines(void) {
    static const struct { const char *before, *rest; uint64_t number; } cases[] = {
        {"", "\n", MIKHAKUN_CAPTION_LINE},
        {"", "clear2\n", MIKHAKUN_CAPTION_LINE},
        {"", "clear2=\n", MIKHAKUN_CAPTION_LINE},
        {"", "clear2=North", MIKHAKUN_CAPTION_LINE},
        {"", "clear2=North\r\n", MIKHAKUN_CAPTION_LINE},
        {"", "clear2=\x1f\n", MIKHAKUN_CAPTION_LINE},
        {"", "clear2=\x7f\n", MIKHAKUN_CAPTION_LINE},
        {"", "clear2=\xc8\n", MIKHAKUN_CAPTION_LINE},
        {"", "=\n", MIKHAKUN_CAPTION_LINE},
        {"", "aisle2=\n", MIKHAKUN_CAPTION_LINE},
        {"", "=North\n", MIKHAKUN_UNKNOWN_NAME},
        {"", "aisle2=North\n", MIKHAKUN_UNKNOWN_NAME},
        {"", "clear02=North\n", MIKHAKUN_UNKNOWN_NAME},
        {"", "clear2 =North\n", MIKHAKUN_UNKNOWN_NAME},
        {"", "aisle2=North\nclear2\n", MIKHAKUN_UNKNOWN_NAME},
        {"clear2=North\n", "\n", MIKHAKUN_CAPTION_LINE},
        {"clear2=North\n", "go10=Go", MIKHAKUN_CAPTION_LINE},
        {"clear2=North\n", "clear2=North\n", MIKHAKUN_CAPTION_LINE},
        {"clear2=North\ngo10=Go\n", "clear2=South\naisle2=South\n", MIKHAKUN_CAPTION_LINE},
        {"clear2=North\ngo10=Go\n", "aisle2=South\nclear2=South\n", MIKHAKUN_UNKNOWN_NAME},
    };
    for (size_t i = 0; i < sizeof cases / sizeof *cases; i++) {
        char captions[80];
        strcat(strcpy(captions, cases[i].before), cases[i].rest);
        same(captions, shown(SHEET, cases[i].before, 0).number, 0);
        shows_nothing(SHEET, captions, cases[i].number, strlen(cases[i].before));
    }
}

/* The sheet's refusal comes before the captions', and that of the signal's number last. */
static void refused_captions(void) {
    static const char torn[] = "window=10\n";
    static const uint64_t none[] = {SIGNALS, SIGNALS + 1, UINT64_MAX};
    shows_nothing(torn, "", MIKHAKUN_SHEET_LINE, strlen(torn));
    shows_nothing(torn, "clear2", MIKHAKUN_SHEET_LINE, strlen(torn));
    for (size_t i = 0; i < sizeof none / sizeof *none; i++) {
        Shown found = shown(SHEET, "clear2=North\n", none[i]);
        same("the caption of no signal", found.number, MIKHAKUN_NO_SUCH_CELL);
        same("place of no signal", found.place, 0);
        same("text of no signal", found.in_captions, UNWRITTEN);
        same("start of no signal", found.start, UNWRITTEN);
        same("length of no signal", found.length, UNWRITTEN);
    }
}

/* A sheet of such a window whose rule carries a mark of a to b a tick later, or one of b back, and its empty table. */
typedef struct {
    char text[80];
    uint64_t window, row_words, rows, words, *table;
} Wide;

static Wide wide_sheet(uint64_t window) {
    Wide wide = {.window = window, .row_words = (window + 63) / 64, .rows = UNWRITTEN};
    uint64_t place = UNWRITTEN;
    sprintf(wide.text, "window=%llu\nsignals=2\nsignal=a\nsignal=b\nrules=1\nrule=a=>b@[1,1]\n", (unsigned long long)window);
    same("check of a wide window", mikhakun_check(bytes(wide.text), strlen(wide.text), &wide.rows, &place), 0);
    same("the window in the sheet", mikhakun_window(bytes(wide.text)), window);
    wide.words = mikhakun_words(wide.rows, window);
    same("words of a table", wide.words, 2 * 5 * wide.row_words);
    wide.table = calloc(wide.words, sizeof *wide.table);
    if (wide.table == NULL)
        exit(2);
    return wide;
}

/* Adds a reading to the empty table: it gives one fact more, of row `row` in the words of `value`, at `tick`. */
static void carries(Wide *wide, const char *reading, uint64_t row, uint64_t value, uint64_t tick) {
    uint64_t fresh = UNWRITTEN, clash = UNWRITTEN, found = UNWRITTEN, place = UNWRITTEN;
    memset(wide->table, 0, wide->words * sizeof *wide->table);
    same("add to a wide table", mikhakun_add(bytes(wide->text), strlen(wide->text), bytes(reading), strlen(reading), wide->table, wide->words, &fresh, &clash, &place), 0);
    same("facts over a border", fresh, 2);
    same("clash over a border", clash, 0);
    uint64_t block = 2 * row + (value == MIKHAKUN_FALSE);
    same("the word over a border", wide->table[block * wide->row_words + tick / 64], (uint64_t)1 << tick % 64);
    same("ask over a border", mikhakun_ask(bytes(wide->text), strlen(wide->text), wide->table, wide->words, row, tick, &found, &place), 0);
    same("value over a border", found, value);
    same("place over a border", place, UNWRITTEN);
}

/* Add and ask refuse a table of this length by this number, and it keeps every word. */
static void table_refused(Wide *wide, uint64_t words, uint64_t number) {
    uint64_t fresh = UNWRITTEN, clash = UNWRITTEN, value = UNWRITTEN, place = UNWRITTEN;
    uint64_t *before = malloc(wide->words * sizeof *before);
    if (before == NULL)
        exit(2);
    memcpy(before, wide->table, wide->words * sizeof *before);
    same("add to a wrong table", mikhakun_add(bytes(wide->text), strlen(wide->text), bytes(""), 0, wide->table, words, &fresh, &clash, &place), number);
    same("ask a wrong table", mikhakun_ask(bytes(wide->text), strlen(wide->text), wide->table, words, 0, 0, &value, &place), number);
    same("place of a wrong table", place, 0);
    same("wrong table unchanged", (uint64_t)memcmp(before, wide->table, wide->words * sizeof *before), 0);
    free(before);
}

/* The mark of b at tick 64, after that of a at 63, in a dump, and read back. */
static void dumped_over_a_border(const Wide *wide) {
    static const char dump[] = "$timescale 1 s $end\n$scope module sheet $end\n$var wire 1 ! a $end\n$var wire 1 \" b $end\n$upscope $end\n$enddefinitions $end\n"
                               "#0\nx!\nx\"\n#63\n1!\n#64\nx!\n1\"\n#65\nx\"\n";
    char wanted[sizeof dump];
    strcpy(wanted, dump);
    if (wide->window == 65)
        wanted[strlen(dump) - strlen("#65\nx\"\n")] = '\0';
    has_written("a dump over a border", dumped(wide->text, wide->table, wide->words, MOST_ROOM), wanted);
    has_written("a dump over a border, read", undumped(wide->text, wanted, MOST_ROOM), "at=63\nsignal=a\nvalue=1\nat=64\nsignal=b\nvalue=1\n");
}

/* Marks over the first border of words, forward and back; a table as long as a narrow window's; a mark just past the window in a row's last false word. */
static void wide_window(uint64_t window) {
    Wide wide = wide_sheet(window);
    carries(&wide, "at=63\nsignal=a\nvalue=1\n", 1, MIKHAKUN_TRUE, 64);
    dumped_over_a_border(&wide);
    carries(&wide, "at=64\nsignal=b\nvalue=0\n", 0, MIKHAKUN_FALSE, 63);
    table_refused(&wide, 2 * wide.rows, MIKHAKUN_TABLE_LENGTH);
    if (window % 64 != 0) {
        wide.table[2 * 3 * wide.row_words - 1] |= (uint64_t)1 << window % 64;
        table_refused(&wide, wide.words, MIKHAKUN_TABLE_MARK);
    }
    free(wide.table);
}

/* The window after the widest is refused at its number. */
static void too_wide(void) {
    static const char sheet[] = "window=4097\nsignals=1\nsignal=a\nrules=0\n";
    uint64_t rows = UNWRITTEN, place = UNWRITTEN;
    same("check of too wide a window", mikhakun_check(bytes(sheet), strlen(sheet), &rows, &place), MIKHAKUN_OUT_OF_RANGE);
    same("rows of too wide a window", rows, UNWRITTEN);
    same("place of too wide a window", place, strlen("window="));
}

/* Checks a sheet of one signal and one rule: the answer. A refusal writes the place `at` alone, acceptance the row count alone. */
static uint64_t check_names(const char *signal, const char *rule, uint64_t at) {
    char sheet[80];
    uint64_t rows = UNWRITTEN, place = UNWRITTEN;
    sprintf(sheet, "window=1\nsignals=1\nsignal=%s\nrules=1\nrule=%s\n", signal, rule);
    uint64_t number = mikhakun_check(bytes(sheet), strlen(sheet), &rows, &place);
    same(signal, rows, number == 0 ? 1 : UNWRITTEN);
    same(rule, place, number == 0 ? UNWRITTEN : at);
    return number;
}

/* A number at a name's end: without a leading zero and up to 9,999, or refused in a signal line, in a rule and in readings. */
static void end_numbers(void) {
    static const char *const right[] = {"a0", "a10", "a9999", "x1y2", "a02b"}, *const wrong[] = {"a00", "aisle02", "a10000", "x1y02"};
    static const char zero[] = "at=0\nsignal=clear02\nvalue=1\n";
    uint64_t table[30] = {0}, fresh = UNWRITTEN, clash = UNWRITTEN, place = UNWRITTEN;
    for (size_t i = 0; i < sizeof right / sizeof *right; i++)
        same(right[i], check_names(right[i], right[i], UNWRITTEN), 0);
    for (size_t i = 0; i < sizeof wrong / sizeof *wrong; i++) {
        same(wrong[i], check_names(wrong[i], wrong[i], strlen("window=1\nsignals=1\nsignal=")), MIKHAKUN_SIGNAL_NAME);
        same(wrong[i], check_names("a", wrong[i], strlen("window=1\nsignals=1\nsignal=a\nrules=1\nrule=")), MIKHAKUN_NOT_DECLARED);
    }
    same("add of clear02", mikhakun_add(bytes(SHEET), strlen(SHEET), bytes(zero), strlen(zero), table, 30, &fresh, &clash, &place), MIKHAKUN_UNKNOWN_NAME);
    same("place of clear02", place, strlen("at=0\nsignal="));
}

int main(void) {
    static const uint64_t windows[] = {65, 127, 128, 129, 192, 1440, 4095, 4096};
    uint64_t *table = calloc(30, sizeof *table);
    if (table == NULL)
        return 2;
    check_accepts();
    check_refuses();
    add_and_ask(table);
    refusals_keep_the_table(table);
    add_spans(table);
    moved_there_and_back();
    refused_moves();
    figures_of_texts(table);
    figures_in_order();
    refused_figures();
    rules_printed();
    longest_printed();
    refused_prints();
    dumped_there_and_back(table);
    dumps_of_other_writers();
    refused_dumps(table);
    refused_dump_lines();
    captions_shown();
    longest_caption();
    refused_caption_lines();
    refused_captions();
    clash_is_told(table);
    free(table);
    for (size_t i = 0; i < sizeof windows / sizeof *windows; i++)
        wide_window(windows[i]);
    too_wide();
    end_numbers();
    printf("%d passed, %d failed\n", passed, failed);
    return failed != 0;
}
