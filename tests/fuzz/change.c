/* How libFuzzer changes an input (see calls.c for its form). Changed at any byte, most sheets are refused in their first lines; so most changes are
 * to one line, or to what follows the sheet, and the numbers of signals and rules are then made to fit the lines. Some give the readings their other form,
 * and some put parentheses round a part of a rule. */
#include <stdint.h>
#include <stdio.h>
#include <string.h>

size_t LLVMFuzzerMutate(uint8_t *data, size_t size, size_t most);

/* Right numbers can make an input longer, but not to twice its length; another form, not to three times. */
enum { LONGEST = 1 << 17 };
static char changed[3 * LONGEST];

/* Where the text at `from` ends: at the next zero byte. */
static size_t text_end(const char *text, size_t from, size_t size)
{
    const char *zero = from == size ? NULL : memchr(text + from, 0, size - from);
    return zero == NULL ? size : (size_t)(zero - text);
}

/* Where the line at `from` ends: after its LF, or at `end`. */
static size_t line_end(const char *text, size_t from, size_t end)
{
    const char *lf = memchr(text + from, '\n', end - from);
    return lf == NULL ? end : (size_t)(lf - text) + 1;
}

static int starts(const char *text, size_t from, size_t end, const char *key)
{
    return end - from >= strlen(key) && memcmp(text + from, key, strlen(key)) == 0;
}

static unsigned lines_with(const char *text, size_t end, const char *key)
{
    unsigned count = 0;
    for (size_t from = 0; from < end; from = line_end(text, from, end)) count += (unsigned)starts(text, from, end, key);
    return count;
}

/* Copies the input with the right numbers in the lines `signals=` and `rules=`; answers its new length. */
static size_t with_right_numbers(const char *text, size_t size)
{
    size_t end = text_end(text, 0, size), length = 0, next;
    unsigned signals = lines_with(text, end, "signal="), rules = lines_with(text, end, "rule=");
    for (size_t from = 0; from < end; from = next) {
        next = line_end(text, from, end);
        if (starts(text, from, end, "signals=")) {
            length += (size_t)sprintf(changed + length, "signals=%u\n", signals);
        } else if (starts(text, from, end, "rules=")) {
            length += (size_t)sprintf(changed + length, "rules=%u\n", rules);
        } else {
            memcpy(changed + length, text + from, next - from);
            length += next - from;
        }
    }
    memcpy(changed + length, text + end, size - end);
    return length + size - end;
}

/* Puts bytes behind those of the changed input; answers its new length. */
static size_t put(size_t length, const char *bytes, size_t count)
{
    memcpy(changed + length, bytes, count);
    return length + count;
}

/* Copies the input with the readings in their other form, line by line: spans of one tick, or readings of the first ticks. Answers its new length. */
static size_t in_the_other_form(const char *text, size_t size)
{
    size_t from = text_end(text, 0, size), next;
    from += from < size;
    size_t end = text_end(text, from, size), length = put(0, text, from);
    for (; from < end; from = next) {
        next = line_end(text, from, end);
        if (starts(text, from, end, "at=")) {
            length = put(length, "from=", strlen("from="));
            length = put(length, text + from + strlen("at="), next - from - strlen("at="));
            length = put(length, "to=", strlen("to="));
            length = put(length, text + from + strlen("at="), next - from - strlen("at="));
        } else if (starts(text, from, end, "from=")) {
            length = put(length, "at=", strlen("at="));
            length = put(length, text + from + strlen("from="), next - from - strlen("from="));
        } else if (!starts(text, from, end, "to=")) {
            length = put(length, text + from, next - from);
        }
    }
    return put(length, text + end, size - end);
}

static int in_name(char byte) { return (byte >= 'a' && byte <= 'z') || (byte >= '0' && byte <= '9'); }

/* Can a part of a rule start at this byte, which is not the first? Its key cannot, nor an interval or one of its ends. */
static int starts_part(const char *text, size_t at)
{
    char byte = text[at], before = text[at - 1];
    return (byte == '!' || byte == '(' || (byte >= 'a' && byte <= 'z')) && !in_name(before) && before != '@' && before != '?' && before != '\n';
}

/* Does a part of a rule end with this byte: a closing bracket, or the last of a name that no `(` follows? */
static int ends_part(const char *text, size_t at, size_t end)
{
    char after = at + 1 < end ? text[at + 1] : '\n';
    return text[at] == ')' || text[at] == ']' || (in_name(text[at]) && !in_name(after) && after != '(');
}

/* Where the part of a rule that starts at `from` ends: at the first place for that where no bracket is open, or so many places later. */
static size_t part_end(const char *text, size_t from, size_t end, unsigned later)
{
    size_t found = from;
    int open = 0;
    for (size_t at = from; at < end && text[at] != '\n'; at++) {
        open += (text[at] == '(' || text[at] == '[') - (text[at] == ')' || text[at] == ']');
        if (open < 0) break;
        if (open > 0 || !ends_part(text, at, end)) continue;
        found = at + 1;
        if (later-- == 0) break;
    }
    return found;
}

/* Copies the input with parentheses round a part of a rule, the first from the byte `chosen` of the rules on; answers its new length. */
static size_t with_parentheses(const char *text, size_t size, size_t chosen, unsigned later)
{
    size_t end = text_end(text, 0, size), from = 0;
    while (from < end && !starts(text, from, end, "rule=")) from = line_end(text, from, end);
    if (from < end) from += 1 + chosen % (end - from);
    while (from < end && !starts_part(text, from)) from++;
    size_t to = part_end(text, from, end, later), length = put(0, text, from);
    if (to > from) length = put(length, "(", 1);
    length = put(length, text + from, to - from);
    if (to > from) length = put(length, ")", 1);
    return put(length, text + to, size - to);
}

/* Takes the changed input, cut to what there is room for. */
static size_t take_changed(uint8_t *data, size_t size, size_t most)
{
    if (size > most) size = most;
    memcpy(data, changed, size);
    return size;
}

/* Changes the bytes from `from` to `to` alone; answers the input's new length. */
static size_t change(uint8_t *data, size_t size, size_t most, size_t from, size_t to)
{
    size_t after = size - to;
    memcpy(changed, data + from, to - from);
    size_t length = LLVMFuzzerMutate((uint8_t *)changed, to - from, most - from - after);
    memmove(data + from + length, data + to, after);
    memcpy(data + from, changed, length);
    return from + length + after;
}

/* Changes the line with the byte `chosen` of those from `from` to `end`, which there are. */
static size_t change_line(uint8_t *data, size_t size, size_t most, size_t from, size_t end, size_t chosen)
{
    size_t to = from;
    for (chosen = from + chosen % (end - from); to <= chosen; to = line_end((char *)data, to, end)) from = to;
    return change(data, size, most, from, to);
}

/* Changes a line of the sheet, a line of the readings, all that follows the sheet, or anything. */
static size_t change_some(uint8_t *data, size_t size, size_t most, unsigned seed)
{
    size_t end = text_end((char *)data, 0, size), next = end + (end < size), readings_end = text_end((char *)data, next, size);
    if (seed % 8 >= 4 && end > 0) return change_line(data, size, most, 0, end, seed / 1024);
    if (seed % 8 >= 2 && readings_end > next && seed / 32 % 2) return change_line(data, size, most, next, readings_end, seed / 1024);
    return change(data, size, most, seed % 8 >= 2 ? end : 0, size);
}

size_t LLVMFuzzerCustomMutator(uint8_t *data, size_t size, size_t most, unsigned seed)
{
    if (size == 0 || most > LONGEST) return LLVMFuzzerMutate(data, size, most);
    if (seed / 64 % 16 == 0) return take_changed(data, in_the_other_form((char *)data, size), most);
    if (seed / 64 % 16 == 1) return take_changed(data, with_parentheses((char *)data, size, seed / 1024, seed % 4), most);
    size = change_some(data, size, most, seed);
    if (seed / 8 % 4 == 0) return size;
    return take_changed(data, with_right_numbers((char *)data, size), most);
}
