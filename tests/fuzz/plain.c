/* A plain fuzzer, for processors on which libFuzzer cannot run the library's code: it changes seeds without seeing what they reach.
 *
 * plain FOUND SECONDS SEED.. gives the calls the seeds as they are, and then changed ones for so long. An input that breaks a promise, crashes or
 * takes 5 seconds ends it and is written to the file FOUND. With 0 seconds and that file as the seed, a finding is tried again. */
#define _GNU_SOURCE
#include <fcntl.h>
#include <signal.h>
#include <stdint.h>
#include <stdio.h>
#include <stdlib.h>
#include <string.h>
#include <time.h>
#include <unistd.h>

int LLVMFuzzerTestOneInput(const uint8_t *data, size_t size);
size_t LLVMFuzzerCustomMutator(uint8_t *data, size_t size, size_t most, unsigned seed);
void tell_counts(FILE *to);

enum { LONGEST = 80000, HANGS_AFTER = 5 };
static uint8_t input[LONGEST];
static size_t length;
static const char *found;

/* At a signal that ends the program. */
static void keep_input(int number)
{
    (void)number;
    int file = open(found, O_WRONLY | O_CREAT | O_TRUNC, 0666);
    _exit(write(file, input, length) < 0 ? 2 : 1);
}

static void give_input(void)
{
    alarm(HANGS_AFTER);
    LLVMFuzzerTestOneInput(input, length);
}

static void read_seed(const char *name)
{
    FILE *file = fopen(name, "r");
    if (file == NULL) exit(2);
    length = fread(input, 1, LONGEST, file);
    fclose(file);
}

/* The next of numbers that are the same in each run (SplitMix64), below a bound. */
static size_t next_below(size_t bound)
{
    static uint64_t state = 1;
    uint64_t mixed = state += 0x9E3779B97F4A7C15;
    mixed = (mixed ^ mixed >> 30) * 0xBF58476D1CE4E5B9;
    mixed = (mixed ^ mixed >> 27) * 0x94D049BB133111EB;
    return (mixed ^ mixed >> 31) % bound;
}

/* In libFuzzer's place: other bytes, bytes taken away, or a word or a copy of bytes put in. */
size_t LLVMFuzzerMutate(uint8_t *data, size_t size, size_t most)
{
    static const char *words[] = { "since(", "until(", "=>", "<=>", "|", "&", "!", "(", ")", "@[", "?(", "[-1,1]", "[-63,63]", "a", "0", "1", "64", "\n",
                                   "rule=a\n", "signal=z\n", "at=0\nsignal=a\nvalue=1\n", "02", "9999", "10000", "signal=z9\n", "signal=z10\n",
                                   "from=0\nto=3\nsignal=a\nvalue=1\n", "from=", "to=", "from=2\nto=1\n", "(9,11)", "(-3,0)", "((a))", "#1\n", "#64\n", "#4095\n", "#100000\n",
                                   "0!\n", "1!\n", "x!\n", "z!\n", "1\"\n", "$var wire 1 ! a $end\n", " $end\n", "ms",
                                   "a=x\n", "a=North aisle\n", "a=\n", "=x\n", "=", "~", "\x7f", "\r\n", "1234567890123456789012345678901234567890" };
    char copy[64];
    size_t from = next_below(size + 1), some = next_below(sizeof copy), at = next_below(size + 1);
    if (some > size - from) some = size - from;
    if (next_below(4) == 0) {
        memmove(data + from, data + from + some, size - from - some);
        return size - some;
    }
    if (next_below(4) == 0) {
        for (size_t place = from; place < from + some; place++) data[place] = (uint8_t)next_below(next_below(2) ? 128 : 256);
        return size;
    }
    const char *put = words[next_below(sizeof words / sizeof *words)];
    if (next_below(2)) put = memcpy(copy, data + from, some);
    else some = strlen(put);
    if (size + some > most) return size;
    memmove(data + at + some, data + at, size - at);
    memcpy(data + at, put, some);
    return size + some;
}

int main(int count, char **words)
{
    static uint8_t signal_stack[1 << 16];
    stack_t stack = { .ss_sp = signal_stack, .ss_size = sizeof signal_stack };
    struct sigaction action = { .sa_handler = keep_input, .sa_flags = SA_ONSTACK };
    static const int ends[] = { SIGABRT, SIGALRM, SIGBUS, SIGFPE, SIGILL, SIGSEGV };
    if (count < 4 || sigaltstack(&stack, NULL) != 0) return 2;
    for (size_t at = 0; at < sizeof ends / sizeof *ends; at++) sigaction(ends[at], &action, NULL);
    found = words[1];
    for (int seed = 3; seed < count; seed++) {
        read_seed(words[seed]);
        give_input();
    }
    for (time_t end = time(NULL) + atol(words[2]); time(NULL) < end;) {
        read_seed(words[3 + next_below((size_t)count - 3)]);
        for (int changed = 0; changed < 100; changed++) {
            length = LLVMFuzzerCustomMutator(input, length, LONGEST, (unsigned)next_below((size_t)1 << 32));
            give_input();
            if (next_below(4) == 0) break;
        }
    }
    tell_counts(stdout);
}
