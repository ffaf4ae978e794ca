/* Tells libFuzzer which blocks of the library's machine code were reached. No compiler has counted them, so a breakpoint stands at the first byte of
 * each; the first run through a block takes its breakpoint away, after which the block costs nothing.
 *
 * The file named by FUZZ_BLOCKS has the addresses, one a line in hexadecimal and in order. x86-64 Linux only. */
#define _GNU_SOURCE
#include <signal.h>
#include <stdint.h>
#include <stdio.h>
#include <stdlib.h>
#include <sys/mman.h>
#include <ucontext.h>

enum { MOST = 1 << 14, PAGE = 4096, BREAKPOINT = 0xCC };
static uint8_t reached[MOST] __attribute__((section("__libfuzzer_extra_counters")));
static uint8_t *block[MOST], byte_of[MOST];
static size_t blocks, reached_in_all;

static void at_breakpoint(int number, siginfo_t *info, void *context)
{
    (void)number, (void)info;
    greg_t *next = &((ucontext_t *)context)->uc_mcontext.gregs[REG_RIP];
    uint8_t *at = (uint8_t *)*next - 1;
    size_t from = 0, to = blocks;
    while (to - from > 1) {
        size_t middle = from + (to - from) / 2;
        if (block[middle] <= at) from = middle;
        else to = middle;
    }
    if (blocks == 0 || block[from] != at) abort();
    *at = byte_of[from];
    *next = (greg_t)at;
    reached[from] = 1;
    reached_in_all++;
}

void tell_counts(FILE *to);

static void tell(void)
{
    tell_counts(stderr);
    fprintf(stderr, "blocks reached: %zu of %zu\n", reached_in_all, blocks);
}

static void set_breakpoints(void)
{
    uintptr_t first = (uintptr_t)block[0] / PAGE * PAGE, last = (uintptr_t)block[blocks - 1];
    if (mprotect((void *)first, last + 1 - first, PROT_READ | PROT_WRITE | PROT_EXEC) != 0) exit(2);
    for (size_t at = 0; at < blocks; at++) {
        byte_of[at] = *block[at];
        *block[at] = BREAKPOINT;
    }
}

int LLVMFuzzerInitialize(int *argc, char ***argv)
{
    (void)argc, (void)argv;
    static uint8_t signal_stack[1 << 16];
    stack_t stack = { .ss_sp = signal_stack, .ss_size = sizeof signal_stack };
    struct sigaction action = { .sa_sigaction = at_breakpoint, .sa_flags = SA_SIGINFO | SA_ONSTACK };
    FILE *file = fopen(getenv("FUZZ_BLOCKS"), "r");
    unsigned long address;
    while (blocks < MOST && fscanf(file, "%lx", &address) == 1) block[blocks++] = (uint8_t *)address;
    fclose(file);
    if (blocks == 0 || sigaltstack(&stack, NULL) != 0 || sigaction(SIGTRAP, &action, NULL) != 0) exit(2);
    set_breakpoints();
    atexit(tell);
    return 0;
}
