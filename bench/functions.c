// A plug-in for QEMU's user-mode emulator: counts the instructions that a program executes by the function that they are in, and writes a line 'COUNT NAME'
// for each function to standard error at its end. What is not in the program's own list of functions, as the C library is not, counts as 'elsewhere'.
// The few declarations of QEMU's plug-in interface that it needs are here, since Debian's package has no header for them.
#include <stddef.h>
#include <stdint.h>
#include <stdio.h>
#include <stdlib.h>
#include <string.h>

typedef uint64_t qemu_plugin_id_t;
struct qemu_plugin_tb;
struct qemu_plugin_insn;
typedef void (*translated_cb)(qemu_plugin_id_t, struct qemu_plugin_tb *);
typedef void (*executed_cb)(unsigned int cpu, void *user);
typedef void (*ended_cb)(qemu_plugin_id_t, void *user);
void qemu_plugin_register_vcpu_tb_trans_cb(qemu_plugin_id_t, translated_cb);
void qemu_plugin_register_vcpu_tb_exec_cb(struct qemu_plugin_tb *, executed_cb, int flags, void *user);
void qemu_plugin_register_atexit_cb(qemu_plugin_id_t, ended_cb, void *user);
size_t qemu_plugin_tb_n_insns(const struct qemu_plugin_tb *);
struct qemu_plugin_insn *qemu_plugin_tb_get_insn(const struct qemu_plugin_tb *, size_t index);
const char *qemu_plugin_insn_symbol(const struct qemu_plugin_insn *);

// The interface's version: 1 up to QEMU 8, 2 from QEMU 9 on.
int qemu_plugin_version = INTERFACE;

// A function, and those before it in the list.
struct function {
    char *name;
    uint64_t count;
    struct function *before;
};

// A block of instructions: how many it has, and the function that they are in.
struct block {
    uint64_t instructions;
    struct function *function;
};

static struct function *functions;

static struct function *function_of(const char *name)
{
    for (struct function *f = functions; f; f = f->before)
        if (!strcmp(f->name, name))
            return f;
    struct function *f = malloc(sizeof *f);
    *f = (struct function){strdup(name), 0, functions};
    return functions = f;
}

static void executed(unsigned int cpu, void *ran)
{
    (void)cpu;
    const struct block *block = ran;
    block->function->count += block->instructions;
}

static void translated(qemu_plugin_id_t id, struct qemu_plugin_tb *tb)
{
    (void)id;
    const char *name = qemu_plugin_insn_symbol(qemu_plugin_tb_get_insn(tb, 0));
    struct block *block = malloc(sizeof *block);
    *block = (struct block){qemu_plugin_tb_n_insns(tb), function_of(name && *name ? name : "elsewhere")};
    qemu_plugin_register_vcpu_tb_exec_cb(tb, executed, 0, block);
}

static void ended(qemu_plugin_id_t id, void *unused)
{
    (void)id;
    (void)unused;
    for (struct function *f = functions; f; f = f->before)
        fprintf(stderr, "%llu %s\n", (unsigned long long)f->count, f->name);
}

int qemu_plugin_install(qemu_plugin_id_t id, const void *info, int argc, char **argv)
{
    (void)info;
    (void)argc;
    (void)argv;
    qemu_plugin_register_vcpu_tb_trans_cb(id, translated);
    qemu_plugin_register_atexit_cb(id, ended, NULL);
    return 0;
}
