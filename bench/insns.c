// A plug-in for QEMU's user-mode emulator: counts the instructions that a program executes, and writes 'insns=N' to standard error at its end.
// The few declarations of QEMU's plug-in interface that it needs are here, since Debian's package has no header for them.
#include <stddef.h>
#include <stdint.h>
#include <stdio.h>

typedef uint64_t qemu_plugin_id_t;
struct qemu_plugin_tb;
typedef void (*translated_cb)(qemu_plugin_id_t, struct qemu_plugin_tb *);
typedef void (*executed_cb)(unsigned int cpu, void *user);
typedef void (*ended_cb)(qemu_plugin_id_t, void *user);
void qemu_plugin_register_vcpu_tb_trans_cb(qemu_plugin_id_t, translated_cb);
void qemu_plugin_register_vcpu_tb_exec_cb(struct qemu_plugin_tb *, executed_cb, int flags, void *user);
void qemu_plugin_register_atexit_cb(qemu_plugin_id_t, ended_cb, void *user);
size_t qemu_plugin_tb_n_insns(const struct qemu_plugin_tb *);

// The interface's version: 1 up to QEMU 8, 2 from QEMU 9 on.
int qemu_plugin_version = INTERFACE;

static uint64_t count;

// A block of instructions ran, and had so many.
static void executed(unsigned int cpu, void *instructions)
{
    (void)cpu;
    count += (uintptr_t)instructions;
}

static void translated(qemu_plugin_id_t id, struct qemu_plugin_tb *block)
{
    (void)id;
    qemu_plugin_register_vcpu_tb_exec_cb(block, executed, 0, (void *)(uintptr_t)qemu_plugin_tb_n_insns(block));
}

static void ended(qemu_plugin_id_t id, void *unused)
{
    (void)id;
    (void)unused;
    fprintf(stderr, "insns=%llu\n", (unsigned long long)count);
}

int qemu_plugin_install(qemu_plugin_id_t id, const void *info, int argc, char **argv)
{
    (void)info;
    (void)argc;
    (void)argv;
    qemu_plugin_register_vcpu_tb_trans_cb(id, translated);
    qemu_plugin_register_atexit_cb(id, ended, NULL);
    return 0;
}
