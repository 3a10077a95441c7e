// A plugin of qemu's user emulator that counts the instructions that a program executes, and writes the count so far whenever the program asks for
// its process number. Debian has no package with the plugin's header, so what is used of it is declared here; -DAPI is its version.
#include <inttypes.h>
#include <stddef.h>
#include <stdint.h>
#include <stdio.h>

typedef uint64_t plugin;
struct qemu_plugin_tb;
void qemu_plugin_register_vcpu_tb_trans_cb(plugin, void (*)(plugin, struct qemu_plugin_tb *));
size_t qemu_plugin_tb_n_insns(const struct qemu_plugin_tb *);
void qemu_plugin_register_vcpu_tb_exec_cb(struct qemu_plugin_tb *, void (*)(unsigned, void *), int, void *);
void qemu_plugin_register_vcpu_syscall_cb(plugin, void (*)(plugin, unsigned, int64_t, uint64_t, uint64_t, uint64_t, uint64_t, uint64_t, uint64_t, uint64_t, uint64_t));

int qemu_plugin_version = API;

static uint64_t count;

static void block_runs(unsigned cpu, void *instructions) {
    count += (uintptr_t)instructions;
}

static void block_made(plugin id, struct qemu_plugin_tb *block) {
    qemu_plugin_register_vcpu_tb_exec_cb(block, block_runs, 0, (void *)qemu_plugin_tb_n_insns(block));
}

static void system_call(plugin id, unsigned cpu, int64_t number, uint64_t a, uint64_t b, uint64_t c, uint64_t d, uint64_t e, uint64_t f, uint64_t g, uint64_t h) {
    const int64_t getpid = 39;
    if (number == getpid) fprintf(stderr, "at %" PRIu64 "\n", count);
}

int qemu_plugin_install(plugin id, const void *info, int argc, char **argv) {
    qemu_plugin_register_vcpu_tb_trans_cb(id, block_made);
    qemu_plugin_register_vcpu_syscall_cb(id, system_call);
    return 0;
}
