// A plugin for qemu-riscv32 that counts the instructions of a guest: at exit it writes their number to a file.
//
//     cc -shared -fPIC -O2 -D VERSION=1 -o count.so count.c
//     qemu-riscv32 -plugin count.so,out=FILE PROG
//
// Debian has no header for plugins, so what is used of qemu's interface (docs/devel/tcg-plugins.rst) is declared here. VERSION is that
// of the interface, 1 up to qemu 8.2; what is declared is the same in all. A guest that a signal ends has no exit, and no number.
#include <inttypes.h>
#include <stddef.h>
#include <stdint.h>
#include <stdio.h>
#include <string.h>

typedef uint64_t plugin;
struct qemu_plugin_tb;
struct qemu_plugin_insn;

void qemu_plugin_register_vcpu_tb_trans_cb(plugin self, void (*translated)(plugin, struct qemu_plugin_tb *));
size_t qemu_plugin_tb_n_insns(const struct qemu_plugin_tb *block);
struct qemu_plugin_insn *qemu_plugin_tb_get_insn(const struct qemu_plugin_tb *block, size_t index);
void qemu_plugin_register_vcpu_insn_exec_cb(struct qemu_plugin_insn *instruction, void (*executed)(unsigned, void *), int flags, void *data);
void qemu_plugin_register_atexit_cb(plugin self, void (*ended)(plugin, void *), void *data);

int qemu_plugin_version = VERSION;

static uint64_t instructions;
static FILE *out;

// An instruction is about to run.
static void count(unsigned processor, void *data) {
    (void)processor, (void)data;
    instructions++;
}

// A block was translated: each of its instructions is to be counted when it runs.
static void watch(plugin self, struct qemu_plugin_tb *block) {
    (void)self;
    for (size_t i = 0; i < qemu_plugin_tb_n_insns(block); i++)
        qemu_plugin_register_vcpu_insn_exec_cb(qemu_plugin_tb_get_insn(block, i), count, 0, NULL);
}

// The guest ended.
static void tell(plugin self, void *data) {
    (void)self, (void)data;
    fprintf(out, "%" PRIu64 "\n", instructions);
    fclose(out);
}

// Is called by qemu once, with the words behind the plugin's name; 0 says that all is well.
int qemu_plugin_install(plugin self, const void *about, int count_of_words, char **words) {
    (void)about;
    if (count_of_words != 1 || strncmp(words[0], "out=", 4) != 0) return 1;
    out = fopen(words[0] + 4, "w");
    if (out == NULL) return 1;
    qemu_plugin_register_vcpu_tb_trans_cb(self, watch);
    qemu_plugin_register_atexit_cb(self, tell, NULL);
    return 0;
}
