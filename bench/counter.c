/* A plugin of qemu that counts the instructions of the program it runs, and prints them to standard error at the end.
   The few names of its interface, version 1, are declared here, since no package has the header. */
#include <inttypes.h>
#include <stddef.h>
#include <stdio.h>

struct qemu_plugin_tb;
typedef void on_block(uint64_t plugin, struct qemu_plugin_tb *block);
typedef void on_end(uint64_t plugin, void *data);

size_t qemu_plugin_tb_n_insns(const struct qemu_plugin_tb *block);
void qemu_plugin_register_vcpu_tb_exec_inline(struct qemu_plugin_tb *block, int add, void *to, uint64_t number);
void qemu_plugin_register_vcpu_tb_trans_cb(uint64_t plugin, on_block *call);
void qemu_plugin_register_atexit_cb(uint64_t plugin, on_end *call, void *data);

int qemu_plugin_version = 1;

static uint64_t instructions;

static void block_made(uint64_t plugin, struct qemu_plugin_tb *block) {
    (void)plugin;
    qemu_plugin_register_vcpu_tb_exec_inline(block, 0, &instructions, qemu_plugin_tb_n_insns(block));
}

static void ended(uint64_t plugin, void *data) {
    (void)plugin;
    (void)data;
    fprintf(stderr, "%" PRIu64 "\n", instructions);
}

int qemu_plugin_install(uint64_t plugin, const void *info, int words, char **word) {
    (void)info;
    (void)words;
    (void)word;
    qemu_plugin_register_vcpu_tb_trans_cb(plugin, block_made);
    qemu_plugin_register_atexit_cb(plugin, ended, NULL);
    return 0;
}
