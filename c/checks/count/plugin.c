/* A plugin for qemu that prints how many instructions the program executed:
 *
 *     qemu-aarch64 -plugin plugin.so -d plugin -D FILE PROGRAM
 *
 * Debian has no header of qemu's plugin interface, so the used part of its version 1 is declared here. */
#include <stddef.h>
#include <stdint.h>
#include <stdio.h>

struct qemu_plugin_tb;
enum qemu_plugin_op { QEMU_PLUGIN_INLINE_ADD_U64 };
typedef void at_translation(uint64_t plugin, struct qemu_plugin_tb *block);
typedef void at_exit(uint64_t plugin, void *data);
void qemu_plugin_register_vcpu_tb_trans_cb(uint64_t plugin, at_translation *callback);
void qemu_plugin_register_vcpu_tb_exec_inline(struct qemu_plugin_tb *block, enum qemu_plugin_op operation,
                                              void *counter, uint64_t number);
void qemu_plugin_register_atexit_cb(uint64_t plugin, at_exit *callback, void *data);
size_t qemu_plugin_tb_n_insns(const struct qemu_plugin_tb *block);
void qemu_plugin_outs(const char *text);

int qemu_plugin_version = 1;
static uint64_t instructions;

/* Each run of a block adds its number of instructions. */
static void translated(uint64_t plugin, struct qemu_plugin_tb *block)
{
    (void)plugin;
    qemu_plugin_register_vcpu_tb_exec_inline(block, QEMU_PLUGIN_INLINE_ADD_U64, &instructions,
                                             qemu_plugin_tb_n_insns(block));
}

static void ended(uint64_t plugin, void *data)
{
    char text[40];
    (void)plugin, (void)data;
    snprintf(text, sizeof text, "instructions %llu\n", (unsigned long long)instructions);
    qemu_plugin_outs(text);
}

int qemu_plugin_install(uint64_t plugin, const void *information, int count, char **argv)
{
    (void)information, (void)count, (void)argv;
    qemu_plugin_register_vcpu_tb_trans_cb(plugin, translated);
    qemu_plugin_register_atexit_cb(plugin, ended, NULL);
    return 0;
}
