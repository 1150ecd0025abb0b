/* Counts the instructions of an emulated program, as a plugin of qemu-user: the same program on the same input gives the same count.
   The few declarations that it needs stand here, since Debian's qemu-user comes without their header. */
#include <stddef.h>
#include <stdint.h>
#include <stdio.h>

struct qemu_plugin_tb;
struct qemu_plugin_insn;
typedef void (*on_block)(uint64_t, struct qemu_plugin_tb *);
typedef void (*on_exit)(uint64_t, void *);
void qemu_plugin_register_vcpu_tb_trans_cb(uint64_t, on_block);
void qemu_plugin_register_vcpu_insn_exec_inline(struct qemu_plugin_insn *, int, void *, uint64_t);
size_t qemu_plugin_tb_n_insns(const struct qemu_plugin_tb *);
struct qemu_plugin_insn *qemu_plugin_tb_get_insn(const struct qemu_plugin_tb *, size_t);
void qemu_plugin_register_atexit_cb(uint64_t, on_exit, void *);

#define EXPORT __attribute__((visibility("default")))
enum { ADD = 0 };

EXPORT int qemu_plugin_version = 1;
static uint64_t count;

/* One by one: a block's length has an instruction too many where the block was cut short at the end of a page. */
static void block(uint64_t id, struct qemu_plugin_tb *tb)
{
    (void)id;
    for (size_t i = 0; i < qemu_plugin_tb_n_insns(tb); i++)
        qemu_plugin_register_vcpu_insn_exec_inline(qemu_plugin_tb_get_insn(tb, i), ADD, &count, 1);
}

static void at_exit(uint64_t id, void *data)
{
    (void)id, (void)data;
    fprintf(stderr, "%llu\n", (unsigned long long)count);
}

EXPORT int qemu_plugin_install(uint64_t id, const void *info, int argc, char **argv)
{
    (void)info, (void)argc, (void)argv;
    qemu_plugin_register_vcpu_tb_trans_cb(id, block);
    qemu_plugin_register_atexit_cb(id, at_exit, NULL);
    return 0;
}
