/* A plugin of qemu 7.2: adds up the instructions of each block as it is executed, and writes the total to standard error
   when the program ends. Debian packs no header for plugins, so what is used of it stands here. */
#include <stdint.h>
#include <stdio.h>

typedef uint64_t id_type;
struct qemu_plugin_tb;
enum { ADD_U64 = 0 }; /* QEMU_PLUGIN_INLINE_ADD_U64 */

size_t qemu_plugin_tb_n_insns(const struct qemu_plugin_tb *tb);
void qemu_plugin_register_vcpu_tb_trans_cb(id_type id, void (*call)(id_type, struct qemu_plugin_tb *));
void qemu_plugin_register_vcpu_tb_exec_inline(struct qemu_plugin_tb *tb, int operation, void *place, uint64_t addend);
void qemu_plugin_register_atexit_cb(id_type id, void (*call)(id_type, void *), void *data);

__attribute__((visibility("default"))) int qemu_plugin_version = 1;

static uint64_t total; /* of one thread: the driver has no other */

static void translated(id_type id, struct qemu_plugin_tb *tb)
{
    qemu_plugin_register_vcpu_tb_exec_inline(tb, ADD_U64, &total, qemu_plugin_tb_n_insns(tb));
}

static void ended(id_type id, void *data)
{
    fprintf(stderr, "%llu\n", (unsigned long long)total);
}

__attribute__((visibility("default"))) int qemu_plugin_install(id_type id, const void *info, int argc, char **argv)
{
    qemu_plugin_register_vcpu_tb_trans_cb(id, translated);
    qemu_plugin_register_atexit_cb(id, ended, NULL);
    return 0;
}
