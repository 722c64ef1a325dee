// A plugin of qemu-riscv64 that counts the instructions of a run: -plugin ./count.so,out=FILE leaves their number in FILE. A block of
// code that is run adds its number of instructions when it begins.
//
// Debian's qemu-user has plugins, but no header of theirs; what is used of it is declared here, from QEMU 7.2's include/qemu/qemu-plugin.h.
#include <stdint.h>
#include <stdio.h>
#include <string.h>

struct qemu_plugin_tb;
enum { ADD_U64 = 0 };
size_t qemu_plugin_tb_n_insns(const struct qemu_plugin_tb *block);
void qemu_plugin_register_vcpu_tb_trans_cb(uint64_t id, void (*made)(uint64_t id, struct qemu_plugin_tb *block));
void qemu_plugin_register_vcpu_tb_exec_inline(struct qemu_plugin_tb *block, int operation, void *number, uint64_t by);
void qemu_plugin_register_atexit_cb(uint64_t id, void (*ended)(uint64_t id, void *data), void *data);

int qemu_plugin_version = 1;

static uint64_t count;
static char name[4096];

static void made(uint64_t id, struct qemu_plugin_tb *block) {
    qemu_plugin_register_vcpu_tb_exec_inline(block, ADD_U64, &count, qemu_plugin_tb_n_insns(block));
}

static void ended(uint64_t id, void *data) {
    FILE *file = fopen(name, "w");
    fprintf(file, "%llu\n", (unsigned long long)count);
    fclose(file);
}

int qemu_plugin_install(uint64_t id, const void *info, int words, char **word) {
    if (words != 1 || strncmp(word[0], "out=", 4) != 0)
        return 1;
    snprintf(name, sizeof(name), "%s", word[0] + 4);
    qemu_plugin_register_vcpu_tb_trans_cb(id, made);
    qemu_plugin_register_atexit_cb(id, ended, 0);
    return 0;
}
