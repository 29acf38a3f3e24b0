/*
 * count_instructions
 *
 * A plugin for qemu-x86_64 that counts the x86-64 instructions that a program executes: the same number in every run, whatever else the
 * machine does. It is built for the machine itself, as host/bench does, and writes the line 'instructions NUMBER' when the program
 * ends. The declarations are those of qemu's plugin interface, version 1, which Debian has no header for.
 */
#include <inttypes.h>
#include <stddef.h>
#include <stdint.h>
#include <stdio.h>

typedef uint64_t qemu_plugin_id_t;
struct qemu_plugin_tb;
typedef void (*translated_call)(qemu_plugin_id_t, struct qemu_plugin_tb *);
typedef void (*exit_call)(qemu_plugin_id_t, void *);
enum { INLINE_ADD_U64 = 0 };

extern void qemu_plugin_register_vcpu_tb_trans_cb(qemu_plugin_id_t, translated_call);
extern void qemu_plugin_register_atexit_cb(qemu_plugin_id_t, exit_call, void *);
extern size_t qemu_plugin_tb_n_insns(const struct qemu_plugin_tb *);
extern void qemu_plugin_register_vcpu_tb_exec_inline(struct qemu_plugin_tb *, int, void *, uint64_t);
extern void qemu_plugin_outs(const char *);

__attribute__((visibility("default"))) int qemu_plugin_version = 1;

static uint64_t count;

/* Each block of the program adds its instructions whenever it is executed. */
static void translated(qemu_plugin_id_t id, struct qemu_plugin_tb *block) {
    (void)id;
    qemu_plugin_register_vcpu_tb_exec_inline(block, INLINE_ADD_U64, &count, qemu_plugin_tb_n_insns(block));
}

static void finished(qemu_plugin_id_t id, void *unused) {
    char line[64];

    (void)id;
    (void)unused;
    snprintf(line, sizeof line, "instructions %" PRIu64 "\n", count);
    qemu_plugin_outs(line);
}

__attribute__((visibility("default"))) int qemu_plugin_install(qemu_plugin_id_t id, const void *info, int words, char **text) {
    (void)info;
    (void)words;
    (void)text;
    qemu_plugin_register_vcpu_tb_trans_cb(id, translated);
    qemu_plugin_register_atexit_cb(id, finished, NULL);
    return 0;
}
