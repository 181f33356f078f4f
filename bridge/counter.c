/*
 * A plugin of qemu-user that counts the instructions of the program that it runs and says the count when this ends. The declarations are those of
 * version 1 of its plugin interface (qemu 7.2), of which Debian 12 has no header.
 */
#include <inttypes.h>
#include <stddef.h>
#include <stdint.h>
#include <stdio.h>

typedef uint64_t plugin_id;
struct block;

void qemu_plugin_register_vcpu_tb_trans_cb(plugin_id, void (*)(plugin_id, struct block *));
void qemu_plugin_register_vcpu_tb_exec_inline(struct block *, int operation, void *number, uint64_t amount);
void qemu_plugin_register_atexit_cb(plugin_id, void (*)(plugin_id, void *), void *);
size_t qemu_plugin_tb_n_insns(const struct block *);
void qemu_plugin_outs(const char *);

enum { ADD = 0 };

int qemu_plugin_version = 1;

static uint64_t count;

/* Called once for each piece of straight code: from then on it adds its length whenever it is run. */
static void translated(plugin_id id, struct block *block) {
    (void)id;
    qemu_plugin_register_vcpu_tb_exec_inline(block, ADD, &count, qemu_plugin_tb_n_insns(block));
}

static void ended(plugin_id id, void *nothing) {
    char line[32];
    (void)id;
    (void)nothing;
    snprintf(line, sizeof line, "%" PRIu64 "\n", count);
    qemu_plugin_outs(line);
}

int qemu_plugin_install(plugin_id id, const void *info, int words, char **word) {
    (void)info;
    (void)words;
    (void)word;
    qemu_plugin_register_vcpu_tb_trans_cb(id, translated);
    qemu_plugin_register_atexit_cb(id, ended, NULL);
    return 0;
}
