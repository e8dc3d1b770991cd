// A plugin for qemu-x86_64 (user mode, 5 to 8) that counts instructions as callgrind does with --dump-before=bench_mark: each call of
// bench_mark writes those since the last one to DIR/cg.1, DIR/cg.2, .. as a line 'summary: N'. A block's instructions are counted when it is
// entered. Run as: qemu-x86_64 -plugin marks.so,dir=DIR PROGRAM.
#include <inttypes.h>
#include <stdbool.h>
#include <stddef.h>
#include <stdint.h>
#include <stdio.h>
#include <stdlib.h>
#include <string.h>
#define EXPORT __attribute__((visibility("default")))

typedef uint64_t qemu_plugin_id_t;
struct qemu_plugin_tb;
struct qemu_plugin_insn;
enum qemu_plugin_cb_flags { QEMU_PLUGIN_CB_NO_REGS };
void qemu_plugin_register_vcpu_tb_trans_cb(qemu_plugin_id_t, void (*)(qemu_plugin_id_t, struct qemu_plugin_tb *));
void qemu_plugin_register_vcpu_tb_exec_cb(struct qemu_plugin_tb *, void (*)(unsigned, void *), enum qemu_plugin_cb_flags, void *);
size_t qemu_plugin_tb_n_insns(const struct qemu_plugin_tb *);
struct qemu_plugin_insn *qemu_plugin_tb_get_insn(const struct qemu_plugin_tb *, size_t);
uint64_t qemu_plugin_insn_vaddr(const struct qemu_plugin_insn *);
const char *qemu_plugin_insn_symbol(const struct qemu_plugin_insn *);

EXPORT int qemu_plugin_version = 1;

struct block {
    uint64_t instructions;
    bool mark;
};

static uint64_t counted, at_mark, mark_address;
static int marks;
static char folder[4000] = ".";

static void write_count(void)
{
    char path[4096];
    snprintf(path, sizeof path, "%s/cg.%d", folder, ++marks);
    FILE *out = fopen(path, "w");
    if (!out)
        abort();
    fprintf(out, "summary: %" PRIu64 "\n", counted - at_mark);
    fclose(out);
    at_mark = counted;
}

static void entered(unsigned cpu, void *data)
{
    const struct block *b = data;
    (void)cpu;
    if (b->mark)
        write_count();
    counted += b->instructions;
}

// The block is kept: the emulator may run it until its end. Only the first block of bench_mark is the mark.
static void translated(qemu_plugin_id_t id, struct qemu_plugin_tb *tb)
{
    struct qemu_plugin_insn *first = qemu_plugin_tb_get_insn(tb, 0);
    const char *symbol = qemu_plugin_insn_symbol(first);
    uint64_t address = qemu_plugin_insn_vaddr(first);
    struct block *b = calloc(1, sizeof *b);
    (void)id;
    if (!b)
        abort();
    b->instructions = qemu_plugin_tb_n_insns(tb);
    if (symbol && !strcmp(symbol, "bench_mark") && (!mark_address || mark_address == address)) {
        mark_address = address;
        b->mark = true;
    }
    qemu_plugin_register_vcpu_tb_exec_cb(tb, entered, QEMU_PLUGIN_CB_NO_REGS, b);
}

EXPORT int qemu_plugin_install(qemu_plugin_id_t id, const void *info, int argc, char **argv)
{
    (void)info;
    for (int i = 0; i < argc; i++)
        if (!strncmp(argv[i], "dir=", 4))
            snprintf(folder, sizeof folder, "%s", argv[i] + 4);
    qemu_plugin_register_vcpu_tb_trans_cb(id, translated);
    return 0;
}
