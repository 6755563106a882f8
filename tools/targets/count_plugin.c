/*
 * A plugin for qemu: counts the instructions between two of the guest's addresses, each by its own address. Words: begin=ADDRESS,
 * end=ADDRESS, out=FILE. For each time that both are passed it writes a line `region`, and then for each address that was run its
 * count, and how often the next instruction was another than the one behind it. Debian has no package with the header of qemu's
 * plugins, so what is used of it is declared here (version 1 of that interface).
 */
#include <inttypes.h>
#include <stdio.h>
#include <stdlib.h>
#include <string.h>

#define SHOWN __attribute__((visibility("default")))

struct qemu_plugin_tb;
struct qemu_plugin_insn;
typedef uint64_t qemu_plugin_id_t;
void qemu_plugin_register_vcpu_tb_trans_cb(qemu_plugin_id_t id, void (*call)(qemu_plugin_id_t id, struct qemu_plugin_tb *block));
size_t qemu_plugin_tb_n_insns(const struct qemu_plugin_tb *block);
struct qemu_plugin_insn *qemu_plugin_tb_get_insn(const struct qemu_plugin_tb *block, size_t i);
uint64_t qemu_plugin_insn_vaddr(const struct qemu_plugin_insn *instruction);
size_t qemu_plugin_insn_size(const struct qemu_plugin_insn *instruction);
void qemu_plugin_register_vcpu_insn_exec_cb(struct qemu_plugin_insn *instruction, void (*call)(unsigned cpu, void *data), int flags,
                                            void *data);
SHOWN int qemu_plugin_version = 1;
SHOWN int qemu_plugin_install(qemu_plugin_id_t id, const void *info, int n, char **words);

enum { FLASH = 1 << 18, PLACES = FLASH / 2, SIZE_AT = 32 };

static uint64_t counts[PLACES], jumps[PLACES];
static uint64_t begin, end, behind; /* behind: where the next instruction is if this one does not jump; 0: none was counted yet */
static uint64_t last;
static int counting;
static FILE *out;

static void write_region(void)
{
    fprintf(out, "region\n");
    for (uint64_t i = 0; i < PLACES; i++) {
        if (counts[i] > 0)
            fprintf(out, "%" PRIx64 " %" PRIu64 " %" PRIu64 "\n", 2 * i, counts[i], jumps[i]);
    }
    fflush(out);
}

static void ran(unsigned cpu, void *data)
{
    uint64_t at = (uint64_t)(uintptr_t)data & 0xFFFFFFFF, size = (uint64_t)(uintptr_t)data >> SIZE_AT;
    (void)cpu;
    if (at == begin) {
        memset(counts, 0, sizeof counts);
        memset(jumps, 0, sizeof jumps);
        counting = 1;
        behind = 0;
    } else if (at == end && counting) {
        counting = 0;
        write_region();
    } else if (counting && at < FLASH) {
        counts[at / 2]++;
        if (behind != 0 && at != behind)
            jumps[last / 2]++;
        last = at;
        behind = at + size;
    }
}

static void translated(qemu_plugin_id_t id, struct qemu_plugin_tb *block)
{
    (void)id;
    for (size_t i = 0; i < qemu_plugin_tb_n_insns(block); i++) {
        struct qemu_plugin_insn *one = qemu_plugin_tb_get_insn(block, i);
        uint64_t data = qemu_plugin_insn_vaddr(one) | (uint64_t)qemu_plugin_insn_size(one) << SIZE_AT;
        qemu_plugin_register_vcpu_insn_exec_cb(one, ran, 0, (void *)(uintptr_t)data);
    }
}

int qemu_plugin_install(qemu_plugin_id_t id, const void *info, int n, char **words)
{
    (void)info;
    for (int i = 0; i < n; i++) {
        if (strncmp(words[i], "begin=", 6) == 0)
            begin = strtoull(words[i] + 6, NULL, 0);
        if (strncmp(words[i], "end=", 4) == 0)
            end = strtoull(words[i] + 4, NULL, 0);
        if (strncmp(words[i], "out=", 4) == 0)
            out = fopen(words[i] + 4, "w");
    }
    if (out == NULL || begin == 0 || end == 0)
        return 1;
    qemu_plugin_register_vcpu_tb_trans_cb(id, translated);
    return 0;
}
