// A plug-in of the emulator qemu-x86_64 that counts a program's instructions and data reads, and the reads that miss a small cache: what
// cachegrind counts where it runs. First level 16 KiB in 4 ways, last level 512 KiB in 8 ways, lines of 64 bytes, the line used longest ago goes
// first; what is written is fetched too. Instructions are not fetched through it. bench/cache builds it, for the interface VERSION.
#include <stdbool.h>
#include <stdint.h>
#include <stdio.h>
#include <stdlib.h>
#include <string.h>

// The emulator's interface, declared here so that none of its headers need be installed.
struct qemu_plugin_tb;
struct qemu_plugin_insn;
size_t qemu_plugin_tb_n_insns(const struct qemu_plugin_tb *);
struct qemu_plugin_insn *qemu_plugin_tb_get_insn(const struct qemu_plugin_tb *, size_t);
void qemu_plugin_register_vcpu_tb_trans_cb(uint64_t, void (*)(uint64_t, struct qemu_plugin_tb *));
void qemu_plugin_register_vcpu_tb_exec_cb(struct qemu_plugin_tb *, void (*)(unsigned, void *), int, void *);
void qemu_plugin_register_vcpu_mem_cb(struct qemu_plugin_insn *, void (*)(unsigned, uint32_t, uint64_t, void *), int, int, void *);
void qemu_plugin_register_atexit_cb(uint64_t, void (*)(uint64_t, void *), void *);
bool qemu_plugin_mem_is_store(uint32_t);
unsigned qemu_plugin_mem_size_shift(uint32_t);
enum { NO_REGISTERS = 0, READ_AND_WRITE = 3 };

__attribute__((visibility("default"))) int qemu_plugin_version = VERSION;

enum { LINE = 64, MOST_WAYS = 8, FIRST_SETS = 16384 / LINE / 4, LAST_SETS = 524288 / LINE / 8 };

// The lines that a set holds, the one used last in front; a line's number is one up, so that 0 is none.
typedef uint64_t Set[MOST_WAYS];

static Set first[FIRST_SETS], last[LAST_SETS];
static uint64_t instructions, reads, first_misses, last_misses;
static const char *report;

// Whether a line is missing in its set; it comes to the front.
static bool misses(uint64_t *set, int ways, uint64_t line) {
    uint64_t moved = line + 1;
    for (int way = 0; way < ways; way++) {
        uint64_t held = set[way];
        set[way] = moved;
        if (held == line + 1) return false;
        moved = held;
    }
    return true;
}

// Whether lines from `from` to `to` miss the first level, and the last; several count as one.
static void look(uint64_t from, uint64_t to, bool *near, bool *far) {
    for (uint64_t line = from; line <= to; line++)
        if (misses(first[line % FIRST_SETS], 4, line)) {
            *near = true;
            if (misses(last[line % LAST_SETS], 8, line)) *far = true;
        }
}

static void touched(unsigned cpu, uint32_t info, uint64_t address, void *unused) {
    (void)cpu, (void)unused;
    bool near = false, far = false;
    look(address / LINE, (address + (1u << qemu_plugin_mem_size_shift(info)) - 1) / LINE, &near, &far);
    if (qemu_plugin_mem_is_store(info)) return;
    reads++;
    first_misses += near;
    last_misses += far;
}

static void ran(unsigned cpu, void *count) {
    (void)cpu;
    instructions += (uintptr_t)count;
}

static void translated(uint64_t id, struct qemu_plugin_tb *block) {
    (void)id;
    size_t count = qemu_plugin_tb_n_insns(block);
    qemu_plugin_register_vcpu_tb_exec_cb(block, ran, NO_REGISTERS, (void *)count);
    for (size_t i = 0; i < count; i++)
        qemu_plugin_register_vcpu_mem_cb(qemu_plugin_tb_get_insn(block, i), touched, NO_REGISTERS, READ_AND_WRITE, NULL);
}

static void ended(uint64_t id, void *unused) {
    (void)id, (void)unused;
    FILE *file = fopen(report, "w");
    if (!file) abort();
    fprintf(file, "%lu %lu %lu %lu\n", instructions, reads, first_misses, last_misses);
    if (fclose(file) != 0) abort();
}

__attribute__((visibility("default"))) int qemu_plugin_install(uint64_t id, const void *info, int count, char **words) {
    (void)info;
    if (count != 1 || strncmp(words[0], "report=", 7) != 0) return 1;
    report = words[0] + 7;
    qemu_plugin_register_vcpu_tb_trans_cb(id, translated);
    qemu_plugin_register_atexit_cb(id, ended, NULL);
    return 0;
}
