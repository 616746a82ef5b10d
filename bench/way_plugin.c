/* A plugin of qemu-user that counts the way of a run through its code, as tools/layout.py does, in caches and in tables
   of entries for pages, of two sizes each.

       cc -O2 -shared -fPIC -o way_plugin.so way_plugin.c
       qemu-riscv64 -plugin ./way_plugin.so,out=FILE program

   When the run ends, a line of FILE has these numbers: instructions; those that went elsewhere than on; lines of 64
   bytes and pages of 4096 that instructions began in; misses of a cache of 32 KiB, of 64 sets of 8 lines, and of one of
   8 KiB, of 32 sets of 4 lines; and misses of 8 and of 64 entries for pages. What wasn't used for the longest time
   goes. Programs of one thread are counted, with code below 4 GiB. Debian has no header for plugins, so what is used of
   the interface is declared here. */
#include <stdint.h>
#include <stdio.h>
#include <stdlib.h>
#include <string.h>

#ifndef PLUGIN_VERSION
#define PLUGIN_VERSION 1
#endif
#define EXPORT __attribute__((visibility("default")))

struct qemu_plugin_tb;
struct qemu_plugin_insn;
typedef uint64_t Id;
enum { NO_REGISTERS = 0 };
extern void qemu_plugin_register_vcpu_tb_trans_cb(Id, void (*)(Id, struct qemu_plugin_tb *));
extern void qemu_plugin_register_vcpu_tb_exec_cb(struct qemu_plugin_tb *, void (*)(unsigned, void *), int, void *);
extern void qemu_plugin_register_atexit_cb(Id, void (*)(Id, void *), void *);
extern size_t qemu_plugin_tb_n_insns(const struct qemu_plugin_tb *);
extern struct qemu_plugin_insn *qemu_plugin_tb_get_insn(const struct qemu_plugin_tb *, size_t);
extern uint64_t qemu_plugin_insn_vaddr(const struct qemu_plugin_insn *);
extern size_t qemu_plugin_insn_size(const struct qemu_plugin_insn *);

EXPORT int qemu_plugin_version = PLUGIN_VERSION;

enum { LINE_BITS = 6, PAGE_BITS = 12, CODE_BITS = 32 };

/* What was used last, of a set: the most recent first. */
typedef struct {
    size_t sets, ways;
    uint64_t misses, *members;
} Recent;

/* Members are kept by one more than their number, as 0 is none. */
static void use(Recent *recent, uint64_t member) {
    uint64_t *set = recent->members + member % recent->sets * recent->ways;
    size_t i = 0;
    while (i < recent->ways - 1 && set[i] != member + 1)
        i++;
    recent->misses += set[i] != member + 1;
    memmove(set + 1, set, i * sizeof *set);
    set[0] = member + 1;
}

/* Members that were seen, by a bit each. */
typedef struct {
    uint64_t count;
    uint8_t *bits;
} Seen;

static void see(Seen *seen, uint64_t member) {
    uint8_t bit = (uint8_t)(1 << member % 8), *byte = seen->bits + member / 8;
    seen->count += !(*byte & bit);
    *byte |= bit;
}

/* Straight code, and the numbers of the lines in which its instructions begin, each after a line of another number. */
typedef struct {
    uint64_t start, end, instructions;
    size_t lines;
    uint64_t line[];
} Block;

static uint64_t instructions, taken, end_before, line_before = UINT64_MAX, page_before = UINT64_MAX;
static Recent caches[2] = {{64, 8, 0, NULL}, {32, 4, 0, NULL}}, entries[2] = {{1, 8, 0, NULL}, {1, 64, 0, NULL}};
static Seen lines, pages;
static FILE *out;

static void executed(unsigned cpu, void *data) {
    const Block *block = data;
    (void)cpu;
    instructions += block->instructions;
    taken += end_before && block->start != end_before;
    end_before = block->end;
    for (size_t i = 0; i < block->lines; i++) {
        uint64_t line = block->line[i], page = line >> (PAGE_BITS - LINE_BITS);
        if (line != line_before) {
            use(&caches[0], line);
            use(&caches[1], line);
            see(&lines, line);
        }
        if (page != page_before) {
            use(&entries[0], page);
            use(&entries[1], page);
            see(&pages, page);
        }
        line_before = line;
        page_before = page;
    }
}

static void translated(Id id, struct qemu_plugin_tb *tb) {
    size_t count = qemu_plugin_tb_n_insns(tb);
    Block *block = malloc(sizeof *block + count * sizeof block->line[0]);
    (void)id;
    if (!block)
        abort();
    block->instructions = count;
    block->lines = 0;
    for (size_t i = 0; i < count; i++) {
        struct qemu_plugin_insn *instruction = qemu_plugin_tb_get_insn(tb, i);
        uint64_t at = qemu_plugin_insn_vaddr(instruction);
        uint64_t line = at % (UINT64_C(1) << CODE_BITS) >> LINE_BITS;
        if (i == 0)
            block->start = at;
        if (block->lines == 0 || block->line[block->lines - 1] != line)
            block->line[block->lines++] = line;
        block->end = at + qemu_plugin_insn_size(instruction);
    }
    qemu_plugin_register_vcpu_tb_exec_cb(tb, executed, NO_REGISTERS, block);
}

static void ended(Id id, void *data) {
    (void)id, (void)data;
    const uint64_t found[] = {instructions, taken, lines.count, pages.count, caches[0].misses, caches[1].misses,
                              entries[0].misses, entries[1].misses};
    for (size_t i = 0; i < sizeof found / sizeof *found; i++)
        fprintf(out, "%llu%c", (unsigned long long)found[i], i + 1 < sizeof found / sizeof *found ? ' ' : '\n');
    fclose(out);
}

static void make_room(Recent *recent) {
    recent->members = calloc(recent->sets * recent->ways, sizeof *recent->members);
}

EXPORT int qemu_plugin_install(Id id, const void *info, int words, char **word) {
    (void)info;
    out = words == 1 && !strncmp(word[0], "out=", 4) ? fopen(word[0] + 4, "w") : NULL;
    lines.bits = calloc((size_t)1 << (CODE_BITS - LINE_BITS - 3), 1);
    pages.bits = calloc((size_t)1 << (CODE_BITS - PAGE_BITS - 3), 1);
    for (size_t i = 0; i < 2; i++) {
        make_room(&caches[i]);
        make_room(&entries[i]);
    }
    if (!out || !lines.bits || !pages.bits || !caches[0].members || !caches[1].members || !entries[0].members ||
        !entries[1].members) {
        fprintf(stderr, "way_plugin: out=FILE has to name a file that can be written\n");
        return -1;
    }
    qemu_plugin_register_vcpu_tb_trans_cb(id, translated);
    qemu_plugin_register_atexit_cb(id, ended, NULL);
    return 0;
}
