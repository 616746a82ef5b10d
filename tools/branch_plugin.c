/* A plugin of qemu-user that counts how often control goes from each translation block to each other one.

       cc -O2 -shared -fPIC -o branch_plugin.so branch_plugin.c
       qemu-riscv64 -plugin ./branch_plugin.so,out=FILE program

   FILE is mapped, and shared with all threads and with processes that the program forks, so it holds the counts however
   a run ends, by a signal too. It has numbers of 64 bits in the order of this machine's bytes. The first is how many
   are in use, or more than ROOM if there was no room for all. Then follow records, in any order:

       BLOCK LENGTH COUNT ADDRESS..    a block of LENGTH instructions; COUNT threads began with it
       EDGE FROM TO COUNT              a pair of blocks, by the places of their records in FILE

   A pair of blocks may have several records. Debian has no header for plugins, so what is used of the interface is
   declared here; PLUGIN_VERSION is 1 up to qemu 8, and 2 from qemu 9 on. */
#include <fcntl.h>
#include <stdint.h>
#include <stdio.h>
#include <stdlib.h>
#include <string.h>
#include <sys/mman.h>
#include <unistd.h>

#ifndef PLUGIN_VERSION
#define PLUGIN_VERSION 1
#endif
#define EXPORT __attribute__((visibility("default")))

struct qemu_plugin_tb;
struct qemu_plugin_insn;
typedef uint64_t Id;
enum { NO_REGISTERS = 0 };
extern void qemu_plugin_register_vcpu_tb_trans_cb(Id, void (*)(Id, struct qemu_plugin_tb *));
extern void qemu_plugin_register_vcpu_tb_exec_cb(struct qemu_plugin_tb *, void (*)(unsigned, void *), int, void *);
extern size_t qemu_plugin_tb_n_insns(const struct qemu_plugin_tb *);
extern struct qemu_plugin_insn *qemu_plugin_tb_get_insn(const struct qemu_plugin_tb *, size_t);
extern uint64_t qemu_plugin_insn_vaddr(const struct qemu_plugin_insn *);

EXPORT int qemu_plugin_version = PLUGIN_VERSION;

enum { BLOCK = 1, EDGE = 2, BLOCK_HEAD = 3, EDGE_SIZE = 4, ROOM = 1 << 26 };
static const size_t ROOM_BYTES = (size_t)ROOM * sizeof(uint64_t); /* of which only what is used takes memory */

typedef struct Edge Edge;
typedef struct {
    Edge *edges;
    uint64_t *record;
} Block;
struct Edge {
    Block *to;
    uint64_t *count;
    Edge *next;
};

static uint64_t *file;
static __thread Block *previous;

/* Room for a record, or NULL. */
static uint64_t *reserve(size_t numbers) {
    uint64_t at = __atomic_fetch_add(file, numbers, __ATOMIC_RELAXED);
    return at + numbers <= ROOM ? file + at : NULL;
}

static void count(uint64_t *number) { __atomic_fetch_add(number, 1, __ATOMIC_RELAXED); }

/* Another thread may add the same edge meanwhile: then there are two, and the first in the list counts from now on. */
static void add_edge(Block *from, Block *to) {
    Edge *edge = malloc(sizeof *edge);
    uint64_t *record = edge ? reserve(EDGE_SIZE) : NULL;
    if (!record) {
        free(edge);
        return;
    }
    record[1] = (uint64_t)(from->record - file);
    record[2] = (uint64_t)(to->record - file);
    record[3] = 1;
    __atomic_store_n(&record[0], EDGE, __ATOMIC_RELEASE);
    *edge = (Edge){to, &record[3], __atomic_load_n(&from->edges, __ATOMIC_RELAXED)};
    while (!__atomic_compare_exchange_n(&from->edges, &edge->next, edge, 1, __ATOMIC_RELEASE, __ATOMIC_RELAXED)) {
    }
}

static void executed(unsigned cpu, void *data) {
    Block *to = data, *from = previous;
    (void)cpu;
    previous = to;
    if (!from) {
        count(&to->record[2]);
        return;
    }
    for (Edge *edge = __atomic_load_n(&from->edges, __ATOMIC_ACQUIRE); edge; edge = edge->next)
        if (edge->to == to) {
            count(edge->count);
            return;
        }
    add_edge(from, to);
}

static void translated(Id id, struct qemu_plugin_tb *tb) {
    size_t length = qemu_plugin_tb_n_insns(tb);
    Block *block = calloc(1, sizeof *block);
    uint64_t *record = block ? reserve(BLOCK_HEAD + length) : NULL;
    (void)id;
    if (!record) {
        free(block);
        return;
    }
    block->record = record;
    record[1] = length;
    for (size_t i = 0; i < length; i++)
        record[BLOCK_HEAD + i] = qemu_plugin_insn_vaddr(qemu_plugin_tb_get_insn(tb, i));
    __atomic_store_n(&record[0], BLOCK, __ATOMIC_RELEASE);
    qemu_plugin_register_vcpu_tb_exec_cb(tb, executed, NO_REGISTERS, block);
}

/* Maps the file that a word `out=FILE` names. */
static int map_counts(int words, char **word) {
    int out = words == 1 && !strncmp(word[0], "out=", 4) ? open(word[0] + 4, O_RDWR | O_CREAT | O_TRUNC, 0600) : -1;
    if (out < 0 || ftruncate(out, (off_t)ROOM_BYTES)) {
        fprintf(stderr, "branch_plugin: out=FILE has to name a file that can be written\n");
        return -1;
    }
    file = mmap(NULL, ROOM_BYTES, PROT_READ | PROT_WRITE, MAP_SHARED | MAP_NORESERVE, out, 0);
    close(out);
    if (file == MAP_FAILED) {
        fprintf(stderr, "branch_plugin: there is no memory for the counts\n");
        return -1;
    }
    file[0] = 1;
    return 0;
}

EXPORT int qemu_plugin_install(Id id, const void *info, int words, char **word) {
    (void)info;
    if (map_counts(words, word))
        return -1;
    qemu_plugin_register_vcpu_tb_trans_cb(id, translated);
    return 0;
}
