/* What LLVM's unwinder wants of a system to find unwind tables: the program headers. ELF gABI; dl_iterate_phdr(3). */
#ifndef LINK_H
#define LINK_H

#include <stddef.h>
#include <stdint.h>

#ifdef __cplusplus
extern "C" {
#endif

enum { PT_LOAD = 1, PT_GNU_EH_FRAME = 0x6474e550 };

typedef uint64_t Elf64_Addr;
typedef uint16_t Elf64_Half;
typedef struct {
    uint32_t p_type, p_flags;
    uint64_t p_offset, p_vaddr, p_paddr, p_filesz, p_memsz, p_align;
} Elf64_Phdr;

#define ElfW(type) Elf64_##type

struct dl_phdr_info {
    Elf64_Addr dlpi_addr; /* how far from its addresses it was loaded */
    const char *dlpi_name;
    const Elf64_Phdr *dlpi_phdr;
    Elf64_Half dlpi_phnum;
};

/* Calls a function with the program's own headers, and gives what it gives. */
int dl_iterate_phdr(int (*say)(struct dl_phdr_info *, size_t, void *), void *data);

#ifdef __cplusplus
}
#endif

#endif
