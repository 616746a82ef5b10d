/* Finds the program's headers by the auxiliary vector, in place of examples/frame_index.c, which finds entries too. */
#include "frame_index.h"
#include "link.h"

enum { AT_NULL = 0, AT_PHDR = 3, AT_PHNUM = 5 };

static struct dl_phdr_info self = {0, "", NULL, 0};

void find_index(char **argv) {
    uint64_t *word = (uint64_t *)argv;
    while (*word++ != 0) /* arguments */
        continue;
    while (*word++ != 0) /* environment */
        continue;
    for (; word[0] != AT_NULL; word += 2) {
        if (word[0] == AT_PHDR)
            self.dlpi_phdr = (const Elf64_Phdr *)word[1];
        if (word[0] == AT_PHNUM)
            self.dlpi_phnum = (Elf64_Half)word[1];
    }
}

int dl_iterate_phdr(int (*say)(struct dl_phdr_info *, size_t, void *), void *data) {
    return say(&self, sizeof self, data);
}
