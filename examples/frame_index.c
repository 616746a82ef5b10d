/* Finds entries of the unwind table by its index, which a program header names; libgcc asks at each frame. */
#include "frame_index.h"
#include <stddef.h>
#include <stdint.h>
#include <string.h>

enum { AT_NULL = 0, AT_PHDR = 3, AT_PHNUM = 5, PT_GNU_EH_FRAME = 0x6474e550 };

struct program_header {
    uint32_t type, flags;
    uint64_t offset, vaddr, paddr, filesz, memsz, align;
};

/* Version, encodings, the table's address and the count; then pairs of a start and an entry, as distances from here. */
struct index {
    uint8_t version, encodings[3];
    int32_t table;
    uint32_t count;
    int32_t pairs[][2];
};

static const struct index *frames;

void find_index(char **argv) {
    uint64_t *word = (uint64_t *)argv;
    const struct program_header *headers = NULL;
    uint64_t count = 0;
    while (*word++ != 0) /* arguments */
        continue;
    while (*word++ != 0) /* environment */
        continue;
    for (; word[0] != AT_NULL; word += 2) {
        if (word[0] == AT_PHDR)
            headers = (const struct program_header *)word[1];
        if (word[0] == AT_PHNUM)
            count = word[1];
    }
    for (uint64_t i = 0; headers != NULL && i < count; i++)
        if (headers[i].type == PT_GNU_EH_FRAME)
            frames = (const struct index *)headers[i].vaddr;
}

static uint32_t word_at(const uint8_t *at) {
    uint32_t value;
    memcpy(&value, at, sizeof value);
    return value;
}

static const uint8_t *after_leb(const uint8_t *at) {
    while (*at++ & 0x80)
        continue;
    return at;
}

/* The encoding of starts and lengths in the entries of a CIE, whose text is `z` and then some of R, P, L and S. */
static uint8_t encoding_of(const uint8_t *cie) {
    const char *text = (const char *)cie + 9;
    if (text[0] != 'z')
        return 0;
    const uint8_t *at = after_leb(after_leb((const uint8_t *)text + strlen(text) + 1)); /* both factors */
    at = after_leb(after_leb(at));                                                      /* return register, length */
    for (text++; *text != 'R'; text++) {
        if (*text == 'P')
            at += (*at & 7) == 3 ? 5 : 9;
        else if (*text == 'L')
            at++;
        else if (*text == 0)
            return 0;
    }
    return *at;
}

/* The length of an entry's range, behind its start; both have four or eight bytes. */
static uint64_t length_of(const uint8_t *entry) {
    const uint8_t *id = entry + 4;
    if ((encoding_of(id - word_at(id)) & 7) == 3)
        return word_at(id + 8);
    uint64_t length;
    memcpy(&length, id + 12, sizeof length);
    return length;
}

const void *_Unwind_Find_FDE(void *pc, struct dwarf_eh_bases *bases) {
    const char *base = (const char *)frames;
    uint32_t low = 0, high = frames == NULL ? 0 : frames->count;
    while (low < high) { /* how many start at or below pc */
        uint32_t middle = low + (high - low) / 2;
        if (base + frames->pairs[middle][0] <= (const char *)pc)
            low = middle + 1;
        else
            high = middle;
    }
    if (low == 0)
        return NULL;
    const char *start = base + frames->pairs[low - 1][0];
    const uint8_t *entry = (const uint8_t *)base + frames->pairs[low - 1][1];
    if ((uint64_t)((const char *)pc - start) >= length_of(entry))
        return NULL;
    bases->text = bases->data = NULL;
    bases->function = (void *)start;
    return entry;
}
