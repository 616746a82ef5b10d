/* Where a program finds its unwind table. */
#ifndef FRAME_INDEX_H
#define FRAME_INDEX_H

#ifdef __cplusplus
extern "C" {
#endif

/* What libgcc's unwinder takes an entry to be relative to. */
struct dwarf_eh_bases {
    void *text, *data, *function;
};

/* Finds the index by the program headers, of which the words behind the arguments tell. Call it before any throw. */
void find_index(char **argv);

/* The entry that holds an address. */
const void *_Unwind_Find_FDE(void *pc, struct dwarf_eh_bases *bases);

#ifdef __cplusplus
}
#endif

#endif
