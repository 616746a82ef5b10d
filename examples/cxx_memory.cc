// What a C++ program without exceptions needs of a library: memory from malloc, and an end for pure virtual calls.
#include <stddef.h>
#include <stdlib.h>

static void *memory_of(size_t size) {
    void *memory = malloc(size ? size : 1);
    if (memory == nullptr)
        abort();
    return memory;
}

void *operator new(size_t size) { return memory_of(size); }
void *operator new[](size_t size) { return memory_of(size); }
void operator delete(void *memory) noexcept { free(memory); }
void operator delete[](void *memory) noexcept { free(memory); }
void operator delete(void *memory, size_t) noexcept { free(memory); }
void operator delete[](void *memory, size_t) noexcept { free(memory); }

extern "C" [[noreturn]] void __cxa_pure_virtual() { abort(); }
