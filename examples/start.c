/* What runs before main and after it: thread-local data, static constructors, arguments, and what picolibc wants of a
   system, by the calls write, exit and brk of Linux. picolibc's exit calls what atexit was given, and destructors.
   What other files name is marked as used: with -flto the compiler doesn't see that libraries name it. */
#include <stddef.h>
#include <stdio.h>
#include <stdlib.h>
#include <string.h>
#include <unistd.h>

__asm__(".globl _start\n.type _start, @function\n_start:\n\tmv a0, sp\n\ttail start\n\t.size _start, . - _start\n");

static long call(long number, long a, long b, long c) {
    register long a0 __asm__("a0") = a, a1 __asm__("a1") = b, a2 __asm__("a2") = c, a7 __asm__("a7") = number;
    __asm__ volatile("ecall" : "+r"(a0) : "r"(a1), "r"(a2), "r"(a7) : "memory");
    return a0;
}

__attribute__((used)) ssize_t write(int file, const void *bytes, size_t count) {
    return call(64, file, (long)bytes, (long)count);
}

/* Characters are kept, so that a line is one call. */
static char kept[4096];
static size_t count;

static void flush(void) {
    write(1, kept, count);
    count = 0;
}

__attribute__((used, noreturn)) void _exit(int status) {
    flush();
    for (;;)
        call(93, status, 0, 0);
}

__attribute__((used, noreturn)) void abort(void) { _exit(134); }

__attribute__((used)) void *sbrk(ptrdiff_t more) {
    static char *end;
    if (end == NULL)
        end = (char *)call(214, 0, 0, 0);
    char *old = end;
    if (call(214, (long)(end + more), 0, 0) != (long)(end + more))
        return (void *)-1;
    end += more;
    return old;
}

static int put(char c, FILE *file) {
    (void)file;
    kept[count++] = c;
    if (c == '\n' || count == sizeof kept)
        flush();
    return (unsigned char)c;
}

static FILE out = FDEV_SETUP_STREAM(put, NULL, NULL, _FDEV_SETUP_WRITE);
__attribute__((used)) FILE *const stdout = &out;
__strong_reference(stdout, stderr);

extern char __tdata_start[], __tdata_end[];
static char thread_data[4096] __attribute__((aligned(64)));

typedef void (*Function)(void);
extern const Function __init_array_start[], __init_array_end[];

/* C++ gives destructors the program that they belong to; and picolibc calls this one last. */
__attribute__((used)) void *__dso_handle;
__attribute__((used)) void _fini(void) {}

int main(int argc, char **argv);

__attribute__((used, noreturn)) void start(long *stack) {
    memcpy(thread_data, __tdata_start, (size_t)(__tdata_end - __tdata_start));
    __asm__ volatile("mv tp, %0" : : "r"(thread_data));
    for (const Function *it = __init_array_start; it != __init_array_end; it++)
        (*it)();
    exit(main((int)stack[0], (char **)(stack + 1)));
}
