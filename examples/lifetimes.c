/* What runs before main and after it: constructors in their order, destructors, what atexit was given, and a last line
   without a newline. */
#include <stdio.h>
#include <stdlib.h>

static char order[16];
static int count;

static void note(char what) { order[count++] = what; }

__attribute__((constructor(200))) static void second(void) { note('2'); }
__attribute__((constructor(101))) static void first(void) { note('1'); }
__attribute__((constructor)) static void third(void) { note('3'); }
__attribute__((destructor)) static void last(void) { printf("destructor, after %s", order); }

static void earlier(void) { printf("atexit\n"); }
static void later(void) { note('x'); }

int main(int argc, char **argv) {
    atexit(earlier);
    atexit(later);
    printf("main, after %s\n", order);
    if (argc > 1 && atoi(argv[1]) > 9)
        exit(count);
    return count;
}
