/* Runs a program of JavaScript from standard input, which has a function `print`. */
#include "duktape.h"
#include <stdio.h>
#include <stdlib.h>

enum { ROOM = 1 << 16 };
static char text[ROOM];

static duk_ret_t print(duk_context *machine) {
    duk_push_string(machine, " ");
    duk_insert(machine, 0);
    duk_join(machine, duk_get_top(machine) - 1);
    puts(duk_safe_to_string(machine, -1));
    return 0;
}

static void fail(void *data, const char *why) {
    (void)data;
    puts(why ? why : "failed");
    abort();
}

int main(void) {
    size_t count = fread(text, 1, ROOM, stdin);
    duk_context *machine = duk_create_heap(NULL, NULL, NULL, NULL, fail);
    duk_push_c_function(machine, print, DUK_VARARGS);
    duk_put_global_string(machine, "print");
    int status = duk_peval_lstring(machine, text, count) != 0;
    if (status)
        puts(duk_safe_to_string(machine, -1));
    duk_destroy_heap(machine);
    return status;
}
