/* A stack machine whose instructions jump to each other by addresses of labels (GNU C), and which leaves by longjmp if
   a program of it is wrong. */
#include <setjmp.h>
#include <stdio.h>
#include <stdlib.h>

enum { PUSH, ADD, MULTIPLY, MODULO, COPY, SWAP, DOWN, PRINT, STOP, BAD };
enum { ROOM = 16 };

static jmp_buf failed;

static long checked(long value, int is_right, int why) {
    if (!is_right)
        longjmp(failed, why);
    return value;
}

static long run(const long *code) {
    static const void *const labels[] = {&&push, &&add,  &&multiply, &&modulo, &&copy,
                                         &&swap, &&down, &&print,    &&stop,   &&bad};
    long stack[ROOM] = {0}, *top = stack;
    const long *at = code;
#define NEXT goto *labels[*at++]
#define NEED(count) checked(0, top - stack >= (count), 2)
    NEXT;
push:
    checked(0, top + 1 < stack + ROOM, 1);
    *++top = *at++;
    NEXT;
add:
    NEED(2);
    top--;
    *top += top[1];
    NEXT;
multiply:
    NEED(2);
    top--;
    *top *= top[1];
    NEXT;
modulo:
    NEED(2);
    top--;
    *top %= checked(top[1], top[1] != 0, 3);
    NEXT;
copy:
    NEED(1);
    checked(0, top + 1 < stack + ROOM, 1);
    top[1] = *top;
    top++;
    NEXT;
swap: {
    NEED(2);
    long kept = *top;
    *top = top[-1];
    top[-1] = kept;
    NEXT;
}
down: /* counts the second value down, and goes back as far as the next word says until it is 0 */
    NEED(2);
    if (--top[-1] > 0)
        at -= *at;
    else
        at++;
    NEXT;
print:
    NEED(1);
    printf("%ld\n", *top);
    NEXT;
stop:
    return *top;
bad:
    return checked(0, 0, 4);
}

static const char *const reasons[] = {"", "the stack is full", "the stack is empty", "division by zero",
                                      "no instruction"};

static long attempt(const char *name, const long *code) {
    int why = setjmp(failed);
    if (why != 0) {
        printf("%s: %s\n", name, reasons[why]);
        return why;
    }
    long value = run(code);
    printf("%s: %ld\n", name, value);
    return value;
}

int main(int argc, char **argv) {
    long rounds = argc > 1 ? atol(argv[1]) : 20;
    const long random[] = {PUSH, rounds, PUSH, 12345, PUSH, 1103515, MULTIPLY, PUSH,
                           12345, ADD, PUSH, 65537, MODULO, DOWN, 10, STOP};
    const long divides[] = {PUSH, 1, PUSH, 0, MODULO, STOP};
    const long endless[] = {PUSH, 2, PUSH, 7, COPY, DOWN, 2, STOP, BAD};
    const long swaps[] = {PUSH, 3, PUSH, 4, SWAP, PRINT, ADD, STOP};
    long found = attempt("random", random);
    found += attempt("divides", divides);
    found += attempt("endless", endless);
    found += attempt("swaps", swaps);
    found += attempt("empty", (const long[]){ADD, STOP});
    found += attempt("bad", (const long[]){BAD});
    return (int)(found % 100);
}
