/* A machine of its own whose instructions are read by one large switch; it looks for primes and makes texts. */
#include <stdio.h>
#include <stdlib.h>

enum {
    PUSH, LOAD, STORE, ADD, SUB, MUL, DIV, MOD, LESS, EQUAL, NOT,
    JUMP, ZERO, CALL, RETURN, PRINT, FETCH, PUT, DUP, SWAP, DROP, HALT
};

typedef struct {
    int code, at;
} Op;

static long stack[64], frames[16], names[8], memory[256];

static long run(const Op *program, long *steps) {
    long *top = stack, *frame = frames;
    int pc = 0;
    for (;;) {
        Op op = program[pc++];
        ++*steps;
        switch (op.code) {
        case PUSH: *++top = op.at; break;
        case LOAD: *++top = names[op.at]; break;
        case STORE: names[op.at] = *top--; break;
        case ADD: top--; *top += top[1]; break;
        case SUB: top--; *top -= top[1]; break;
        case MUL: top--; *top *= top[1]; break;
        case DIV: top--; *top = top[1] ? *top / top[1] : 0; break;
        case MOD: top--; *top = top[1] ? *top % top[1] : *top; break;
        case LESS: top--; *top = *top < top[1]; break;
        case EQUAL: top--; *top = *top == top[1]; break;
        case NOT: *top = !*top; break;
        case JUMP: pc = op.at; break;
        case ZERO: if (*top-- == 0) pc = op.at; break;
        case CALL: *++frame = pc; pc = op.at; break;
        case RETURN: pc = (int)*frame--; break;
        case PRINT: printf("%ld ", *top--); break;
        case FETCH: *top = memory[*top & 255]; break;
        case PUT: top -= 2; memory[top[2] & 255] = top[1]; break;
        case DUP: top++; *top = top[-1]; break;
        case SWAP: { long kept = *top; *top = top[-1]; top[-1] = kept; break; }
        case DROP: top--; break;
        case HALT: return *top;
        default: abort();
        }
    }
}

/* names: 0 the number, 1 its divisor, 2 how many were found, 3 the limit */
static const Op primes[] = {
    {PUSH, 2}, {STORE, 0}, {PUSH, 0}, {STORE, 2},
    /* 4 */ {LOAD, 0}, {LOAD, 3}, {LESS, 0}, {ZERO, 27},
    {PUSH, 2}, {STORE, 1},
    /* 10 */ {LOAD, 1}, {DUP, 0}, {MUL, 0}, {LOAD, 0}, {SWAP, 0}, {LESS, 0}, {NOT, 0}, {ZERO, 34},
    {LOAD, 0}, {LOAD, 1}, {MOD, 0}, {ZERO, 29},
    {LOAD, 1}, {PUSH, 1}, {ADD, 0}, {STORE, 1}, {JUMP, 10},
    /* 27 */ {LOAD, 2}, {HALT, 0},
    /* 29 */ {LOAD, 0}, {PUSH, 1}, {ADD, 0}, {STORE, 0}, {JUMP, 4},
    /* 34 */ {CALL, 36}, {JUMP, 29},
    /* 36 */ {LOAD, 2}, {LOAD, 0}, {PUT, 0}, {LOAD, 2}, {PUSH, 1}, {ADD, 0}, {STORE, 2},
    {LOAD, 0}, {PUSH, 10}, {MOD, 0}, {PUSH, 7}, {EQUAL, 0}, {ZERO, 51}, {LOAD, 0}, {PRINT, 0},
    /* 51 */ {RETURN, 0},
};

static const char *name_of(long digit) {
    switch (digit) {
    case 0: return "zero";
    case 1: return "one";
    case 2: return "two";
    case 3: return "three";
    case 4: return "four";
    case 5: return "five";
    case 6: return "six";
    case 7: return "seven";
    case 8: return "eight";
    default: return "nine";
    }
}

int main(int argc, char **argv) {
    names[3] = argc > 1 ? atoi(argv[1]) : 40;
    long steps = 0, found = run(primes, &steps);
    printf("\n%ld primes in %ld steps:", found, steps);
    for (long rest = found; rest > 0; rest /= 10)
        printf(" %s", name_of(rest % 10));
    puts("");
    return (int)(found % 200);
}
