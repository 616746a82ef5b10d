/* Cleanups run while frames are unwound by force, as when a thread is cancelled. */
#include "frame_index.h"
#include <setjmp.h>
#include <stdint.h>
#include <stdio.h>
#include <stdlib.h>
#include <unwind.h>

static jmp_buf back;
static long cleaned, depth_reached;

static void add(long *value) { cleaned += *value; }

/* Goes back to main once its frame is reached, the first that ends above a variable of it. */
static _Unwind_Reason_Code stop(int version, _Unwind_Action actions, _Unwind_Exception_Class class,
                                struct _Unwind_Exception *exception, struct _Unwind_Context *context, void *above) {
    (void)version, (void)class, (void)exception;
    if ((actions & _UA_END_OF_STACK) != 0 || _Unwind_GetCFA(context) > (uintptr_t)above)
        longjmp(back, 1);
    return _URC_NO_REASON;
}

__attribute__((noinline)) long descend(long depth, long odd, void *above) {
    __attribute__((cleanup(add))) long value = depth;
    if (depth == 0) {
        static struct _Unwind_Exception exception;
        if (odd)
            _Unwind_ForcedUnwind(&exception, stop, above);
        return 1;
    }
    depth_reached++;
    return descend(depth - 1, odd, above) + value % 2;
}

int main(int argc, char **argv) {
    volatile long rounds = argc > 1 ? atol(argv[1]) : 10, sum = 0;
    char above;
    find_index(argv);
    for (volatile long i = 0; i < rounds; i++) {
        if (setjmp(back) == 0)
            sum += descend(i % 9 + 1, i % 3, &above);
        else
            sum += 100;
    }
    printf("%ld %ld %ld\n", sum, cleaned, depth_reached);
    return 0;
}
