/* Prints what the unwinder finds before an object is thrown, and before frames are unwound by force: how many frames, and
 * how far the frame address of each is above the first. The linker has these in place of the functions (`--wrap`). */
#include <stdint.h>
#include <stdio.h>
#include <unwind.h>

struct found {
    uintptr_t first;
    int count;
};

static _Unwind_Reason_Code add(struct _Unwind_Context *context, void *data) {
    struct found *found = data;
    uintptr_t frame = _Unwind_GetCFA(context);
    if (found->count++ == 0)
        found->first = frame;
    printf(" %lu", (unsigned long)(frame - found->first));
    return _URC_NO_REASON;
}

static void print_frames(void) {
    struct found found = {0, 0};
    printf("frames:");
    _Unwind_Reason_Code ended = _Unwind_Backtrace(add, &found);
    printf(", %d in all, %d\n", found.count, (int)ended);
}

_Noreturn void __real___cxa_throw(void *object, void *type, void (*destroy)(void *));
_Noreturn void __wrap___cxa_throw(void *object, void *type, void (*destroy)(void *)) {
    print_frames();
    __real___cxa_throw(object, type, destroy);
}

_Unwind_Reason_Code __real__Unwind_ForcedUnwind(struct _Unwind_Exception *exception, _Unwind_Stop_Fn stop, void *data);
_Unwind_Reason_Code __wrap__Unwind_ForcedUnwind(struct _Unwind_Exception *exception, _Unwind_Stop_Fn stop, void *data) {
    print_frames();
    return __real__Unwind_ForcedUnwind(exception, stop, data);
}
