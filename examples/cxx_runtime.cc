// What a C++ program needs of a library for throwing objects of classes, over libgcc's unwinder. Itanium C++ ABI:
// Exception Handling. Types are equal where they are one object.
#include <stddef.h>
#include <stdint.h>
#include <stdlib.h>
#include <string.h>
#include <unwind.h>

namespace std {
class type_info {
public:
    virtual ~type_info();
    const char *text;
};

type_info::~type_info() {}

[[noreturn]] void terminate() noexcept { abort(); }
} // namespace std

namespace __cxxabiv1 {
class __class_type_info : public std::type_info {
public:
    ~__class_type_info() override;
};

__class_type_info::~__class_type_info() {}
} // namespace __cxxabiv1

void operator delete(void *memory) noexcept { free(memory); }
void operator delete(void *memory, size_t) noexcept { free(memory); }

// What stands before an object that is thrown.
struct Thrown {
    std::type_info *type;
    void (*destroy)(void *);
    Thrown *outer; // caught before this one
    bool again;
    _Unwind_Exception unwind;
};

static Thrown *caught;

static void *object_of(Thrown *thrown) { return thrown + 1; }

static Thrown *thrown_of(void *exception) { return (Thrown *)((char *)exception - offsetof(Thrown, unwind)); }

static void raise(Thrown *thrown) {
    _Unwind_RaiseException(&thrown->unwind);
    std::terminate();
}

extern "C" {
void *__cxa_allocate_exception(size_t size) noexcept {
    Thrown *thrown = (Thrown *)calloc(1, sizeof(Thrown) + size);
    if (thrown == nullptr)
        std::terminate();
    return object_of(thrown);
}

void __cxa_free_exception(void *object) noexcept { free((Thrown *)object - 1); }

[[noreturn]] void __cxa_throw(void *object, std::type_info *type, void (*destroy)(void *)) {
    Thrown *thrown = (Thrown *)object - 1;
    thrown->type = type;
    thrown->destroy = destroy;
    raise(thrown);
    std::terminate();
}

void *__cxa_begin_catch(void *exception) noexcept {
    Thrown *thrown = thrown_of(exception);
    thrown->outer = caught;
    thrown->again = false;
    caught = thrown;
    return object_of(thrown);
}

void __cxa_end_catch() {
    Thrown *thrown = caught;
    caught = thrown->outer;
    if (thrown->again)
        return;
    if (thrown->destroy != nullptr)
        thrown->destroy(object_of(thrown));
    free(thrown);
}

[[noreturn]] void __cxa_rethrow() {
    caught->again = true;
    raise(caught);
    std::terminate();
}
}

// Numbers of an exception table.

static uint64_t number(const uint8_t *&at, unsigned size) {
    uint64_t value = 0;
    memcpy(&value, at, size);
    at += size;
    return value;
}

static uint64_t uleb(const uint8_t *&at) {
    uint64_t value = 0;
    unsigned shift = 0;
    uint8_t byte;
    do {
        byte = *at++;
        value |= (uint64_t)(byte & 0x7f) << shift;
        shift += 7;
    } while (byte & 0x80);
    return value;
}

static int64_t sleb(const uint8_t *&at) {
    const uint8_t *start = at;
    uint64_t value = uleb(at);
    unsigned bits = 7 * (unsigned)(at - start);
    if (bits < 64 && (at[-1] & 0x40))
        value |= ~(uint64_t)0 << bits;
    return (int64_t)value;
}

static unsigned size_of(uint8_t encoding) {
    switch (encoding & 7) {
    case 2:
        return 2;
    case 3:
        return 4;
    default:
        return 8;
    }
}

static uint64_t encoded(const uint8_t *&at, uint8_t encoding) {
    uint64_t place = (uint64_t)at;
    uint64_t value = (encoding & 0xf) == 1 ? uleb(at) : number(at, size_of(encoding));
    if ((encoding & 0xf) == 0xb)
        value = (uint64_t)(int32_t)value;
    if (value == 0)
        return 0;
    if ((encoding & 0x70) == 0x10)
        value += place;
    return (encoding & 0x80) ? *(uint64_t *)value : value;
}

// Where control goes for an address, with the action that decides on it.
struct Site {
    uint64_t landing;
    const uint8_t *action; // none for cleanups alone
    const uint8_t *types;
    uint8_t encoding; // of types
};

static Site site_of(const uint8_t *at, uint64_t start, uint64_t place) {
    uint8_t base_encoding = *at++;
    uint64_t base = base_encoding == 0xff ? start : encoded(at, base_encoding);
    Site site = {0, nullptr, nullptr, *at++};
    if (site.encoding != 0xff) {
        uint64_t length = uleb(at);
        site.types = at + length;
    }
    uint8_t sites_encoding = *at++;
    uint64_t length = uleb(at);
    const uint8_t *actions = at + length;
    while (at < actions) {
        uint64_t from = encoded(at, sites_encoding), size = encoded(at, sites_encoding);
        uint64_t landing = encoded(at, sites_encoding), action = uleb(at);
        if (place - start >= from && place - start < from + size) {
            site.landing = landing == 0 ? 0 : base + landing;
            site.action = action == 0 ? nullptr : actions + action - 1;
            return site;
        }
    }
    std::terminate();
}

// The number by which a handler is told from others: that of the first action that takes the type, or 0 for a cleanup.
static int64_t handler_of(const Site &site, const std::type_info *thrown, bool &cleans) {
    cleans = site.action == nullptr;
    const uint8_t *at = site.action;
    while (at != nullptr) {
        int64_t filter = sleb(at);
        const uint8_t *here = at;
        int64_t next = sleb(at);
        if (filter == 0)
            cleans = true;
        if (filter > 0) {
            const uint8_t *type = site.types - (uint64_t)filter * size_of(site.encoding);
            const std::type_info *wanted = (const std::type_info *)encoded(type, site.encoding);
            if (wanted == nullptr || wanted == thrown)
                return filter;
        }
        at = next == 0 ? nullptr : here + next;
    }
    return 0;
}

extern "C" _Unwind_Reason_Code __gxx_personality_v0(int, _Unwind_Action actions, _Unwind_Exception_Class,
                                                    _Unwind_Exception *exception, _Unwind_Context *context) {
    const uint8_t *table = (const uint8_t *)_Unwind_GetLanguageSpecificData(context);
    if (table == nullptr)
        return _URC_CONTINUE_UNWIND;
    Site site = site_of(table, _Unwind_GetRegionStart(context), _Unwind_GetIP(context) - 1);
    if (site.landing == 0)
        return _URC_CONTINUE_UNWIND;
    bool cleans;
    int64_t handler = handler_of(site, thrown_of(exception)->type, cleans);
    if (actions & _UA_SEARCH_PHASE)
        return handler != 0 ? _URC_HANDLER_FOUND : _URC_CONTINUE_UNWIND;
    if ((actions & _UA_HANDLER_FRAME) == 0) {
        if (!cleans)
            return _URC_CONTINUE_UNWIND;
        handler = 0;
    }
    _Unwind_SetGR(context, __builtin_eh_return_data_regno(0), (uint64_t)exception);
    _Unwind_SetGR(context, __builtin_eh_return_data_regno(1), (uint64_t)handler);
    _Unwind_SetIP(context, site.landing);
    return _URC_INSTALL_CONTEXT;
}
