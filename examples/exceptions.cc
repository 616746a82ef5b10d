// Exceptions thrown and caught across frames, with destructors between, and some thrown again.
#include "frame_index.h"
#include <stdio.h>
#include <stdlib.h>

struct Deep {
    int at;
};

struct Other {
    const char *why;
};

static long cleaned;

struct Guard {
    int value;
    ~Guard() { cleaned += value; }
};

__attribute__((noinline)) int descend(int depth, int kind) {
    Guard guard{depth};
    if (depth == 0) {
        if (kind % 3 == 0)
            throw Deep{kind};
        if (kind % 3 == 1)
            throw Other{"other"};
        return kind;
    }
    return descend(depth - 1, kind) + 1;
}

__attribute__((noinline)) int careful(int depth, int kind) {
    try {
        return descend(depth, kind);
    } catch (const Other &other) {
        if (kind % 2 == 1)
            throw;
        return other.why[0] - depth;
    }
}

int main(int argc, char **argv) {
    int rounds = argc > 1 ? atoi(argv[1]) : 20;
    long sum = 0;
    find_index(argv);
    for (int kind = 0; kind < rounds; kind++) {
        try {
            sum += careful(kind % 7 + 1, kind);
        } catch (const Deep &deep) {
            sum += 100 * deep.at;
        } catch (...) {
            sum += 7;
        }
    }
    printf("%ld %ld\n", sum, cleaned);
    return 0;
}
