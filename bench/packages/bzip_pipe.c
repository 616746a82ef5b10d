/* Packs standard input by libbz2 in one piece, unpacks it again, and prints both lengths and a checksum of what was packed. */
#include "bzlib.h"
#include <stdint.h>
#include <stdio.h>
#include <stdlib.h>
#include <string.h>

enum { ROOM = 1 << 18 };
static char text[ROOM], packed[ROOM + ROOM / 64 + 600], again[ROOM];

void bz_internal_error(int code) {
    printf("internal error %d\n", code);
    abort();
}

static uint64_t fnv(const char *bytes, size_t count) {
    uint64_t value = 14695981039346656037u;
    while (count-- > 0)
        value = (value ^ (unsigned char)*bytes++) * 1099511628211u;
    return value;
}

int main(int argc, char **argv) {
    int level = argc > 1 ? atoi(argv[1]) : 1;
    unsigned count = (unsigned)fread(text, 1, ROOM, stdin), length = sizeof packed, back = ROOM;
    int status = BZ2_bzBuffToBuffCompress(packed, &length, text, count, level, 0, 30);
    if (status != BZ_OK)
        return 1;
    status = BZ2_bzBuffToBuffDecompress(again, &back, packed, length, 0, 0);
    printf("%u bytes, packed %u, %016llx\n", count, length, (unsigned long long)fnv(packed, length));
    return status == BZ_OK && back == count && memcmp(text, again, count) == 0 ? 0 : 2;
}
