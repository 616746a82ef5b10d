/* Packs standard input by LZ4, fast and with high compression, unpacks both, and prints lengths and checksums. */
#include "lz4.h"
#include "lz4hc.h"
#include <stdint.h>
#include <stdio.h>
#include <stdlib.h>
#include <string.h>

enum { ROOM = 1 << 16 };
static char text[ROOM], packed[LZ4_COMPRESSBOUND(ROOM)], again[ROOM];

static uint64_t fnv(const char *bytes, int count) {
    uint64_t value = 14695981039346656037u;
    while (count-- > 0)
        value = (value ^ (unsigned char)*bytes++) * 1099511628211u;
    return value;
}

static int show(const char *how, int length, int count) {
    int back = LZ4_decompress_safe(packed, again, length, ROOM);
    printf("%s: %d bytes, packed %d, %016llx\n", how, count, length, (unsigned long long)fnv(packed, length));
    return length > 0 && back == count && memcmp(text, again, (size_t)count) == 0;
}

int main(int argc, char **argv) {
    int level = argc > 1 ? atoi(argv[1]) : 4, count = (int)fread(text, 1, ROOM, stdin);
    int is_right = show("fast", LZ4_compress_default(text, packed, count, sizeof packed), count);
    is_right &= show("high", LZ4_compress_HC(text, packed, count, sizeof packed, level), count);
    return is_right ? 0 : 1;
}
