/* Packs a text by its repeats, unpacks it, and takes checksums of it. */
#include <stdint.h>
#include <stdio.h>
#include <stdlib.h>
#include <string.h>

static uint32_t table[256];

static void fill_table(void) {
    for (uint32_t i = 0; i < 256; i++) {
        uint32_t value = i;
        for (int bit = 0; bit < 8; bit++)
            value = value & 1 ? value >> 1 ^ 0xEDB88320u : value >> 1;
        table[i] = value;
    }
}

static uint32_t crc(const uint8_t *bytes, size_t count) {
    uint32_t value = ~0u;
    while (count-- > 0)
        value = table[(value ^ *bytes++) & 255] ^ value >> 8;
    return ~value;
}

static uint64_t fnv(const uint8_t *bytes, size_t count) {
    uint64_t value = 14695981039346656037u;
    while (count-- > 0)
        value = (value ^ *bytes++) * 1099511628211u;
    return value;
}

static size_t pack(const uint8_t *in, size_t count, uint8_t *out) {
    static uint16_t last[1024];
    memset(last, 0, sizeof last);
    size_t i = 0, end = 0;
    while (i < count) {
        size_t best = 0, from = 0;
        if (i + 3 < count) {
            unsigned hash = (in[i] * 33u ^ in[i + 1] * 7u ^ in[i + 2]) & 1023;
            from = last[hash];
            last[hash] = (uint16_t)i;
            if (from < i)
                while (best < 127 && i + best < count && in[from + best] == in[i + best])
                    best++;
        }
        if (best >= 4) {
            out[end++] = (uint8_t)(128 | best);
            out[end++] = (uint8_t)(i - from);
            out[end++] = (uint8_t)((i - from) >> 8);
            i += best;
        } else {
            out[end++] = in[i++] & 127;
        }
    }
    return end;
}

static size_t unpack(const uint8_t *in, size_t count, uint8_t *out) {
    size_t end = 0;
    for (size_t i = 0; i < count;) {
        if (in[i] & 128) {
            size_t length = in[i] & 127, back = in[i + 1] | (size_t)in[i + 2] << 8;
            for (; length > 0; length--, end++)
                out[end] = out[end - back];
            i += 3;
        } else
            out[end++] = in[i++];
    }
    return end;
}

int main(int argc, char **argv) {
    static const char *const words[] = {"layout", "of", "code", "that", "runs", "often", "and", "seldom", "\n"};
    size_t count = argc > 1 ? (size_t)atoi(argv[1]) : 300, size = 0;
    if (count > 60000)
        count = 60000;
    uint8_t *text = malloc(count + 16), *packed = malloc(count + 16), *back = malloc(count + 16);
    for (unsigned state = 7; size < count; state = state * 1664525 + 1013904223) {
        const char *word = words[(state >> 20) % 9];
        size_t length = strlen(word);
        memcpy(text + size, word, length);
        size += length;
        text[size++] = ' ';
    }
    fill_table();
    size_t small = pack(text, size, packed), again = unpack(packed, small, back);
    if (again != size || memcmp(text, back, size) != 0)
        return 1;
    printf("%lu bytes packed to %lu, crc %08lx, fnv %016llx\n", (unsigned long)size, (unsigned long)small,
           (unsigned long)crc(text, size), (unsigned long long)fnv(packed, small));
    return 0;
}
