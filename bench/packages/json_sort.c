/* Reads a JSON text from standard input, sorts the members of its objects, writes it in both forms, and looks members
 * up; as often as the argument says. Prints the lengths and a checksum. */
#include "cJSON.h"
#include "cJSON_Utils.h"
#include <stdint.h>
#include <stdio.h>
#include <stdlib.h>
#include <string.h>

enum { ROOM = 1 << 16 };
static char text[ROOM];

static uint64_t fnv(uint64_t value, const char *bytes) {
    while (*bytes)
        value = (value ^ (unsigned char)*bytes++) * 1099511628211u;
    return value;
}

/* How many values there are, and how many of them are called `value`. */
static unsigned values(const cJSON *item, unsigned *named) {
    unsigned found = 1;
    const cJSON *child;
    if (cJSON_IsObject(item) && cJSON_GetObjectItemCaseSensitive(item, "value"))
        ++*named;
    cJSON_ArrayForEach(child, item)
        found += values(child, named);
    return found;
}

int main(int argc, char **argv) {
    int rounds = argc > 1 ? atoi(argv[1]) : 1;
    text[fread(text, 1, ROOM - 1, stdin)] = 0;
    uint64_t sum = 14695981039346656037u;
    for (int round = 0; round < rounds; round++) {
        cJSON *tree = cJSON_Parse(text);
        if (tree == NULL) {
            printf("no JSON at %td\n", cJSON_GetErrorPtr() - text);
            return 1;
        }
        unsigned named = 0, all = values(tree, &named);
        char *longer = cJSON_Print(tree);
        cJSONUtils_SortObjectCaseSensitive(tree);
        char *shorter = cJSON_PrintUnformatted(tree);
        sum = fnv(fnv(sum, longer), shorter);
        if (round == 0)
            printf("%u values, %u named, %zu and %zu bytes\n", all, named, strlen(longer), strlen(shorter));
        free(longer);
        free(shorter);
        cJSON_Delete(tree);
    }
    printf("%016llx\n", (unsigned long long)sum);
    return 0;
}
