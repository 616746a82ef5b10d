/* Sorts numbers and texts in several ways, with comparisons that are passed as pointers to functions. */
#include <stdio.h>
#include <stdlib.h>
#include <string.h>

typedef int (*Compare)(const void *, const void *);
typedef void (*Sort)(void *, size_t, size_t, Compare);

static int by_value(const void *a, const void *b) {
    int x = *(const int *)a, y = *(const int *)b;
    return x < y ? -1 : x > y;
}

static int by_last_digit(const void *a, const void *b) {
    int x = *(const int *)a % 10, y = *(const int *)b % 10;
    return x != y ? x - y : by_value(a, b);
}

static int backwards(const void *a, const void *b) { return -by_value(a, b); }

static int by_text(const void *a, const void *b) { return strcmp(*(char *const *)a, *(char *const *)b); }

static void swap(char *a, char *b, size_t size) {
    while (size-- > 0) {
        char kept = *a;
        *a++ = *b;
        *b++ = kept;
    }
}

static void insertion(void *base, size_t count, size_t size, Compare compare) {
    char *items = base;
    for (size_t i = 1; i < count; i++)
        for (size_t j = i; j > 0 && compare(items + (j - 1) * size, items + j * size) > 0; j--)
            swap(items + (j - 1) * size, items + j * size, size);
}

static void heap(void *base, size_t count, size_t size, Compare compare) {
    char *items = base;
    size_t start = count / 2, end = count;
    while (end > 1) {
        if (start > 0)
            start--;
        else
            swap(items, items + --end * size, size);
        size_t root = start;
        for (;;) {
            size_t child = 2 * root + 1;
            if (child >= end)
                break;
            if (child + 1 < end && compare(items + child * size, items + (child + 1) * size) < 0)
                child++;
            if (compare(items + root * size, items + child * size) >= 0)
                break;
            swap(items + root * size, items + child * size, size);
            root = child;
        }
    }
}

static void shell(void *base, size_t count, size_t size, Compare compare) {
    char *items = base;
    for (size_t gap = count / 2; gap > 0; gap /= 2)
        for (size_t i = gap; i < count; i++)
            for (size_t j = i; j >= gap && compare(items + (j - gap) * size, items + j * size) > 0; j -= gap)
                swap(items + (j - gap) * size, items + j * size, size);
}

static const struct {
    const char *name;
    Sort sort;
} sorts[] = {{"quick", qsort}, {"insertion", insertion}, {"heap", heap}, {"shell", shell}};

static const Compare compares[] = {by_value, by_last_digit, backwards};

static unsigned state = 1;

static unsigned next_number(void) {
    state = state * 1103515245 + 12345;
    return state >> 8;
}

int main(int argc, char **argv) {
    size_t count = argc > 1 ? (size_t)atoi(argv[1]) : 24;
    int *numbers = malloc(count * sizeof *numbers);
    char **texts = malloc(count * sizeof *texts);
    unsigned sum = 0;
    for (size_t s = 0; s < sizeof sorts / sizeof *sorts; s++) {
        for (size_t c = 0; c < sizeof compares / sizeof *compares; c++) {
            for (size_t i = 0; i < count; i++)
                numbers[i] = (int)(next_number() % 1000);
            sorts[s].sort(numbers, count, sizeof *numbers, compares[c]);
            for (size_t i = 1; i < count; i++)
                if (compares[c](&numbers[i - 1], &numbers[i]) > 0)
                    return 1;
            for (size_t i = 0; i < count; i++)
                sum = sum * 31 + (unsigned)numbers[i];
        }
        for (size_t i = 0; i < count; i++) {
            texts[i] = malloc(12);
            sprintf(texts[i], "%u", next_number() % 100000);
        }
        sorts[s].sort(texts, count, sizeof *texts, by_text);
        printf("%s %u %s\n", sorts[s].name, sum, texts[count / 2]);
        for (size_t i = 0; i < count; i++)
            free(texts[i]);
    }
    return (int)(sum % 100);
}
