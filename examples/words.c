/* Counts words in a hash table that grows, sorts them by qsort, and reckons with doubles how they are spread. */
#include <math.h>
#include <stdio.h>
#include <stdlib.h>
#include <string.h>

typedef struct Word {
    char *text;
    unsigned hash;
    int count;
    struct Word *next;
} Word;

typedef struct {
    Word **chains;
    size_t size, words;
} Table;

static unsigned hash_of(const char *text) {
    unsigned hash = 2166136261u;
    for (; *text != 0; text++)
        hash = (hash ^ (unsigned char)*text) * 16777619u;
    return hash;
}

static void *memory(size_t size) {
    void *found = calloc(1, size);
    if (found == NULL) {
        printf("no memory\n");
        exit(2);
    }
    return found;
}

static void grow(Table *table) {
    size_t size = table->size == 0 ? 8 : table->size * 2;
    Word **chains = memory(size * sizeof *chains);
    for (size_t i = 0; i < table->size; i++)
        for (Word *word = table->chains[i], *next; word != NULL; word = next) {
            next = word->next;
            word->next = chains[word->hash % size];
            chains[word->hash % size] = word;
        }
    free(table->chains);
    table->chains = chains;
    table->size = size;
}

static void count(Table *table, const char *text) {
    if (table->words >= table->size)
        grow(table);
    unsigned hash = hash_of(text);
    Word **chain = &table->chains[hash % table->size], *word = *chain;
    while (word != NULL && (word->hash != hash || strcmp(word->text, text) != 0))
        word = word->next;
    if (word == NULL) {
        word = memory(sizeof *word);
        word->text = strdup(text);
        word->hash = hash;
        word->next = *chain;
        *chain = word;
        table->words++;
    }
    word->count++;
}

static int by_count(const void *a, const void *b) {
    const Word *x = *(Word *const *)a, *y = *(Word *const *)b;
    return x->count != y->count ? y->count - x->count : strcmp(x->text, y->text);
}

static unsigned state = 1;

/* A word of one to three syllables, short ones more often. */
static void make(char *text) {
    static const char *const syllables[] = {"ba", "do", "ki", "lu", "me", "no", "ra", "si", "tu", "we"};
    *text = 0;
    do {
        state = state * 1103515245u + 12345u;
        strcat(text, syllables[(state >> 16) % 10 * ((state >> 20) % 10) / 9]);
    } while ((state >> 24) % 3 == 0 && strlen(text) < 6);
}

int main(int argc, char **argv) {
    int rounds = argc > 1 ? atoi(argv[1]) : 200;
    Table table = {0};
    char text[16];
    for (int i = 0; i < rounds; i++) {
        make(text);
        count(&table, text);
    }
    Word **sorted = memory((table.words + 1) * sizeof *sorted), **end = sorted;
    double entropy = 0, mean = (double)rounds / (double)table.words, spread = 0;
    for (size_t i = 0; i < table.size; i++)
        for (Word *word = table.chains[i]; word != NULL; word = word->next) {
            *end++ = word;
            double share = (double)word->count / rounds, off = word->count - mean;
            entropy -= share * log(share);
            spread += off * off;
        }
    qsort(sorted, table.words, sizeof *sorted, by_count);
    for (size_t i = 0; i < table.words && i < 5; i++)
        printf("%s %d\n", sorted[i]->text, sorted[i]->count);
    printf("%d words, entropy %.6f, deviation %.6f\n", (int)table.words, entropy, sqrt(spread / (double)table.words));
    return (int)(table.words % 100);
}
