/* Counts the words of a file, and writes them to another file, most frequent ones first. It uses more of Linux than the
   tool's own machine has: it opens and maps files and takes the time, and if it gets these words, a timer sends it
   signals, threads count letters, and a process of its own counts too.

       tally IN OUT [timer] [threads] [fork] */
#include <ctype.h>
#include <stdio.h>
#include <stdlib.h>
#include <string.h>
#include <unistd.h>

/* Numbers of system calls of RV64, and of what they take, as Linux has them. */
enum { OPENAT = 56, CLOSE = 57, FSTAT = 80, SET_TIMER = 103, CLOCK = 113, YIELD = 124, ON_SIGNAL = 134 };
enum { MUNMAP = 215, CLONE = 220, MMAP = 222, WAIT = 260 };
enum { HERE = -100, READ_ONLY = 0, CREATE = 01 | 0100 | 01000, READABLE = 1, PRIVATE = 2, MONOTONIC = 1 };
enum { SIGALRM = 14, SIGCHLD = 17, RESTART = 0x10000000, THREAD = 0x50f00 };

enum { SLOTS = 4096, THREADS = 4, ROUNDS = 10, STACK = 16384 };

static long call(long number, long a, long b, long c, long d, long e) {
    register long a0 __asm__("a0") = a, a1 __asm__("a1") = b, a2 __asm__("a2") = c, a3 __asm__("a3") = d,
                  a4 __asm__("a4") = e, a5 __asm__("a5") = 0, a7 __asm__("a7") = number;
    __asm__ volatile("ecall" : "+r"(a0) : "r"(a1), "r"(a2), "r"(a3), "r"(a4), "r"(a5), "r"(a7) : "memory");
    return a0;
}

/* Starts a thread, which calls `f(argument)` on a stack of its own and ends. */
long start_thread(long flags, void *stack, void (*f)(void *), void *argument);
__asm__(".globl start_thread\n.type start_thread, @function\n"
        "start_thread:\n"
        "\taddi a1, a1, -16\n\tsd a2, 0(a1)\n\tsd a3, 8(a1)\n"
        "\tli a2, 0\n\tli a3, 0\n\tli a4, 0\n\tli a7, 220\n\tecall\n"
        "\tbeqz a0, 1f\n\tret\n"
        "1:\tld a1, 0(sp)\n\tld a0, 8(sp)\n\tjalr a1\n\tli a0, 0\n\tli a7, 93\n\tecall\n2:\tj 2b\n"
        "\t.size start_thread, . - start_thread\n");

typedef struct {
    const char *bytes;
    size_t length;
} Text;

typedef struct Word {
    struct Word *next;
    unsigned long hash, count;
    size_t length;
    char letters[];
} Word;

static Text text;
static Word *slots[SLOTS];
static size_t words;
static volatile unsigned ticks;
static volatile int done[THREADS];
static unsigned long found[THREADS];
static char stacks[THREADS][STACK] __attribute__((aligned(16)));

static unsigned long hash_of(const char *letters, size_t length) {
    unsigned long hash = 14695981039346656037ul;
    for (size_t i = 0; i < length; i++)
        hash = (hash ^ (unsigned char)tolower((unsigned char)letters[i])) * 1099511628211ul;
    return hash;
}

static int is_same(const Word *word, const char *letters, size_t length) {
    if (word->length != length)
        return 0;
    for (size_t i = 0; i < length; i++)
        if (word->letters[i] != tolower((unsigned char)letters[i]))
            return 0;
    return 1;
}

static void add(const char *letters, size_t length) {
    unsigned long hash = hash_of(letters, length);
    Word **slot = &slots[hash % SLOTS];
    for (Word *word = *slot; word; word = word->next)
        if (word->hash == hash && is_same(word, letters, length)) {
            word->count++;
            return;
        }
    Word *word = malloc(sizeof *word + length + 1);
    if (!word) {
        printf("there is no memory\n");
        exit(3);
    }
    *word = (Word){*slot, hash, 1, length};
    for (size_t i = 0; i < length; i++)
        word->letters[i] = (char)tolower((unsigned char)letters[i]);
    word->letters[length] = 0;
    *slot = word;
    words++;
}

static void scan(void) {
    for (size_t i = 0; i < text.length;) {
        while (i < text.length && !isalpha((unsigned char)text.bytes[i]))
            i++;
        size_t start = i;
        while (i < text.length && isalpha((unsigned char)text.bytes[i]))
            i++;
        if (i > start)
            add(text.bytes + start, i - start);
    }
}

/* Counts a letter in a part of the text. */
static void count_letters(void *argument) {
    long part = (long)argument;
    unsigned long count = 0;
    for (int round = 0; round < ROUNDS; round++)
        for (size_t i = text.length * (size_t)part / THREADS; i < text.length * (size_t)(part + 1) / THREADS; i++)
            if ((text.bytes[i] | 32) == 'e')
                count++;
    found[part] = count;
    done[part] = 1;
}

static unsigned long wait_for_threads(void) {
    unsigned long sum = 0;
    for (int i = 0; i < THREADS; i++) {
        while (!done[i])
            call(YIELD, 0, 0, 0, 0, 0);
        sum += found[i];
    }
    return sum;
}

static void tick(int number) {
    (void)number;
    ticks++;
}

static void start_timer(void) {
    unsigned long action[4] = {(unsigned long)tick, RESTART};
    long each[4] = {0, 1000, 0, 1000}; /* seconds and microseconds, twice */
    call(ON_SIGNAL, SIGALRM, (long)action, 0, 8, 0);
    call(SET_TIMER, 0, (long)each, 0, 0, 0);
}

static long now(void) {
    long time[2];
    call(CLOCK, MONOTONIC, (long)time, 0, 0, 0);
    return time[0] * 1000000000 + time[1];
}

static int map_text(const char *name) {
    unsigned long status[16] = {0}; /* of which the sixth is the size */
    long file = call(OPENAT, HERE, (long)name, READ_ONLY, 0, 0);
    if (file < 0 || call(FSTAT, file, (long)status, 0, 0, 0))
        return 0;
    long at = call(MMAP, 0, (long)status[6], READABLE, PRIVATE, file);
    call(CLOSE, file, 0, 0, 0, 0);
    text = (Text){(const char *)at, status[6]};
    return at > 0;
}

static int by_count(const void *a, const void *b) {
    const Word *x = *(Word *const *)a, *y = *(Word *const *)b;
    if (x->count != y->count)
        return x->count < y->count ? 1 : -1;
    return strcmp(x->letters, y->letters);
}

static int write_words(const char *name) {
    Word **list = malloc((words + 1) * sizeof *list);
    long file = call(OPENAT, HERE, (long)name, CREATE, 0644, 0);
    if (!list || file < 0)
        return 0;
    size_t count = 0;
    for (int i = 0; i < SLOTS; i++)
        for (Word *word = slots[i]; word; word = word->next)
            list[count++] = word;
    qsort(list, count, sizeof *list, by_count);
    for (size_t i = 0; i < count; i++) {
        char line[128];
        int size = snprintf(line, sizeof line, "%6lu %.100s\n", list[i]->count, list[i]->letters);
        write((int)file, line, (size_t)size);
    }
    call(CLOSE, file, 0, 0, 0, 0);
    return 1;
}

static int is_asked(int argc, char **argv, const char *word) {
    for (int i = 3; i < argc; i++)
        if (!strcmp(argv[i], word))
            return 1;
    return 0;
}

/* What the process that was forked does, if this is that one; else waits for it. */
static int child_status(long child) {
    int status = 0;
    if (child == 0) {
        printf("child: %lu words\n", (unsigned long)words);
        return 0;
    }
    call(WAIT, child, (long)&status, 0, 0, 0);
    printf("child ended %d\n", status >> 8);
    return 1;
}

int main(int argc, char **argv) {
    int timer = is_asked(argc, argv, "timer"), threads = is_asked(argc, argv, "threads");
    if (argc < 3 || !map_text(argv[1])) {
        printf("tally IN OUT [timer] [threads] [fork], where IN can be mapped\n");
        return 2;
    }
    long before = now();
    if (timer)
        start_timer();
    long child = is_asked(argc, argv, "fork") ? call(CLONE, SIGCHLD, 0, 0, 0, 0) : -1;
    if (threads)
        for (long i = 0; i < THREADS; i++)
            start_thread(THREAD, stacks[i] + STACK, count_letters, (void *)i);
    for (int round = 0; round < ROUNDS; round++)
        scan();
    unsigned long letters = threads ? wait_for_threads() : 0;
    if (child >= 0 && !child_status(child))
        return 5;
    if (!write_words(argv[2])) {
        printf("can't write %s\n", argv[2]);
        return 1;
    }
    call(MUNMAP, (long)text.bytes, (long)text.length, 0, 0, 0);
    printf("%lu bytes, %lu words, %lu letters, time went %s\n", (unsigned long)text.length, (unsigned long)words,
           letters, now() > before ? "on" : "back");
    if (timer)
        printf("%s\n", ticks ? "ticked" : "no tick");
    return 0;
}
