/* Objects with tables of functions, state machines whose states are functions, callbacks and recursion. */
#include <stdarg.h>
#include <stdio.h>
#include <stdlib.h>
#include <string.h>

typedef struct Shape Shape;
typedef struct {
    const char *name;
    long (*area)(const Shape *);
    long (*edges)(const Shape *);
    void (*grow)(Shape *, long);
} Kind;
struct Shape {
    const Kind *kind;
    long a, b;
    Shape *next;
};

static long square_area(const Shape *s) { return s->a * s->a; }
static long rectangle_area(const Shape *s) { return s->a * s->b; }
static long triangle_area(const Shape *s) { return s->a * s->b / 2; }
static long four(const Shape *s) { (void)s; return 4; }
static long three(const Shape *s) { (void)s; return 3; }
static void grow_one(Shape *s, long by) { s->a += by; }
static void grow_both(Shape *s, long by) { s->a += by; s->b += by; }

static const Kind kinds[] = {
    {"square", square_area, four, grow_one},
    {"rectangle", rectangle_area, four, grow_both},
    {"triangle", triangle_area, three, grow_both},
};

typedef struct Reader Reader;
typedef void (*State)(Reader *, char);
struct Reader {
    State state;
    long words, numbers, others, value, sum;
};
static void outside(Reader *, char);
static void in_number(Reader *reader, char c) {
    if (c >= '0' && c <= '9')
        reader->value = reader->value * 10 + (c - '0');
    else {
        reader->numbers++;
        reader->sum += reader->value;
        reader->state = outside;
        reader->state(reader, c);
    }
}
static void in_word(Reader *reader, char c) {
    if (!(c >= 'a' && c <= 'z')) {
        reader->words++;
        reader->state = outside;
        reader->state(reader, c);
    }
}
static void outside(Reader *reader, char c) {
    if (c >= '0' && c <= '9') {
        reader->value = c - '0';
        reader->state = in_number;
    } else if (c >= 'a' && c <= 'z')
        reader->state = in_word;
    else
        reader->others++;
}

static long sum_of(int count, ...) {
    va_list items;
    va_start(items, count);
    long sum = 0;
    while (count-- > 0)
        sum += va_arg(items, long);
    va_end(items);
    return sum;
}

static long each(const Shape *list, long (*of)(const Shape *)) {
    long sum = 0;
    for (; list != NULL; list = list->next)
        sum += of(list);
    return sum;
}
static long area(const Shape *s) { return s->kind->area(s); }
static long edges(const Shape *s) { return s->kind->edges(s); }

static long ackermann(long m, long n) {
    if (m == 0)
        return n + 1;
    return n == 0 ? ackermann(m - 1, 1) : ackermann(m - 1, ackermann(m, n - 1));
}

int main(int argc, char **argv) {
    long count = argc > 1 ? atoi(argv[1]) : 12;
    Shape *list = NULL;
    for (long i = 0; i < count; i++) {
        Shape *shape = malloc(sizeof *shape);
        *shape = (Shape){&kinds[i * 7 % 3], i + 1, i + 2, list};
        list = shape;
    }
    for (Shape *s = list; s != NULL; s = s->next)
        if (s->kind->grow != grow_one)
            s->kind->grow(s, 2);
    Shape first = *list;
    printf("area %ld, edges %ld, %s\n", each(list, area), each(list, edges), first.kind->name);
    char text[64];
    Reader reader = {outside, 0, 0, 0, 0, 0};
    for (long i = 0; i < count; i++) {
        const char *name = kinds[i % 3].name;
        snprintf(text, sizeof text, "%ld words and %04x numbers, %-6s|%c%%", i * 37, (unsigned)(i * 91), name,
                 'a' + (int)(i % 26));
        for (const char *c = text; *c != 0; c++)
            reader.state(&reader, *c);
    }
    printf("%ld words, %ld numbers, %ld others, %ld\n", reader.words, reader.numbers, reader.others, reader.sum);
    printf("%ld %ld\n", sum_of(5, 1L, 2L, 3L, count, 5L), ackermann(2, count % 7));
    return (int)((reader.sum + (long)strlen(text)) % 100);
}
