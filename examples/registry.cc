// Kinds of parts that register themselves before main, virtual calls through their bases, templates, and destructors.
#include <stdio.h>
#include <stdlib.h>

class Part {
public:
    virtual ~Part() {}
    virtual long step(long value) const = 0;
    virtual const char *name() const { return "part"; }
};

struct Kind {
    const char *name;
    Part *(*make)(int);
    Kind *next;
    static Kind *all;
    static int count;
    Kind(const char *name, Part *(*make)(int)) : name(name), make(make), next(all) {
        all = this;
        count++;
    }
    ~Kind() { printf("kind %s ends\n", name); }
};

Kind *Kind::all;
int Kind::count;

template <typename T> class List {
    T *items = nullptr;
    int used = 0, room = 0;

public:
    List() {}
    List(const List &) = delete;
    ~List() { delete[] items; }
    void add(const T &item) {
        if (used == room) {
            T *more = new T[room = room * 2 + 4];
            for (int i = 0; i < used; i++)
                more[i] = items[i];
            delete[] items;
            items = more;
        }
        items[used++] = item;
    }
    int size() const { return used; }
    const T &operator[](int i) const { return items[i]; }
};

class Times : public Part {
    int factor;

public:
    explicit Times(int factor) : factor(factor) {}
    long step(long value) const override { return (value * factor + 1) % 1000003; }
    const char *name() const override { return "times"; }
};

class Mixed : public Times {
    int shift;

public:
    explicit Mixed(int n) : Times(n + 2), shift(n % 5 + 1) {}
    long step(long value) const override { return Times::step(value) ^ (value >> shift); }
    const char *name() const override { return "mixed"; }
};

class Plain : public Part {
    long step(long value) const override { return value + 1; }
};

template <typename T> static Part *made(int n) { return new T(n); }
template <> Part *made<Plain>(int) { return new Plain; }

static Kind times("times", made<Times>), mixed("mixed", made<Mixed>), plain("plain", made<Plain>);

static const List<Part *> &parts() {
    static List<Part *> list; // made at the first call, and destroyed before the kinds
    if (list.size() == 0)
        for (Kind *kind = Kind::all; kind != nullptr; kind = kind->next)
            for (int n = 1; n <= 3; n++)
                list.add(kind->make(n));
    return list;
}

template <typename F> static long fold(int rounds, long value, F next) {
    while (rounds-- > 0)
        value = next(value);
    return value;
}

int main(int argc, char **argv) {
    int rounds = argc > 1 ? atoi(argv[1]) : 20;
    const List<Part *> &all = parts();
    int turn = 0;
    long value = fold(rounds, 1, [&](long was) { return all[turn++ % all.size()]->step(was); });
    for (int i = 0; i < all.size(); i += 3)
        printf("%s ", all[i]->name());
    printf("registry %d, %d parts: %ld\n", Kind::count, all.size(), value);
    for (int i = 0; i < all.size(); i++)
        delete all[i];
    return (int)(value % 100);
}
