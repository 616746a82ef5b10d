// Reads XML from standard input by pugixml, prints how often each element occurs and how deep, what a query finds, and a
// text that was changed.
#include "pugixml.hpp"
#include <stdio.h>
#include <stdlib.h>
#include <string.h>

void *operator new(size_t size) { return malloc(size ? size : 1); }
void operator delete(void *memory) noexcept { free(memory); }
void operator delete(void *memory, size_t) noexcept { free(memory); }
extern "C" void __cxa_pure_virtual() { abort(); }
// No object is destroyed when the program ends.
extern "C" int __cxa_atexit(void (*)(void *), void *, void *) { return 0; }

namespace {

struct Element {
    char name[32];
    unsigned count, deepest;
};

struct Outline : pugi::xml_tree_walker {
    Element elements[64];
    unsigned known = 0;

    bool for_each(pugi::xml_node &node) override {
        if (node.type() != pugi::node_element)
            return true;
        unsigned i = 0;
        while (i < known && strcmp(elements[i].name, node.name()) != 0)
            i++;
        if (i == 64)
            return false;
        if (i == known) {
            known++;
            elements[i] = Element{};
            strncpy(elements[i].name, node.name(), sizeof elements[i].name - 1);
        }
        elements[i].count++;
        if ((unsigned)depth() > elements[i].deepest)
            elements[i].deepest = (unsigned)depth();
        return true;
    }
};

struct Printed : pugi::xml_writer {
    size_t count = 0;
    unsigned sum = 0;

    void write(const void *data, size_t size) override {
        const unsigned char *bytes = static_cast<const unsigned char *>(data);
        count += size;
        while (size-- > 0)
            sum = sum * 31 + *bytes++;
    }
};

char text[1 << 18];

} // namespace

int main(int argc, char **argv) {
    const char *query = argc > 1 ? argv[1] : "//*[@id]";
    size_t count = fread(text, 1, sizeof text, stdin);
    pugi::xml_document document;
    pugi::xml_parse_result result = document.load_buffer(text, count);
    if (!result) {
        printf("%s at %ld\n", result.description(), (long)result.offset);
        return 1;
    }
    Outline outline;
    document.traverse(outline);
    for (unsigned i = 0; i < outline.known; i++)
        printf("%s %u %u\n", outline.elements[i].name, outline.elements[i].count, outline.elements[i].deepest);
    unsigned found = 0;
    pugi::xpath_node_set nodes = document.select_nodes(query);
    for (const pugi::xpath_node *node = nodes.begin(); node != nodes.end(); ++node) {
        node->node().append_attribute("found") = ++found;
    }
    Printed printed;
    document.save(printed, " ");
    printf("%u found; %lu bytes, %08x\n", found, (unsigned long)printed.count, printed.sum);
    return (int)(found & 63);
}
