/* Walks over a list of N objects, the last of which is in r0 and r1: each one's first pointer names the one before.

       walks RECORD KIND N POINTERS REGISTERS
       walks RECORD sizes WORDS MUTATORS GLOBALS REGISTERS

   POINTERS is how many each has. KIND is `whole`; `twice`: r1 holds a copy, which has the same name; `wild`: the object of r0 has a name
   that none was given; `without`: its name is that of nil; `sync`: as `whole`, and a sync in place of the walk. Prints how many objects
   weren't followed. By `sizes` a record without events is written. walks.py does the same in Python. */
#include "../../recorder/g1record.h"
#include <string.h>

typedef struct node { uint64_t name; unsigned pointers; struct node *fields[3]; } node;
static node *stack[2];

static unsigned roots(void *heap, int m) { (void)heap; return m < 0 ? 0 : 2; }
static void *root(void *heap, int m, unsigned i) { (void)heap, (void)m; return stack[i]; }
static uint64_t name(void *heap, void *it) { (void)heap; return ((node *)it)->name; }
static unsigned pointers(void *heap, void *it) { (void)heap; return ((node *)it)->pointers; }
static unsigned words(void *heap, void *it) { (void)heap, (void)it; return 0; }
static void *pointer(void *heap, void *it, unsigned i) { (void)heap; return ((node *)it)->fields[i]; }
static uint64_t word(void *heap, void *it, unsigned i) { (void)heap, (void)it, (void)i; return 0; }

static unsigned number(const char *text) { return (unsigned)strtoul(text, NULL, 10); }
static int sizes(char **words) {
    g1record r;
    uint64_t room = strtoull(words[3], NULL, 10);
    return g1record_open(&r, words[1], room, number(words[4]), number(words[5]), number(words[6])) != 0 || g1record_close(&r) != 0;
}
int main(int count, char **arguments) {
    if (count == 7) return sizes(arguments);
    g1record r;
    g1record_view view = {NULL, roots, root, name, pointers, NULL, words, pointer, NULL, word};
    unsigned made = count == 6 ? number(arguments[3]) : 0, fields = made > 0 ? number(arguments[4]) : 0;
    node *nodes = (node *)calloc(made + 1, sizeof(node));
    if (made == 0 || nodes == NULL || g1record_open(&r, arguments[1], 100000, 1, 0, number(arguments[5])) != 0) return 1;
    for (unsigned i = 0; i < made; i++) {
        nodes[i].name = g1record_new(&r, 0, 1, fields, 0), nodes[i].pointers = fields;
        if (i > 0) nodes[i].fields[0] = &nodes[i - 1], g1record_put(&r, 0, 1, 0, 0);
        g1record_move(&r, 0, 0, 1);
    }
    stack[0] = stack[1] = &nodes[made - 1];
    nodes[made] = nodes[made - 1];
    if (strcmp(arguments[2], "twice") == 0) stack[1] = &nodes[made];
    if (strcmp(arguments[2], "wild") == 0) stack[0]->name = 1u << 31;
    if (strcmp(arguments[2], "without") == 0) stack[0]->name = G1RECORD_NIL;
    printf("%d\n", (int)(strcmp(arguments[2], "sync") == 0 ? g1record_sync : g1record_walk)(&r, &view));
    free(nodes);
    return g1record_close(&r) != 0;
}
