/* Who holds it? A leak is found by g1_walk and g1_who alone, in a heap with room and in one that it filled.

     holds       a program keeps each request that it has served in a list by mistake, and drops it everywhere else. A census by first words
                 tells of what there are most, and who holds one of them leads to a register. Then each object of a walk is there once, by
                 its name, and none of those that were dropped; and each kind of holder is told, but no weak slot that reads nil

   The status is 1 where something is otherwise. */
#include <g1heap.h>
#include <stdio.h>
#include <stdlib.h>
#include <string.h>

enum { REQUEST = 7, SESSION = 8, CELL = 9, KINDS = 10, ROOM = 64 };
enum { LIST, NEW, OTHER, REGISTERS = 8 };

static g1_heap heap = G1_HEAP_NONE;
static g1_policy policy;
static g1_sizes sizes = {64, 256, 31, 1, 0, 64, 2, REGISTERS};

static int fails(const char *what)
{
    printf("%s\n", what);
    return 1;
}

/* Makes an object of a kind, in a register. */
static uint32_t make(uint32_t to, uint32_t pointers, uint32_t values, uint64_t kind)
{
    uint32_t code = g1_make(&heap, &policy, 0, to, pointers, 0, values).code;
    if (code == G1_NAME) g1_write(&heap, 0, to, 0, kind);
    return code;
}

/* Serves a request, which stays in a list: that is the leak. */
static uint32_t serve(void)
{
    if (make(NEW, 1, 4, REQUEST) != G1_NAME || make(OTHER, 2, 1, CELL) != G1_NAME) return G1_FULL;
    g1_put(&heap, 0, OTHER, 0, NEW), g1_put(&heap, 0, OTHER, 1, LIST);
    g1_move(&heap, 0, LIST, OTHER);
    if (make(NEW, 1, 2, SESSION) != G1_NAME) return G1_FULL;
    g1_drop(&heap, 0, NEW), g1_drop(&heap, 0, OTHER);
    return G1_NAME;
}

/* How many objects there are of each kind, which needs no room in the heap and no memory. */
static uint64_t census(uint64_t counts[KINDS])
{
    g1_object objects[ROOM];
    uint64_t cursor = 0, told, all = 0;
    memset(counts, 0, KINDS * sizeof *counts);
    while ((told = g1_walk(&heap, &cursor, objects, ROOM).first) != 0) {
        for (uint64_t i = 0; i < told; i++) counts[objects[i].word < KINDS ? objects[i].word : 0]++;
        all += told;
    }
    return all;
}

/* From the last object of a kind to a root, by who holds it, each time the first: how many objects are on the way, 0 where that ends. */
static uint64_t way_to_root(uint64_t kind, g1_holder *by)
{
    g1_object objects[ROOM];
    uint64_t cursor = 0, told, name = 0, length = 0;
    while ((told = g1_walk(&heap, &cursor, objects, ROOM).first) != 0)
        for (uint64_t i = 0; i < told; i++)
            if (objects[i].word == kind) name = objects[i].name;
    do {
        cursor = 0, length++;
        if (g1_who(&heap, name, &cursor, by, 1).first != 1) return 0;
        name = by->name;
    } while (by->kind >= G1_POINTER);
    return length;
}

static int leak(uint64_t requests, bool full)
{
    uint64_t counts[KINDS], served = 0;
    if (g1_new(&heap, &sizes) != G1_DONE) return fails("there is no heap");
    g1_policy_start(&policy, &sizes);
    while (served < requests && serve() == G1_NAME) served++;
    if (full == (served == requests)) return fails("the heap is full, or isn't");
    g1_drop(&heap, 0, NEW), g1_drop(&heap, 0, OTHER);
    g1_collect_all(&heap, &policy);
    if (census(counts) != 2 * served) return fails("the objects are others than the leak's");
    if (counts[REQUEST] != served || counts[CELL] != served || counts[SESSION] != 0) return fails("the census is wrong");
    g1_holder by;
    uint64_t length = way_to_root(REQUEST, &by);
    if (length < 2 || by.kind != G1_REGISTER || by.mutator != 0 || by.place != LIST) return fails("another one holds it");
    printf("%llu requests are kept, %llu sessions\n", (unsigned long long)counts[REQUEST], (unsigned long long)counts[SESSION]);
    g1_free(&heap);
    return 0;
}

/* The names of a walk, in buffers of any size, are those of the list, each once. */
static int each_once(uint32_t room)
{
    enum { COUNT = 300 };
    static g1_object objects[COUNT + 2];
    static bool seen[4 * COUNT];
    uint64_t cursor = 0, told, all = 0;
    memset(seen, 0, sizeof seen);
    if (g1_new(&heap, &sizes) != G1_DONE) return fails("there is no heap");
    g1_policy_start(&policy, &sizes);
    for (int i = 0; i < COUNT; i++)
        if (serve() != G1_NAME) return fails("the heap is full");
    g1_collect_all(&heap, &policy);
    while ((told = g1_walk(&heap, &cursor, objects, room).first) != 0) {
        if (told > room) return fails("more was told than there is room for");
        for (uint64_t i = 0; i < told; i++) {
            if (objects[i].name >= 4 * COUNT || seen[objects[i].name]) return fails("an object was told twice");
            seen[objects[i].name] = true;
        }
        all += told;
    }
    if (all != 2 * COUNT) return fails("an object was left out");
    for (g1_answer at = g1_name(&heap, 0, LIST); at.code == G1_NAME; at = g1_get(&heap, 0, LIST, LIST, 1)) {
        if (!seen[at.first] || !seen[g1_get(&heap, 0, NEW, LIST, 0).first]) return fails("an object of the list was left out");
    }
    g1_free(&heap);
    return 0;
}

/* Whether an object is held by so many, and the last of them is this one. */
static bool is_held(uint64_t name, uint64_t count, g1_holder last)
{
    g1_holder by[4] = {{0, 0, 0, 0, 0}};
    uint64_t cursor = 0, end;
    if (g1_who(&heap, name, &cursor, by, 4).first != count || g1_who(&heap, name, &cursor, by + 3, 1).first != 0) return false;
    cursor = 0;
    for (end = 0; g1_who(&heap, name, &cursor, by + 3, 1).first == 1; end++)
        if (memcmp(by + 3, by + end, sizeof *by) != 0) return false;
    return end == count && (count == 0 || memcmp(by + count - 1, &last, sizeof last) == 0);
}

/* A global, a register, pointers and weak slots, and a slot that reads nil. */
static int each_kind(void)
{
    g1_holder none = {0, 0, 0, 0, 0};
    if (g1_new(&heap, &sizes) != G1_DONE) return fails("there is no heap");
    uint64_t name = g1_new_object(&heap, 0, 0, 0, 1).first, weak = g1_new_weak(&heap, 0, 1, 0, 3, 0).first;
    if (!is_held(name, 1, (g1_holder){0, G1_REGISTER, 0, 0, 1})) return fails("a register doesn't hold it");
    g1_save(&heap, 0, 1, 0), g1_drop(&heap, 0, 0), g1_load(&heap, 0, 5, 1);
    if (!is_held(name, 2, (g1_holder){0, G1_REGISTER, 0, 5, 1})) return fails("a global and a register don't");
    g1_drop(&heap, 0, 5);
    if (!is_held(name, 1, (g1_holder){0, G1_GLOBAL, 0, 1, 1})) return fails("a global doesn't");
    g1_load(&heap, 0, 0, 1);
    g1_put_weak(&heap, 0, 1, 1, 0), g1_put_weak(&heap, 0, 1, 2, 0);
    if (!is_held(name, 3, (g1_holder){weak, G1_WEAK_SLOT, 0, 1, 2})) return fails("weak slots don't");
    uint64_t strong = g1_new_weak(&heap, 0, 2, 3, 1, 0).first;
    g1_put(&heap, 0, 2, 2, 0), g1_put_weak(&heap, 0, 2, 0, 0);
    if (!is_held(name, 4, (g1_holder){strong, G1_POINTER, 0, 2, 2})) return fails("a pointer doesn't");
    g1_put(&heap, 0, 2, 2, G1_NIL_REGISTER), g1_drop(&heap, 0, 0), g1_save(&heap, 0, 1, 0);
    if (!is_held(name, 2, (g1_holder){strong, G1_WEAK_SLOT, 0, 0, 1})) return fails("a slot isn't left");
    g1_begin(&heap), g1_mark(&heap, UINT32_MAX), g1_remark(&heap);
    if (g1_clearing(&heap).first != 1 || !is_held(name, 0, none)) return fails("a slot that reads nil holds it");
    g1_clear(&heap, UINT32_MAX);
    if (!is_held(name, 0, none) || !is_held(UINT64_MAX, 0, none)) return fails("a cleared slot holds it");
    g1_free(&heap);
    return 0;
}

int main(void)
{
    if (each_kind()) return 1;
    if (leak(1000, false) || leak(UINT64_MAX, true)) return 1;
    for (uint32_t room = 1; room <= 302; room = room * 2 + 1)
        if (each_once(room > 300 ? 300 : room)) return 1;
    return 0;
}
