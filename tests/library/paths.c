/* A shortest way from a root to an object, by g1_path alone.

     paths       a chain, the shorter of two ways, one that a weak slot makes shorter and isn't followed, an object that only a weak slot
                 names, a ring, and buffers that are too small; and in drawn heaps the ways are as long as a search of the test's own finds

   The status is 1 where something is otherwise. */
#include <g1heap.h>
#include <stdio.h>
#include <stdlib.h>
#include <string.h>

enum { REGISTERS = 8, ROOM = 64, OBJECTS = 40, FIELDS = 3, TRIES = 400 };

static g1_heap heap = G1_HEAP_NONE;
static g1_sizes sizes = {16, 128, 15, 2, 0, 16, 4, REGISTERS};

static int fails(const char *what)
{
    printf("%s\n", what);
    return 1;
}

/* Makes an object in a register of mutator 0: its name. */
static uint64_t make(uint32_t to, uint32_t pointers, uint32_t weaks)
{
    return (weaks == 0 ? g1_new_object(&heap, 0, to, pointers, 1) : g1_new_weak(&heap, 0, to, pointers, weaks, 1)).first;
}

static bool is_entry(const g1_holder *it, uint64_t name, uint32_t kind, uint32_t place)
{
    return it->name == name && it->kind == kind && it->mutator == 0 && it->place == place && it->fields == 1;
}

/* Four objects in a row, of which a global holds the first: each buffer from one place on. */
static int chain(void)
{
    uint64_t names[4];
    g1_holder way[ROOM];
    if (g1_new(&heap, &sizes) != G1_DONE) return fails("there is no heap");
    for (uint32_t i = 0; i < 4; i++) {
        names[i] = make(i, 2, 0);
        if (i != 0) g1_put(&heap, 0, i - 1, i % 2, i);
    }
    g1_save(&heap, 0, 2, 0), g1_scope(&heap, 0, 0);
    for (size_t room = 0; room <= ROOM; room++) {
        g1_answer told = g1_path(&heap, names[3], way, room);
        if (room < 5 ? told.code != G1_FULL || told.first != 0 : told.code != G1_NUMBER || told.first != 4) return fails("a chain");
        if (room < 5) continue;
        if (!is_entry(&way[0], 0, G1_GLOBAL, 2)) return fails("a chain has another root");
        for (uint32_t i = 0; i < 3; i++)
            if (!is_entry(&way[i + 1], names[i], G1_POINTER, (i + 1) % 2)) return fails("a chain has other fields");
    }
    if (g1_path(&heap, names[0], way, 2).first != 1 || g1_path(&heap, UINT64_MAX, way, 2).first != 0) return fails("one root");
    g1_free(&heap);
    return 0;
}

/* Two ways: by `far` objects, and by one alone, or by a weak slot of it. */
static int diamond(uint32_t far, bool weak)
{
    g1_holder way[ROOM];
    if (g1_new(&heap, &sizes) != G1_DONE) return fails("there is no heap");
    uint64_t end = make(0, 0, 0), near = make(1, 1, 1);
    if (weak) g1_put_weak(&heap, 0, 1, 0, 0);
    else g1_put(&heap, 0, 1, 0, 0);
    g1_save(&heap, 0, 3, 1);
    for (uint32_t i = 0; i < far; i++) make(1, 1, 0), g1_put(&heap, 0, 1, 0, 0), g1_move(&heap, 0, 0, 1);
    g1_save(&heap, 0, 1, 0), g1_scope(&heap, 0, 0);
    uint64_t told = g1_path(&heap, end, way, ROOM).first;
    if (told != (weak ? far + 1 : far < 1 ? 1 : 2)) return fails("another way is told");
    if (!weak && far > 1 && !is_entry(&way[1], near, G1_POINTER, 0)) return fails("a longer way is told");
    g1_free(&heap);
    return 0;
}

/* A ring that a register holds, and nothing after that; and what only a weak slot names. */
static int ring(void)
{
    g1_holder way[ROOM];
    if (g1_new(&heap, &sizes) != G1_DONE) return fails("there is no heap");
    uint64_t one = make(0, 1, 0), other = make(1, 1, 0), slot = make(2, 0, 1);
    g1_put(&heap, 0, 0, 0, 1), g1_put(&heap, 0, 1, 0, 0), g1_put_weak(&heap, 0, 2, 0, 1), g1_drop(&heap, 0, 1);
    if (g1_path(&heap, other, way, ROOM).first != 2 || !is_entry(&way[0], 0, G1_REGISTER, 0)) return fails("a ring");
    if (!is_entry(&way[1], one, G1_POINTER, 0) || g1_path(&heap, slot, way, ROOM).first != 1) return fails("a ring's way");
    g1_drop(&heap, 0, 0);
    g1_answer told = g1_path(&heap, other, way, 4);
    if (told.code != G1_NUMBER || told.first != 0) return fails("nothing leads to a ring");
    if (g1_path(&heap, other, way, 2).code != G1_FULL) return fails("a ring has no room");
    g1_free(&heap);
    return 0;
}

/* The steps from a root to each object, by its number; OBJECTS: none. */
static void distances(uint32_t fields[OBJECTS][FIELDS], const bool roots[OBJECTS], uint32_t steps[OBJECTS])
{
    for (uint32_t i = 0; i < OBJECTS; i++) steps[i] = roots[i] ? 1 : OBJECTS;
    for (uint32_t round = 0; round < OBJECTS; round++)
        for (uint32_t i = 0; i < OBJECTS; i++)
            for (uint32_t j = 0; j < FIELDS; j++)
                if (fields[i][j] < OBJECTS && steps[i] + 1 < steps[fields[i][j]]) steps[fields[i][j]] = steps[i] + 1;
}

/* A way's entries lead from a root to the object, by the fields that they tell. */
static bool is_way(const g1_holder *way, uint64_t told, uint64_t name)
{
    for (uint64_t i = 0; i < told; i++) {
        uint64_t next = i + 1 < told ? way[i + 1].name : name;
        if ((i == 0) != (way[i].kind < G1_POINTER) || way[i].kind == G1_WEAK_SLOT) return false;
        if (i == 0) {
            if ((way[i].kind == G1_GLOBAL ? g1_load(&heap, 1, 0, way[i].place) : g1_move(&heap, 1, 0, 0)).first != next) return false;
        } else if (g1_get(&heap, 1, 0, 0, way[i].place).first != next) return false;
    }
    g1_drop(&heap, 1, 0); /* which would be a root of its own */
    return true;
}

static int drawn(uint32_t seed)
{
    uint32_t fields[OBJECTS][FIELDS], steps[OBJECTS];
    bool roots[OBJECTS] = {false};
    uint64_t names[OBJECTS];
    g1_holder way[ROOM];
    srand(seed);
    if (g1_new(&heap, &sizes) != G1_DONE) return fails("there is no heap");
    make(0, OBJECTS, 0);
    for (uint32_t i = 0; i < OBJECTS; i++) names[i] = make(1, FIELDS, 1), g1_put(&heap, 0, 0, i, 1);
    for (uint32_t i = 0; i < OBJECTS; i++) {
        g1_get(&heap, 0, 1, 0, i);
        for (uint32_t j = 0; j < FIELDS; j++) {
            fields[i][j] = rand() % 3 == 0 ? (uint32_t)rand() % OBJECTS : OBJECTS;
            if (fields[i][j] < OBJECTS) g1_get(&heap, 0, 2, 0, fields[i][j]), g1_put(&heap, 0, 1, j, 2);
        }
        g1_get(&heap, 0, 2, 0, (uint32_t)rand() % OBJECTS), g1_put_weak(&heap, 0, 1, 0, 2);
    }
    for (uint32_t i = 0; i < 2; i++) {
        uint32_t root = (uint32_t)rand() % OBJECTS;
        roots[root] = true, g1_get(&heap, 0, 1, 0, root), g1_save(&heap, 0, i, 1);
    }
    g1_scope(&heap, 0, 0);
    g1_begin(&heap), g1_mark(&heap, UINT32_MAX), g1_remark(&heap);
    distances(fields, roots, steps);
    for (uint32_t i = 0; i < OBJECTS; i++) {
        uint64_t told = g1_path(&heap, names[i], way, ROOM).first;
        if (told != (steps[i] == OBJECTS ? 0 : steps[i]) || !is_way(way, told, names[i])) return fails("another way is shortest");
    }
    g1_free(&heap);
    return 0;
}

int main(void)
{
    if (chain() || ring()) return 1;
    for (uint32_t far = 0; far <= 4; far++)
        if (diamond(far, false) || diamond(far, true)) return 1;
    for (uint32_t seed = 0; seed < TRIES; seed++)
        if (drawn(seed)) return 1;
    return 0;
}
