/* A runtime's table of interned strings in a heap of 16 MiB: 330,000 strings come, of which 30,000 are kept, in a table of weak slots that
   doubles where there is no room. The policy has to cope with it.

     interned            the table grows whenever a part of it is full
     interned collect    before it grows, a whole collection clears the slots of what died */
#include <g1heap.h>
#include <stdio.h>
#include <stdlib.h>

enum { TABLE, PART, STRING, OTHER, KEPT, FRAME, OLD, WIDER }; /* registers */
enum { SLOTS = 32, COMING = 330000, EACH = 11 };             /* slots of a part; of the strings that come each eleventh is kept */
static g1_heap heap = G1_HEAP_NONE;
static g1_policy policy;

static uint32_t free_regions(void) { return (uint32_t)g1_free_regions(&heap).first; }
static uint32_t parts = 16;

static void make(uint32_t to, uint32_t pointers, uint32_t weaks, uint32_t values)
{
    uint32_t code = g1_make(&heap, &policy, 0, to, pointers, weaks, values).code;
    if (code == G1_NAME) return;
    printf("code %u with %u parts and %u free regions\n", code, parts, free_regions());
    exit(1);
}
static void make_table(uint32_t to, uint32_t count)
{
    make(to, count, 0, 0);
    for (uint32_t i = 0; i < count; i++) make(PART, 0, SLOTS, 0), g1_put(&heap, 0, to, i, PART);
}
static uint32_t key_of(uint32_t string) { return (uint32_t)g1_read(&heap, 0, string, 0).first; }
static uint32_t mixed(uint32_t key) { return (key ^ key >> 15) * 0x2c1b3c6du >> 4; }

/* Puts STRING into a free slot of its part of a table. */
static int put(uint32_t table, uint32_t count, uint32_t key)
{
    uint32_t hash = mixed(key);
    g1_get(&heap, 0, PART, table, hash % count);
    for (uint32_t i = 0; i < SLOTS; i++) {
        uint32_t slot = (hash / count + i) % SLOTS;
        if (g1_get_weak(&heap, 0, OTHER, PART, slot).code == G1_NIL_VALUE) return g1_put_weak(&heap, 0, PART, slot, STRING), 1;
    }
    return 0;
}
/* Twice as many parts, and more where that is too few. */
static void widen(void)
{
    uint32_t count = parts;
    g1_move(&heap, 0, FRAME, STRING);
    for (int well = 0; !well;) {
        make_table(WIDER, count *= 2), well = 1;
        for (uint32_t i = 0; i < parts * SLOTS && well; i++) {
            g1_get(&heap, 0, OLD, TABLE, i / SLOTS);
            if (g1_get_weak(&heap, 0, STRING, OLD, i % SLOTS).code == G1_NAME) well = put(WIDER, count, key_of(STRING));
        }
    }
    g1_move(&heap, 0, STRING, FRAME), g1_move(&heap, 0, TABLE, WIDER);
    g1_scope(&heap, 0, FRAME);
    parts = count;
}
static int is_known(uint32_t key)
{
    uint32_t hash = mixed(key);
    g1_get(&heap, 0, PART, TABLE, hash % parts);
    for (uint32_t i = 0; i < SLOTS; i++)
        if (g1_get_weak(&heap, 0, STRING, PART, (hash / parts + i) % SLOTS).code == G1_NAME && key_of(STRING) == key) return 1;
    return 0;
}
static void intern(uint32_t key, int collect)
{
    if (is_known(key)) return;
    make(STRING, 0, 0, 2 + key % 7);
    g1_write(&heap, 0, STRING, 0, key);
    for (uint64_t at = UINT64_MAX; !put(TABLE, parts, key);)
        if (collect && at != policy.cycles) g1_collect_all(&heap, &policy), at = policy.cycles;
        else widen();
    g1_drop(&heap, 0, OTHER), g1_drop(&heap, 0, PART);
}

int main(int count, char **words)
{
    g1_sizes sizes = {512, 4096, 511, 1, 0, 8, 0, 8};
    uint32_t kept = 0, lost = 0;
    (void)words;
    if (g1_new(&heap, &sizes) != G1_DONE) return 1;
    g1_policy_start(&policy, &sizes);
    make(KEPT, COMING / EACH, 0, 0);
    make_table(TABLE, parts);
    for (uint32_t key = 0; key < COMING; key++) {
        intern(key, count > 1);
        if (key % EACH == 0) g1_put(&heap, 0, KEPT, kept++, STRING);
        g1_drop(&heap, 0, STRING);
    }
    for (uint32_t key = 0; key < COMING; key += EACH) lost += !is_known(key);
    printf("%u of %u kept strings lost; %u slots, %llu cycles, %llu pauses, %u free regions\n", lost, kept, parts * SLOTS,
           (unsigned long long)policy.cycles, (unsigned long long)policy.pauses, free_regions());
    g1_free(&heap);
    return lost != 0;
}
