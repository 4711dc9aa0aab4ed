/* Which share of live words the policy of include/g1heap.h sustains. A load keeps so many words live and makes others, until 10 times
   the heap's words were made; the share rises by 5 percent, up to 85, until G1_FULL comes. It prints the last share that was sustained, and
   what the collector did at 60 percent for each 1,000 words that were made.

     cc -O2 -Iinclude tools/measuring/policy_loads.c -Llib -lg1heap -o policy_loads
     ./policy_loads 64 256                              heaps of 64 and of 256 regions; else 64, 256 and 1,024 */
#include "g1heap.h"
#include <inttypes.h>
#include <stdio.h>
#include <stdlib.h>

enum { TABLE, BUCKET, HEAD, NEW, OTHER };            /* registers */
enum { BUCKETS = 256, SLOTS = 64, MOST_SHARE = 85 };                  /* the table that keeps things: an object of objects */
enum { GRAPHS, LISTS, ARRAYS, LARGE, LOADS };
static const char *const names[LOADS] = {"graphs", "lists", "arrays", "large"};

static g1_heap heap = G1_HEAP_NONE;
static g1_sizes sizes;
static g1_policy policy;
static uint64_t made, seed;
static uint32_t kept[BUCKETS * SLOTS];               /* words of what each slot leads to */

static uint32_t draw(uint32_t below)
{
    seed ^= seed << 13, seed ^= seed >> 7, seed ^= seed << 17;
    return (uint32_t)((seed >> 20) % below);
}

/* The words that an object takes: a large one has its regions to itself. */
static uint32_t taken(uint32_t size)
{
    return size > sizes.words / 2 ? (size + sizes.words - 1) / sizes.words * sizes.words : size;
}

static int make(uint32_t to, uint32_t pointers, uint32_t values, uint32_t *words)
{
    made += 2 + pointers + values, *words += taken(2 + pointers + values);
    return g1_make(&heap, &policy, 0, to, pointers, 0, values).code == G1_NAME;
}

/* A group of objects that name each other at random; a table of them makes it one. */
static int graph(uint32_t *words)
{
    uint32_t count = 2 + draw(40);
    if (!make(HEAD, count, 0, words)) return 0;
    for (uint32_t i = 0; i < count; i++) {
        if (!make(NEW, 3, draw(7), words)) return 0;
        g1_put(&heap, 0, HEAD, i, NEW);
    }
    for (uint32_t i = 0; i < 2 * count; i++) {
        g1_get(&heap, 0, NEW, HEAD, draw(count));
        g1_get(&heap, 0, OTHER, HEAD, draw(count));
        g1_put(&heap, 0, NEW, draw(3), OTHER);
    }
    return 1;
}

static int list(uint32_t *words)
{
    g1_drop(&heap, 0, HEAD);
    for (uint32_t left = 1 + draw(200); left != 0; left--) {
        if (!make(NEW, 2, 1, words)) return 0;
        g1_put(&heap, 0, NEW, 0, HEAD);
        g1_move(&heap, 0, HEAD, NEW);
    }
    return 1;
}

/* An array of up to 2^bits words: small ones are more frequent. */
static int array(uint32_t bits, uint32_t *words)
{
    uint32_t most = 2u << draw(bits);
    return make(HEAD, 0, most / 2 + draw(most / 2), words);
}

/* Makes one thing, and what dies at once beside it. */
static int thing(int load, uint32_t *words)
{
    uint32_t bits = 0, dead = 0;
    while (1u << bits < sizes.words) bits++;
    for (int i = 0; i < 8; i++)
        if (!make(HEAD, 2, 3, &dead)) return 0;
    return load == GRAPHS ? graph(words) : load == LISTS ? list(words) : array(load == ARRAYS ? bits - 3 : bits + 2, words);
}

static void drop_slot(uint32_t slot, uint64_t *live)
{
    g1_get(&heap, 0, BUCKET, TABLE, slot / SLOTS);
    g1_put(&heap, 0, BUCKET, slot % SLOTS, G1_NIL_REGISTER);
    *live -= kept[slot], kept[slot] = 0;
}

/* Whether the load was sustained. */
static int sustains(int load, uint32_t share)
{
    uint64_t all = (uint64_t)sizes.regions * sizes.words, most = all * share / 100, live = 0;
    uint32_t own = 0, slots = BUCKETS * SLOTS;
    if (g1_new(&heap, &sizes) != G1_DONE) exit(1);
    g1_policy_start(&policy, &sizes);
    made = 0, seed = 88172645463325252u + share;
    if (sizes.regions <= 64) slots /= 8;
    int well = make(TABLE, slots / SLOTS, 0, &own);
    for (uint32_t i = 0; well && i < slots / SLOTS; i++) {
        well = make(BUCKET, SLOTS, 0, &own);
        g1_put(&heap, 0, TABLE, i, BUCKET);
    }
    for (uint32_t i = 0; i < slots; i++) kept[i] = 0;
    live = own;
    while (well && made < 10 * all) {
        uint32_t words = 0, slot = draw(slots);
        well = thing(load, &words);
        drop_slot(slot, &live);
        g1_put(&heap, 0, BUCKET, slot % SLOTS, HEAD);
        kept[slot] = words, live += words;
        g1_drop(&heap, 0, HEAD), g1_drop(&heap, 0, NEW), g1_drop(&heap, 0, OTHER);
        while (live + taken(4 * sizes.words) * (load == LARGE) > most && live > own) drop_slot(draw(slots), &live);
    }
    g1_free(&heap);
    return well;
}

/* Prints a row for each load in a heap of so many regions. */
static void measure(uint32_t regions)
{
    sizes = (g1_sizes){regions, 1024, 127, 1, 0, 8, 0, 8};
    for (int load = 0; load < LOADS; load++) {
        uint32_t share = 50, sustained = 0;
        uint64_t scanned = 0, copied = 0;
        for (; share <= MOST_SHARE && sustains(load, share); share += 5) {
            sustained = share;
            if (share == 60) scanned = policy.scanned * 1000 / made, copied = policy.copied * 1000 / made;
        }
        printf("| %u | %s | %u %% | %" PRIu64 " | %" PRIu64 " |\n", regions, names[load], sustained, scanned, copied);
        fflush(stdout);
    }
}

int main(int count, char **words)
{
    printf("| Regions | Load | Share sustained | Objects scanned at 60 %% | Words copied at 60 %% |\n|---|---|---|---|---|\n");
    if (count == 1) measure(64), measure(256), measure(1024);
    for (int i = 1; i < count; i++) measure((uint32_t)atoi(words[i]));
    return 0;
}
