/* A table of 2,000,000 entries, two thirds of a heap of 640 MiB, of which half are replaced at random: how long an entry takes, and the
   longest g1_make, by the thread's processor time.

     cc -O2 -Iinclude tools/measuring/replaced_table.c -Llib -lg1heap -o replaced_table
     ./replaced_table [CARD]                            words of a card; 64 */
#define _GNU_SOURCE
#include <g1heap.h>
#include <inttypes.h>
#include <stdio.h>
#include <stdlib.h>
#include <time.h>

enum { TABLE, ROW, ENTRY, VALUE }; /* registers */
enum { ENTRIES = 2000000, WIDTH = 1415, VALUES = 19 };

static g1_heap heap = G1_HEAP_NONE;
static g1_policy policy;
static uint64_t seed = 88172645463325252u, longest;

static uint64_t now(void)
{
    struct timespec at;
    clock_gettime(CLOCK_THREAD_CPUTIME_ID, &at);
    return (uint64_t)at.tv_sec * 1000000000u + (uint64_t)at.tv_nsec;
}

static uint32_t draw(uint32_t below)
{
    seed ^= seed << 13, seed ^= seed >> 7, seed ^= seed << 17;
    return (uint32_t)((seed >> 20) % below);
}

static void make(uint32_t to, uint32_t pointers, uint32_t values)
{
    uint64_t took = now();
    if (g1_make(&heap, &policy, 0, to, pointers, 0, values).code != G1_NAME) puts("refused"), exit(1);
    took = now() - took;
    if (took > longest) longest = took;
}

/* An entry with its value comes to this place. */
static void put_entry(uint32_t place)
{
    make(ENTRY, 1, 2);
    make(VALUE, 0, VALUES);
    g1_put(&heap, 0, ENTRY, 0, VALUE);
    g1_get(&heap, 0, ROW, TABLE, place / WIDTH);
    g1_put(&heap, 0, ROW, place % WIDTH, ENTRY);
}

static void tell(const char *what, uint64_t from, uint32_t entries)
{
    double microseconds = (double)(now() - from) / 1e3 / entries;
    printf("%s: %.2f us an entry, the longest g1_make %.1f ms\n", what, microseconds, (double)longest / 1e6);
    longest = 0;
}

int main(int count, char **words)
{
    g1_sizes sizes = {1280, 65536, 1023, 1, 0, 64, 0, 8};
    uint64_t from;
    if (count > 1) sizes.card = (uint32_t)atoi(words[1]);
    if (g1_new(&heap, &sizes) != G1_DONE) return 1;
    g1_policy_start(&policy, &sizes);
    from = now();
    make(TABLE, WIDTH, 0);
    for (uint32_t row = 0; row < WIDTH; row++) {
        make(ROW, WIDTH, 0);
        g1_put(&heap, 0, TABLE, row, ROW);
    }
    for (uint32_t place = 0; place < ENTRIES; place++) put_entry(place);
    tell("filled", from, ENTRIES);
    from = now();
    for (uint32_t i = 0; i < ENTRIES / 2; i++) put_entry(draw(ENTRIES));
    tell("half of it replaced", from, ENTRIES / 2);
    printf("%" PRIu64 " MiB live, %" PRIu64 " cycles\n", g1_live_words(&heap).first / 131072, policy.cycles);
    return 0;
}
