/* What a refused object, a whole collection, memory that goes back and a heap's end cost where a share of the heap lives.

   A list of cells with a leaf each, and as many leaves that die at once, are made until the share lives. Then there come, each pair in a
   heap of its own, a g1_make of an object of half the heap, which is refused as Full, and the same again, where an object may be so large;
   a g1_collect_all, and the same again; a g1_give_back after all was dropped and collected, and beside it munmap of as much memory as went
   back; and each heap's g1_free. Of several runs the least is told, in milliseconds of the thread's processor time.

     cc -O2 -D_DEFAULT_SOURCE -Iinclude tools/measuring/full_costs.c -Llib -lg1heap -o full_costs
     ./full_costs [MEBIBYTES=128 [PERCENT=70 [RUNS=5]]] */
#include <g1heap.h>
#include <stdio.h>
#include <stdlib.h>
#include <string.h>
#include <sys/mman.h>
#include <time.h>
#include <unistd.h>

enum { LIST, CELL, LEAF };                                /* registers */
enum { NEXT, HELD };                                      /* a cell's pointers */
enum { CELL_WORDS = 5, LEAF_DATA = 5, LEAF_WORDS = 7 };   /* with header and name */
enum { FULL, FULL_AGAIN, COLLECT, COLLECT_AGAIN, GIVE, UNMAP, FREE, WHATS };
static const char *const whats[WHATS] = {"g1_make, refused as Full", "the same again", "g1_collect_all", "the same again", "g1_give_back",
                                          "munmap of what went back", "g1_free"};
static double least[WHATS];
static g1_heap heap = G1_HEAP_NONE;
static g1_policy policy;

static void fail(const char *why)
{
    fprintf(stderr, "full_costs: %s\n", why);
    exit(1);
}
static double now(void)
{
    struct timespec at;
    clock_gettime(CLOCK_THREAD_CPUTIME_ID, &at);
    return (double)at.tv_sec * 1e3 + (double)at.tv_nsec / 1e6;
}
static void note(int what, double start)
{
    double spent = now() - start;
    if (least[what] == 0 || spent < least[what]) least[what] = spent;
}
static void make(uint32_t to, uint32_t pointers, uint32_t values)
{
    if (g1_make(&heap, &policy, 0, to, pointers, 0, values).code != G1_NAME) fail("the heap is full too early");
}
/* A new heap, of which so many words live. */
static void fill(const g1_sizes *sizes, uint64_t live)
{
    if (g1_new(&heap, sizes) != G1_DONE) fail("no such heap is made");
    g1_policy_start(&policy, sizes);
    for (uint64_t made = 0; made < live; made += CELL_WORDS + LEAF_WORDS) {
        make(CELL, 2, 1);
        g1_put(&heap, 0, CELL, NEXT, LIST), g1_move(&heap, 0, LIST, CELL);
        make(LEAF, 0, LEAF_DATA);
        g1_put(&heap, 0, CELL, HELD, LEAF);
        make(LEAF, 0, LEAF_DATA);
    }
    g1_scope(&heap, 0, CELL);
}
static void empty(void)
{
    double start = now();
    g1_free(&heap);
    note(FREE, start);
}
/* An object of so many words is refused. */
static void refuse(int what, uint32_t size)
{
    double start = now();
    if (g1_make(&heap, &policy, 0, CELL, 0, 0, size).code != G1_FULL) fail("an object isn't refused");
    note(what, start);
}
static void collect(int what)
{
    double start = now();
    g1_collect_all(&heap, &policy);
    note(what, start);
}
/* The bytes that the process holds. */
static uint64_t resident(void)
{
    unsigned long long all, held;
    FILE *file = fopen("/proc/self/statm", "r");
    if (file == NULL || fscanf(file, "%llu %llu", &all, &held) != 2) fail("statm can't be read");
    fclose(file);
    return held * (uint64_t)sysconf(_SC_PAGESIZE);
}
/* All is dropped, collected and given back. */
static void give_back(void)
{
    g1_drop(&heap, 0, LIST), g1_collect_all(&heap, &policy);
    uint64_t held = resident();
    double start = now();
    if (g1_give_back(&heap).code != G1_DONE) fail("memory is refused");
    note(GIVE, start);
    held -= resident();
    char *pages = mmap(NULL, held, PROT_READ | PROT_WRITE, MAP_PRIVATE | MAP_ANONYMOUS, -1, 0);
    if (pages == MAP_FAILED) fail("memory is refused");
    memset(pages, 1, held);
    start = now();
    munmap(pages, held);
    note(UNMAP, start);
}
static uint32_t number(char **words, int count, int at, uint32_t left_out)
{
    return at < count ? (uint32_t)strtoul(words[at], NULL, 10) : left_out;
}
int main(int count, char **words)
{
    uint32_t all = number(words, count, 1, 128) * 131072, percent = number(words, count, 2, 70), runs = number(words, count, 3, 5);
    uint32_t regions = all < 8388608 ? 512 : 1024, region = all / regions;
    g1_sizes sizes = {regions, region, 511, 1, 0, 64, 0, 16};
    uint64_t live = (uint64_t)all * percent / 100;
    for (uint32_t run = 0; run < runs; run++) {
        if (all / 2 < G1_MAX_OBJECT_WORDS) fill(&sizes, live), refuse(FULL, all / 2), refuse(FULL_AGAIN, all / 2), empty();
        fill(&sizes, live), collect(COLLECT), collect(COLLECT_AGAIN), empty();
        fill(&sizes, live), give_back(), empty();
    }
    for (int what = 0; what < WHATS; what++) printf("%8.1f ms  %s\n", least[what], whats[what]);
    return 0;
}
