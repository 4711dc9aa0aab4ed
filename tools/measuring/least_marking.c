/* An anchor: marking without proofs, laid out for speed alone, in a heap of some size. It marks a tree of objects of 16 words, in drawn
   order, by a stack, a flag an address and the live words of each region; 16 objects are fetched ahead with their flags, in whatever order
   they come. g1heap scans the one that it found last. Nothing here is proved, and it is no part of the library.

     cc -O2 tools/measuring/least_marking.c -o least_marking
     ./least_marking 30 16000000         a heap of 2^30 words, and so many objects: the processor time of one

   Published: C.-Y. Cher, A. L. Hosking, T. N. Vijaykumar, Software Prefetching for Mark-Sweep Garbage Collection (2004). */
#include <stdint.h>
#include <stdio.h>
#include <stdlib.h>
#include <string.h>
#include <time.h>

enum { OBJECT = 16, FIELDS = 3, AHEAD = 16, REGIONS = 4096, REGION_BITS = 12, RUNS = 3 };

static uint64_t *words, *marks, *stack, live[REGIONS];
static uint32_t *order;

static double now(void)
{
    struct timespec time;
    clock_gettime(CLOCK_PROCESS_CPUTIME_ID, &time);
    return (double)time.tv_sec + (double)time.tv_nsec / 1e9;
}
static void *cleared(uint64_t count, size_t size)
{
    void *at = calloc(count, size);
    if (at == NULL) fprintf(stderr, "least_marking: no memory\n"), exit(1);
    return at;
}
static uint32_t draw(uint32_t below)
{
    static uint64_t seed = 88172645463325252u;
    seed ^= seed << 13, seed ^= seed >> 7, seed ^= seed << 17;
    return (uint32_t)((seed >> 16) % below);
}

/* Word 0 of an object is its size, words 2 to 4 are 0 or an address and one. */
static void plant(uint32_t count)
{
    for (uint32_t i = 0; i < count; i++) order[i] = i, words[(uint64_t)i * OBJECT] = OBJECT;
    for (uint32_t i = count - 1; i > 0; i--) {
        uint32_t other = draw(i + 1), kept = order[i];
        order[i] = order[other], order[other] = kept;
    }
    for (uint32_t i = 1; i < count; i++)
        words[(uint64_t)order[(i - 1) / 2] * OBJECT + 2 + (i - 1) % 2] = (uint64_t)order[i] * OBJECT + 1;
}

static uint64_t mark(uint64_t root, int region_shift)
{
    uint64_t fetched[AHEAD], found = 0, depth = 0;
    unsigned first = 0, last = 0;
    for (stack[depth++] = root;;) {
        for (; depth != 0 && last - first < AHEAD; last++) {
            uint64_t at = stack[--depth];
            __builtin_prefetch(&marks[at / 64], 1), __builtin_prefetch(&words[at]);
            fetched[last % AHEAD] = at;
        }
        if (first == last) return found;
        uint64_t at = fetched[first++ % AHEAD], bit = (uint64_t)1 << at % 64;
        if (marks[at / 64] & bit) continue;
        marks[at / 64] |= bit, live[at >> region_shift] += words[at], found++;
        for (int field = 0; field < FIELDS; field++)
            if (words[at + 2 + field] != 0) stack[depth++] = words[at + 2 + field] - 1;
    }
}

int main(int count, char **arguments)
{
    int bits = count == 3 ? atoi(arguments[1]) : 0;
    uint32_t objects = count == 3 ? (uint32_t)strtoul(arguments[2], NULL, 10) : 0;
    double best = 1e9;
    if (bits < 16 || bits > 34 || objects == 0 || objects > ((uint64_t)1 << bits) / OBJECT)
        return fprintf(stderr, "usage: least_marking BITS OBJECTS, of 16 words each in 2^BITS words\n"), 2;
    words = cleared((uint64_t)1 << bits, 8), marks = cleared(((uint64_t)1 << bits) / 64, 8);
    stack = cleared((uint64_t)objects + 1, 8), order = cleared(objects, 4);
    plant(objects);
    for (int run = 0; run < RUNS; run++) {
        memset(marks, 0, ((uint64_t)1 << bits) / 8);
        double start = now();
        if (mark((uint64_t)order[0] * OBJECT, bits - REGION_BITS) != objects) return fprintf(stderr, "least_marking: one is missed\n"), 1;
        if (now() - start < best) best = now() - start;
    }
    printf("a tree's object marked, in drawn order, in a heap of 2^%d words: %.0f ns\n", bits, best * 1e9 / objects);
    return 0;
}
