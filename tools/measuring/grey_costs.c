/* What marking costs an object where many are grey at once, at the top of a heap: tables name them all. The regions below are filled and
   dropped before.

     cc -O2 -Iinclude tools/measuring/grey_costs.c -Llib -lg1heap -o grey_costs
     ./grey_costs [POWER [OBJECTS]]        2^24 words and 200,000 objects of 4 words

   Prints the best of five markings, in nanoseconds of processor time an object. */
#include <g1heap.h>
#include <stdio.h>
#include <stdlib.h>
#include <time.h>

enum { OBJECT, TABLE, TOP, MOST = 100000 };

static g1_heap heap = G1_HEAP_NONE;

static double now(void)
{
    struct timespec time;
    clock_gettime(CLOCK_PROCESS_CPUTIME_ID, &time);
    return (double)time.tv_sec + (double)time.tv_nsec / 1e9;
}
static g1_answer good(g1_answer answer)
{
    if (answer.code >= 16) fprintf(stderr, "grey_costs: a call was refused: %u\n", answer.code), exit(1);
    return answer;
}
/* Fills all regions but those that the objects need, and drops what is in them. */
static void fill(const g1_sizes *sizes, uint32_t objects)
{
    uint32_t kept = (uint32_t)((5 * (uint64_t)objects + 2 * MOST) / sizes->words) + 12;
    for (uint32_t i = 0; i < sizes->regions - kept; i++) good(g1_new_object(&heap, 0, OBJECT, 0, sizes->words - 2));
    good(g1_drop(&heap, 0, OBJECT));
}

/* The objects are named by tables, which a table of global 0 names. */
static void make_tables(uint32_t objects)
{
    uint32_t tables = objects / MOST + 1;
    good(g1_new_object(&heap, 0, TOP, tables, 0));
    for (uint32_t i = 0; i < tables; i++) good(g1_new_object(&heap, 0, TABLE, MOST, 0)), good(g1_put(&heap, 0, TOP, i, TABLE));
    for (uint32_t i = 0; i < objects; i++) {
        good(g1_new_object(&heap, 0, OBJECT, 2, 0)), good(g1_get(&heap, 0, TABLE, TOP, i / MOST));
        good(g1_put(&heap, 0, TABLE, i % MOST, OBJECT));
    }
    good(g1_save(&heap, 0, 0, TOP)), good(g1_scope(&heap, 0, 0));
}

int main(int count, char **words)
{
    uint32_t power = count > 1 ? (uint32_t)atoi(words[1]) : 24, objects = count > 2 ? (uint32_t)atoi(words[2]) : 200000;
    uint32_t region = power <= 24 ? 1u << 14 : power <= 28 ? 1u << 18 : 1u << 20;
    g1_sizes sizes = {(uint32_t)(((uint64_t)1 << power) / region), region, 1023, 1, 0, 512, 1, 3};
    double best = 1e9;
    if (g1_new(&heap, &sizes) != G1_DONE) return puts("no such heap"), 1;
    fill(&sizes, objects), make_tables(objects);
    for (int turn = 0; turn < 5; turn++) {
        good(g1_begin(&heap));
        double start = now(), took;
        good(g1_mark(&heap, UINT32_MAX));
        took = now() - start, best = took < best ? took : best;
        good(g1_remark(&heap));
    }
    printf("2^%u words, %u objects grey at its top: %.1f ns an object\n", power, objects, best * 1e9 / objects);
    g1_free(&heap);
    return 0;
}
