/* Takes a step whose cost might grow with the heap, in the largest heap, so many times over, for tools/measure clients, which counts
   instructions of two runs.

     growth_costs STEP SIZE TIMES */
#include <g1heap.h>
#include <stdlib.h>
#include <string.h>

enum { WORDS = 16384, OBJECT = 16 };

static g1_heap heap = G1_HEAP_NONE;
static const g1_sizes sizes = {1024, WORDS, 512, 1, 0, 64, 8, 8};

/* An object of so many words, which names the one in register 0, and which register 0 names then. */
static void link_object(uint32_t pointers, uint32_t words)
{
    g1_new_object(&heap, 0, 2, pointers, words - 2 - pointers);
    g1_put(&heap, 0, 2, 0, 0);
    g1_move(&heap, 0, 0, 2);
}

static void mark(void)
{
    g1_drop(&heap, 0, 2);
    g1_begin(&heap);
    g1_mark(&heap, UINT32_MAX);
    g1_remark(&heap);
}

/* One object in register 1, and else nothing that is reached in its region. */
static void alone(void)
{
    g1_new_object(&heap, 0, 1, 1, OBJECT - 3);
    for (long place = 1; place < WORDS / OBJECT; place++) g1_new_object(&heap, 0, 2, 0, OBJECT - 2);
}

/* So many regions, of which every second object is reached. */
static void half_live(long size)
{
    for (long place = 0; place < size * (WORDS / OBJECT); place++)
        if (place % 2 == 0) link_object(1, OBJECT);
        else g1_new_object(&heap, 0, 2, 0, OBJECT - 2);
}

/* So many regions with nothing live, and above them as many of the others, all of them marked. */
static void half_regions(long size)
{
    for (long place = 0; place < size * (WORDS / OBJECT); place++) g1_new_object(&heap, 0, 2, 0, OBJECT - 2);
    half_live(size);
    mark();
    g1_cleanup(&heap);
}

int main(int count, char **words)
{
    const char *step = count == 4 ? words[1] : "";
    long size = count == 4 ? atol(words[2]) : 0, times = count == 4 ? atol(words[3]) : 0;
    uint64_t sum = 0;
    if (g1_new(&heap, &sizes) != G1_DONE) return 1;
    if (strcmp(step, "pause beside marked objects") == 0) {
        for (long place = 0; place < size; place++) link_object(1, 8);
        mark();
        for (long i = 0; i < times; i++) sum += g1_pause(&heap, 0).code;
    } else if (strcmp(step, "pause named from regions") == 0) {
        alone();
        for (long place = 0; place < size * (WORDS / OBJECT); place++) {
            link_object(2, OBJECT);
            if (place % (WORDS / OBJECT) == 0) g1_put(&heap, 0, 2, 1, 1);
        }
        mark();
        for (long i = 0; i < times; i++) sum += g1_pause(&heap, OBJECT).code;
    } else if (strcmp(step, "pause with candidates") == 0) {
        alone();
        /* Each has half of its words live, and none of them fits beside the first. */
        for (long place = 1; place < size; place++) {
            uint32_t live = WORDS / 2 - OBJECT + (uint32_t)(place * 7 % OBJECT);
            link_object(1, live);
            for (uint32_t left = WORDS - live; left > 0; left -= left < WORDS / 2 ? left : WORDS / 2)
                g1_new_object(&heap, 0, 2, 0, (left < WORDS / 2 ? left : WORDS / 2) - 2);
        }
        mark();
        for (long i = 0; i < times; i++) sum += g1_pause(&heap, WORDS / 2 - 1).code;
    } else if (strcmp(step, "pause of half regions") == 0) {
        half_regions(size);
        if (times > 0) sum += g1_pause(&heap, UINT32_MAX).first;
    } else if (strcmp(step, "pause within cards of half regions") == 0) {
        half_regions(size);
        if (times > 0) sum += g1_pause_within(&heap, UINT32_MAX, UINT32_MAX).first;
    } else if (strcmp(step, "young pause of half regions") == 0) {
        half_live(size);
        if (times > 0) sum += g1_young(&heap, UINT32_MAX, UINT32_MAX).first;
    } else if (strcmp(step, "compaction of half regions") == 0) {
        half_regions(size);
        if (times > 0) sum += g1_compact(&heap, UINT32_MAX).first;
    } else if (strcmp(step, "cleanup") == 0) {
        for (long place = 0; place < 2 * size; place++) g1_new_object(&heap, 0, 2, 1, WORDS / 2 - 3);
        mark();
        if (times > 0) sum += g1_cleanup(&heap).first;
    } else if (strcmp(step, "make") == 0) {
        for (long i = 0; i < times; i++) {
            g1_free(&heap);
            if (g1_new(&heap, &sizes) != G1_DONE) return 1;
        }
    } else if (strcmp(step, "begin") == 0) {
        g1_new_object(&heap, 0, 0, 1, 5);
        if (times > 0) sum += g1_begin(&heap).code;
    }
    g1_free(&heap);
    return sum == 1;
}
