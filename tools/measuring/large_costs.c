/* What work costs in heaps of up to 16 GiB, by the C library: processor time of a part, and resident bytes.

     cc -O2 -Iinclude tools/measuring/large_costs.c -Llib -lg1heap -o large_costs
     ./large_costs [WORDS [CARD [OBJECTS]]]      2^24 words, cards of 64, and as many objects of 16 words as a quarter of the heap holds,
                                                 at most 2^23

   Each line is a row: what is done, the processor time of all, what a part of it takes, and the bytes that are resident then. No two have
   the same name. */
#include <g1heap.h>
#include <stdio.h>
#include <stdlib.h>
#include <time.h>
#include <unistd.h>

enum { OBJECT = 16, FIELDS = 3, ONE = 0, OTHER = 1, TABLE = 2, THIRD = 3, TABLES = 4096, ROOT = TABLES };

static g1_heap heap = G1_HEAP_NONE;
static g1_sizes sizes;
static uint32_t places;
static double from;

static double now(void)
{
    struct timespec time;
    clock_gettime(CLOCK_PROCESS_CPUTIME_ID, &time);
    return (double)time.tv_sec + (double)time.tv_nsec / 1e9;
}
static double resident(void)
{
    long all, used = 0;
    FILE *file = fopen("/proc/self/statm", "r");
    if (file == NULL || fscanf(file, "%ld %ld", &all, &used) != 2) used = 0;
    if (file != NULL) fclose(file);
    return (double)used * (double)sysconf(_SC_PAGESIZE);
}
static void start(void) { from = now(); }
static void row(const char *what, const char *part, double parts)
{
    double time = now() - from;
    printf("%-44s %10.1f us %10.1f ns/%-8s %8.1f MB\n", what, time * 1e6, time * 1e9 / parts, part, resident() / 1e6);
    fflush(stdout);
}
static g1_answer good(g1_answer answer)
{
    if (answer.code >= 16) fprintf(stderr, "large_costs: a call was refused: %u\n", answer.code), exit(1);
    return answer;
}
static uint32_t draw(uint32_t below)
{
    static uint64_t seed = 88172645463325252u;
    seed ^= seed << 13, seed ^= seed >> 7, seed ^= seed << 17;
    return (uint32_t)((seed >> 16) % below);
}

static void make(void)
{
    uint32_t code = g1_new(&heap, &sizes);
    if (code != G1_DONE) fprintf(stderr, "large_costs: g1_new: %u\n", code), exit(1);
}
static void free_row(const char *what)
{
    char name[80];
    snprintf(name, sizeof name, "free, %s", what);
    start(), g1_free(&heap), row(name, "heap", 1);
}

/* Tables of globals hold the objects by their number. */
static void keep(uint32_t number)
{
    uint32_t table = number / places;
    if (number % places == 0) good(g1_new_object(&heap, 0, TABLE, places, 0)), good(g1_save(&heap, 0, table, TABLE));
    good(g1_load(&heap, 0, TABLE, table)), good(g1_put(&heap, 0, TABLE, number % places, ONE));
}
static void fetch(uint32_t to, uint32_t number)
{
    good(g1_load(&heap, 0, TABLE, number / places)), good(g1_get(&heap, 0, to, TABLE, number % places));
}
static void forget(uint32_t count)
{
    good(g1_drop(&heap, 0, TABLE));
    for (uint32_t table = 0; table * places < count; table++) good(g1_save(&heap, 0, table, TABLE));
}
static void drop_all(void)
{
    for (uint32_t to = 0; to < 4; to++) good(g1_drop(&heap, 0, to));
}

static void cycle(const char *what, double count)
{
    char name[80];
    drop_all();
    snprintf(name, sizeof name, "begin, %s", what);
    start(), good(g1_begin(&heap)), row(name, "step", 1);
    snprintf(name, sizeof name, "marking, %s", what);
    start(), good(g1_mark(&heap, UINT32_MAX)), row(name, "object", count);
    snprintf(name, sizeof name, "remark, %s", what);
    start(), good(g1_remark(&heap)), row(name, "step", 1);
    snprintf(name, sizeof name, "begin after marking %s", what);
    start(), good(g1_begin(&heap)), row(name, "step", 1);
    good(g1_mark(&heap, UINT32_MAX)), good(g1_remark(&heap));
    snprintf(name, sizeof name, "cleanup, %s", what);
    start(), good(g1_cleanup(&heap)), row(name, "region", sizes.regions);
    free_row(what);
}

/* A heap of which nothing is written. */
static void made(void)
{
    double before = resident();
    start(), make(), row("make", "heap", 1);
    printf("resident beside the words: %.4f %% of them\n", (resident() - before) / 8 / ((double)sizes.regions * sizes.words) * 100);
    free_row("empty");
}

/* Steps of an empty heap, which look at each region or at none. */
static void empty_steps(void)
{
    make();
    start(), good(g1_begin(&heap)), row("begin, empty", "step", 1);
    good(g1_remark(&heap));
    start(), good(g1_cleanup(&heap)), row("cleanup, empty", "region", sizes.regions);
    start(), good(g1_pause(&heap, 0)), row("pause 0, empty", "step", 1);
    g1_free(&heap);
}

static void list(uint32_t count)
{
    make();
    for (uint32_t i = 0; i < count; i++) {
        good(g1_new_object(&heap, 0, ONE, FIELDS, OBJECT - 2 - FIELDS)), good(g1_put(&heap, 0, ONE, 0, OTHER));
        good(g1_move(&heap, 0, OTHER, ONE));
    }
    good(g1_save(&heap, 0, ROOT, OTHER));
    cycle("a list", count);
}

static void tree(uint32_t count, int drawn)
{
    uint32_t *order = calloc(count, sizeof *order);
    if (order == NULL) exit(1);
    for (uint32_t i = 0; i < count; i++) order[i] = i;
    for (uint32_t i = count - 1; drawn && i > 0; i--) {
        uint32_t other = draw(i + 1), kept = order[i];
        order[i] = order[other], order[other] = kept;
    }
    make();
    for (uint32_t i = 0; i < count; i++) good(g1_new_object(&heap, 0, ONE, FIELDS, OBJECT - 2 - FIELDS)), keep(i);
    for (uint32_t i = 1; i < count; i++) {
        fetch(ONE, order[i]), fetch(OTHER, order[(i - 1) / 2]);
        good(g1_put(&heap, 0, OTHER, (i - 1) % 2, ONE));
    }
    fetch(ONE, order[0]), good(g1_save(&heap, 0, ROOT, ONE));
    forget(count);
    free(order);
    cycle(drawn ? "a tree in drawn order" : "a tree in order", count);
}

/* Regions full of garbage, half of them never marked. */
static void garbage(uint32_t regions)
{
    make();
    for (uint32_t i = 0; i < regions; i++) good(g1_new_object(&heap, 0, ONE, 0, sizes.words - 2));
    drop_all(), good(g1_begin(&heap)), good(g1_remark(&heap));
    start();
    g1_answer reclaimed = good(g1_cleanup(&heap));
    row("cleanup, regions that were never marked", "region", (double)reclaimed.first);
    g1_free(&heap);
}

/* One region of few live objects, each of which fields of so many regions' objects name; or fields of few. */
static void pause_of_one(uint32_t count, int apart)
{
    uint32_t targets = sizes.words / OBJECT, step = 64, live = targets / step;
    make();
    for (uint32_t i = 0, kept = 0; i < targets; i++) {
        good(g1_new_object(&heap, 0, ONE, FIELDS, OBJECT - 2 - FIELDS));
        if (i % step == 0 && kept < live) {
            if (kept == 0) good(g1_new_object(&heap, 0, TABLE, live, 0)), good(g1_save(&heap, 0, ROOT, TABLE));
            good(g1_load(&heap, 0, TABLE, ROOT)), good(g1_put(&heap, 0, TABLE, kept++, ONE));
        }
    }
    for (uint32_t i = 0; i < count; i++) {
        good(g1_new_object(&heap, 0, OTHER, FIELDS, OBJECT - 2 - FIELDS)), good(g1_put(&heap, 0, OTHER, 0, THIRD));
        if (apart ? i % 4 == 0 : i < 4) {
            good(g1_load(&heap, 0, TABLE, ROOT)), good(g1_get(&heap, 0, ONE, TABLE, draw(live)));
            good(g1_put(&heap, 0, OTHER, 1, ONE));
        } else good(g1_put(&heap, 0, OTHER, 1, THIRD));
        good(g1_move(&heap, 0, THIRD, OTHER));
    }
    /* In the region that is begun last more lives than in the first. */
    uint64_t regions = good(g1_free_regions(&heap)).first;
    for (uint32_t i = 0; i < 4 * live; i += good(g1_free_regions(&heap)).first < regions) {
        good(g1_new_object(&heap, 0, OTHER, FIELDS, OBJECT - 2 - FIELDS)), good(g1_put(&heap, 0, OTHER, 0, THIRD));
        good(g1_move(&heap, 0, THIRD, OTHER));
    }
    good(g1_save(&heap, 0, ROOT + 1, THIRD));
    start();
    g1_answer refined = good(g1_refine(&heap, UINT32_MAX));
    row(apart ? "refine, fields all over the heap" : "refine", "card", refined.first > 0 ? (double)refined.first : 1);
    drop_all(), good(g1_begin(&heap)), good(g1_mark(&heap, UINT32_MAX)), good(g1_remark(&heap));
    start();
    g1_answer moved = good(g1_pause(&heap, live * (OBJECT + 1) + OBJECT));
    row(apart ? "pause of one region, fields all over" : "pause of one region, few fields", "step", 1);
    if (moved.first < live * OBJECT || moved.second != 1)
        printf("  (it moved %llu words out of %u regions)\n", (unsigned long long)moved.first, moved.second);
    g1_free(&heap);
}

/* Regions of few live objects, of which a pause copies one, while each object that stays has a field that leads to a drawn one: so each
   card entered a set, and each region's set has cards of every region. */
static void pause_in_net(uint32_t count)
{
    uint32_t region = sizes.words / OBJECT, step = 64, full = count - 2 * region;
    make();
    for (uint32_t table = 0; table * places < count; table++) {
        good(g1_new_object(&heap, 0, TABLE, places, 0)), good(g1_save(&heap, 0, table, TABLE));
    }
    for (uint32_t i = 0; i < count; i++) {
        good(g1_new_object(&heap, 0, ONE, FIELDS, OBJECT - 2 - FIELDS));
        if (i >= full && i % step != 0) continue;
        good(g1_load(&heap, 0, TABLE, i / places)), good(g1_put(&heap, 0, TABLE, i % places, ONE));
    }
    for (uint32_t i = 0; i < full; i++) {
        uint32_t to = draw(count);
        fetch(ONE, i), fetch(OTHER, to < full ? to : to - to % step);
        good(g1_put(&heap, 0, ONE, 1, OTHER));
    }
    start();
    g1_answer refined = good(g1_refine(&heap, UINT32_MAX));
    row("refine, fields at random", "card", refined.first > 0 ? (double)refined.first : 1);
    drop_all(), good(g1_begin(&heap)), good(g1_mark(&heap, UINT32_MAX)), good(g1_remark(&heap));
    start();
    g1_answer moved = good(g1_pause(&heap, region / step * (OBJECT + 1) + OBJECT));
    row("pause of one region, fields at random", "step", 1);
    if (moved.second != 1) printf("  (it moved %llu words out of %u regions)\n", (unsigned long long)moved.first, moved.second);
    g1_free(&heap);
}

/* A pause that copies 100 MB, of a list whose every other object lives. */
static void pause_of_many(void)
{
    uint32_t count = 13107200 / OBJECT * 2;
    make();
    for (uint32_t i = 0; i < count; i++) {
        good(g1_new_object(&heap, 0, ONE, FIELDS, OBJECT - 2 - FIELDS));
        if (i % 2 == 0) continue;
        good(g1_put(&heap, 0, ONE, 0, OTHER)), good(g1_move(&heap, 0, OTHER, ONE));
    }
    good(g1_save(&heap, 0, ROOT, OTHER));
    drop_all(), good(g1_begin(&heap)), good(g1_mark(&heap, UINT32_MAX)), good(g1_remark(&heap));
    start();
    g1_answer moved = good(g1_pause(&heap, UINT32_MAX));
    row("pause of 100 MB", "word", moved.first > 0 ? (double)moved.first : 1);
    g1_free(&heap);
}

int main(int count, char **words)
{
    uint32_t log = count > 1 ? (uint32_t)atoi(words[1]) : 24, card = count > 2 ? (uint32_t)atoi(words[2]) : 64;
    uint32_t regions = log < 28 ? 1024 : 2048, objects = 1u << (log - 6 < 23 ? log - 6 : 23);
    if (count > 3) objects = (uint32_t)atol(words[3]);
    sizes = (g1_sizes){regions, (uint32_t)(((uint64_t)1 << log) / regions), 512, 1, 0, card, ROOT + 2, 4};
    places = sizes.words / 2 - 2;
    if (places > 65536) places = 65536;
    printf("2^%u words in %u regions, cards of %u, %u objects\n", log, regions, card, objects);
    made();
    empty_steps();
    list(objects);
    tree(objects, 0);
    tree(objects, 1);
    garbage(regions / 4);
    pause_of_one(objects, 0);
    pause_of_one(objects, 1);
    pause_in_net(objects);
    if (log >= 27) pause_of_many();
    return 0;
}
