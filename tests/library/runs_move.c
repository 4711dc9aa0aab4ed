/* Compactions by the program, after a cleanup: those with a budget of a region until one moves nothing, and then those with the largest.

     runs_move [HEAPS [SEED]]     so many drawn heaps of small and large objects, 400 if it isn't said

   With two regions free no region in use is above a free one then, all objects that roots name are as they were, and an object takes all
   free regions but two. Prints what came of it: behind the same header two libraries print the same. The status is 1 where it isn't so. */
#include <g1heap.h>
#include <stdio.h>
#include <stdlib.h>

enum { REGISTERS = 8, GLOBALS = 48, FIELDS = 12, OBJECTS = 4096 };

static g1_heap heap = G1_HEAP_NONE;
static g1_sizes sizes;
static uint64_t seed = 1;
static g1_object objects[OBJECTS];

static uint32_t draw(uint32_t least, uint32_t most)
{
    seed ^= seed << 13, seed ^= seed >> 7, seed ^= seed << 17;
    return least + (uint32_t)((seed >> 20) % (most - least + 1));
}

static void clean(void)
{
    g1_begin(&heap);
    g1_remark(&heap);
    g1_cleanup(&heap);
}

/* Objects of all sizes that name one another and themselves; most are lost. Data word 0 is what the object is known by. */
static void fill(void)
{
    for (uint32_t i = 0; i < 200; i++) {
        uint32_t most = sizes.words * sizes.regions / 5, large = sizes.words / 2 + 1;
        uint32_t size = draw(0, 2) != 0 ? draw(large, most > large ? most : large + 1) : draw(3, sizes.words / 2);
        uint32_t pointers = draw(0, size - 3 < FIELDS ? size - 3 : FIELDS), to = draw(0, REGISTERS - 1);
        uint32_t weaks = draw(0, size - 3 - pointers < 2 ? size - 3 - pointers : 2);
        if (g1_new_weak(&heap, 0, to, pointers, weaks, size - 2 - pointers - weaks).code == G1_NAME) g1_write(&heap, 0, to, 0, i + 1);
        for (uint32_t put = 0; put < 3; put++) {
            uint32_t object = draw(0, REGISTERS - 1), field = draw(0, FIELDS - 1);
            g1_put(&heap, 0, object, field, draw(0, REGISTERS - 1));
        }
        uint32_t object = draw(0, REGISTERS - 1), slot = draw(0, 1);
        g1_put_weak(&heap, 0, object, slot, draw(0, REGISTERS - 1));
        uint32_t global = draw(0, GLOBALS - 1);
        g1_save(&heap, 0, global, draw(0, REGISTERS - 1));
        if (draw(0, 3) == 0) g1_drop(&heap, 0, draw(0, REGISTERS - 1));
        if (draw(0, 30) == 0) clean();
        if (draw(0, 40) == 0) g1_pause(&heap, sizes.words);
    }
    g1_drop(&heap, 0, 0);
    for (uint32_t global = 0; global < GLOBALS; global++)
        if (draw(0, 1) != 0) g1_save(&heap, 0, global, 0);
    for (uint32_t i = 0; i < REGISTERS; i++) g1_drop(&heap, 0, i);
}

/* A number of all that the globals lead to within two steps: which object each field names, by data word 0 and by name. */
static uint64_t look_at(uint32_t from, uint32_t depth)
{
    uint64_t sum = g1_name(&heap, 0, from).first * 31 + g1_read(&heap, 0, from, 0).first;
    for (uint32_t field = 0; depth > 0 && field < FIELDS; field++)
        if (g1_get(&heap, 0, from + 1, from, field).code == G1_NAME) sum = sum * 1000003 + field + look_at(from + 1, depth - 1);
    for (uint32_t slot = 0; depth > 0 && slot < 2; slot++)
        if (g1_get_weak(&heap, 0, from + 1, from, slot).code == G1_NAME) sum = sum * 999983 + slot + look_at(from + 1, depth - 1);
    return sum;
}
static uint64_t look(void)
{
    uint64_t sum = 0;
    for (uint32_t global = 0; global < GLOBALS; global++)
        if (g1_load(&heap, 0, 1, global).code == G1_NAME) sum = sum * 1009 + global + look_at(1, 2);
    for (uint32_t i = 0; i < REGISTERS; i++) g1_drop(&heap, 0, i);
    return sum;
}

/* Whether no object is in or above the region that is the lowest of as many as are free. */
static int is_packed(void)
{
    uint64_t free = g1_free_regions(&heap).first, cursor = (sizes.regions - free) * sizes.words;
    return g1_free_run(&heap).first == free && g1_walk(&heap, &cursor, objects, 1).first == 0;
}

static uint32_t compact(uint32_t budget, uint32_t *moves)
{
    uint32_t count = 0;
    do count++; while (g1_compact(&heap, budget).second != 0);
    *moves += count - 1;
    return count;
}

int main(int count, char **words)
{
    uint32_t heaps = count > 1 ? (uint32_t)atoi(words[1]) : 400, few = 0, asked = 0, smalls = 0, larges = 0, bad = 0;
    if (count > 2) seed = strtoull(words[2], NULL, 10);
    for (uint32_t i = 0; i < heaps; i++) {
        uint32_t regions = draw(6, 60);
        sizes = (g1_sizes){regions, (uint32_t)16 << draw(0, 2), 8, 1, 0, 8, GLOBALS, REGISTERS};
        if (g1_new(&heap, &sizes) != G1_DONE) return printf("no heap\n"), 1;
        fill();
        clean();
        uint64_t before = look(), free = g1_free_regions(&heap).first;
        if (free >= 2) {
            uint32_t steps = compact(sizes.words, &smalls) + compact(UINT32_MAX, &larges);
            if (steps > 2 * sizes.regions + 2) bad++, printf("heap %u: %u compactions\n", i, steps);
            if (!is_packed()) bad++, printf("heap %u: a free region is below one in use\n", i);
            if (look() != before) bad++, printf("heap %u: an object isn't what it was\n", i);
            free = g1_free_regions(&heap).first;
            if (free > 2 && (asked++, g1_new_object(&heap, 0, 0, 0, (uint32_t)(free - 2) * sizes.words - 2).code != G1_NAME))
                bad++, printf("heap %u: no room in %u free regions\n", i, (uint32_t)free);
        } else few++;
        g1_free(&heap);
    }
    printf("%u heaps, %u with fewer than two free regions; %u compactions with a budget of a region moved something, %u with the largest; "
           "%u objects of all free regions but two were asked for\n", heaps, few, smalls, larges, asked);
    return bad != 0;
}
