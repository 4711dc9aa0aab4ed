/* What one look of the policy does, where a share of a heap of 16 MiB lives, by counts. A table leads to trees, lists, entries of hash
   tables or objects with weak slots, and drawn ones are made anew, while as many words die at once, until twice the heap's words were
   made. The policy's own counts are read before and after each call of g1_make:

   - while more regions are free than are kept in reserve, a look takes one pause at most, which copies at most `pause_words`; it ends a
     cycle or takes a pause, and not both; two looks in turn don't both refine alone; and after a pause no card is queued
   - a look that clears weak slots counts as one to four, and at 85 percent too the clearing ends before the reserve is reached
   - at 20 and 50 percent live no look finds as few regions free, and no whole collection comes
   - trees, lists and entries of which nine of ten words die at once, at 50 percent live: at most 0.15 words are copied and 0.04 objects
     scanned for each word made

     short_looks

   Prints the figures of what misses its bar, and ends with status 1 then. */
#include <g1heap.h>
#include <inttypes.h>
#include <stdio.h>
#include <stdlib.h>

enum { TABLE, ROW, ELEMENT, PART, OTHER };      /* registers */
enum { LEAVES = 8, CELLS = 16, DEAD = 5, SLOTS = 4 };
enum { BOTH, PAUSES, COPIES, REFINES, QUEUES, CLEARS, LATE, SHORT, WHOLE, FAULTS };

static const char *const faults[FAULTS] = {"a pause and the end of a cycle", "two pauses", "more words copied than a pause may",
                                           "two looks that refine alone", "cards queued after a pause",
                                           "more weak slots cleared than at four looks", "weak slots left where the reserve was reached",
                                           "looks with the reserve reached", "whole collections"};
static g1_heap heap = G1_HEAP_NONE;
static g1_policy policy;
static g1_sizes sizes;
static uint64_t seed, made, owed, counts[FAULTS];
static int failed;

static uint32_t draw(uint32_t below)
{
    seed ^= seed << 13, seed ^= seed >> 7, seed ^= seed << 17;
    return (uint32_t)((seed >> 20) % below);
}
static uint64_t all_words(void) { return (uint64_t)sizes.regions * sizes.words; }

/* Counts what a look did that it shouldn't have. */
static void look_at(const g1_policy *before, uint32_t free, int clearing)
{
    uint64_t pauses = policy.pauses - before->pauses, cycles = policy.cycles - before->cycles;
    if (policy.packed_next != before->packed_next) counts[WHOLE]++;
    counts[CLEARS] += policy.clears > before->clears && policy.clears - before->clears > 4;
    counts[LATE] += clearing && free <= policy.reserve;
    if (free <= policy.reserve) {
        counts[SHORT]++;
        return;
    }
    counts[BOTH] += pauses != 0 && cycles != 0, counts[PAUSES] += pauses > 1;
    counts[COPIES] += policy.copied - before->copied > policy.pause_words;
    counts[REFINES] += before->last == 1 && policy.last == 1, counts[QUEUES] += pauses != 0 && g1_queued(&heap).first != 0;
}
/* Makes an object, and answers the words that it takes. */
static uint32_t make(uint32_t to, uint32_t pointers, uint32_t weaks, uint32_t values)
{
    uint32_t size = 2 + pointers + weaks + values, free = 0;
    int looks = size >= policy.left, clearing = 0;
    g1_policy before = policy;
    if (looks) free = (uint32_t)g1_free_regions(&heap).first, clearing = g1_clearing(&heap).first == 1;
    uint32_t code = g1_make(&heap, &policy, 0, to, pointers, weaks, values).code;
    if (code != G1_NAME) printf("code %u\n", code), exit(1);
    if (looks) look_at(&before, free, clearing);
    made += size;
    return size;
}

/* What makes an element in register ELEMENT, and answers its words. */
typedef uint32_t (*element)(uint32_t rows);
static uint32_t make_tree(uint32_t rows)
{
    uint32_t words = make(ELEMENT, LEAVES, 0, 0);
    for (uint32_t i = 0; i < LEAVES; i++) words += make(PART, 0, 0, 8), g1_put(&heap, 0, ELEMENT, i, PART);
    (void)rows;
    return words;
}
static uint32_t make_list(uint32_t rows)
{
    uint32_t words = 0;
    g1_drop(&heap, 0, ELEMENT);
    for (uint32_t i = 0; i < CELLS; i++) {
        words += make(PART, 2, 0, 1);
        g1_put(&heap, 0, PART, 0, ELEMENT), g1_move(&heap, 0, ELEMENT, PART);
    }
    (void)rows;
    return words;
}
static uint32_t make_entry(uint32_t rows)
{
    uint32_t words = make(PART, 0, 0, 4);
    words += make(ELEMENT, 2, 0, 2), g1_put(&heap, 0, ELEMENT, 1, PART);
    (void)rows;
    return words;
}
static uint32_t make_weak(uint32_t rows)
{
    uint32_t words = make(ELEMENT, 1, SLOTS, 1);
    for (uint32_t i = 0; i < SLOTS; i++) {
        g1_get(&heap, 0, ROW, TABLE, draw(rows)), g1_get(&heap, 0, PART, ROW, draw(rows));
        g1_put_weak(&heap, 0, ELEMENT, i, PART);
    }
    return words;
}

/* Puts a new element at a place, and makes what dies at once beside it: `dying` words for each ten of the element. */
static void replace(element one, uint32_t rows, uint32_t row, uint32_t column, uint32_t dying)
{
    uint32_t words = one(rows);
    g1_get(&heap, 0, ROW, TABLE, row), g1_put(&heap, 0, ROW, column, ELEMENT);
    for (owed += (uint64_t)words * dying; owed >= 10 * DEAD; owed -= 10 * DEAD) make(OTHER, 2, 0, 1);
}
static void is_none(const char *name, uint32_t percent, int fault)
{
    if (counts[fault] == 0) return;
    printf("%s, %u percent live: %s: %" PRIu64 " times\n", name, percent, faults[fault], counts[fault]), failed = 1;
}
static void is_at_most(const char *name, const char *what, double each, double most)
{
    if (each <= most) return;
    printf("%s, nine of ten words die at once: %.3f %s for each word made, and the bar is %.2f\n", name, each, what, most), failed = 1;
}

/* Fills a table with elements of so many words each, until a share of the heap lives, and replaces drawn ones. */
static void run(const char *name, element one, uint32_t average, uint32_t percent, uint32_t dying)
{
    uint32_t rows = 1;
    sizes = (g1_sizes){512, 4096, 511, 1, 0, 64, 0, 8};
    g1_free(&heap);
    if (g1_new(&heap, &sizes) != G1_DONE) puts("no heap"), exit(1);
    g1_policy_start(&policy, &sizes);
    seed = 88172645463325252u, made = owed = 0;
    while ((uint64_t)(rows + 1) * (rows + 1) * average <= all_words() * percent / 100) rows++;
    make(TABLE, rows, 0, 0);
    for (uint32_t i = 0; i < rows; i++) make(ROW, rows, 0, 0), g1_put(&heap, 0, TABLE, i, ROW);
    for (uint32_t i = 0; i < rows; i++)
        for (uint32_t k = 0; k < rows; k++) replace(one, rows, i, k, dying);
    for (int i = 0; i < FAULTS; i++) counts[i] = 0;
    g1_policy before = policy;
    for (made = 0; made < 2 * all_words();) {
        uint32_t row = draw(rows);
        replace(one, rows, row, draw(rows), dying);
    }
    for (int fault = BOTH; fault < SHORT; fault++) is_none(name, percent, fault);
    if (percent <= 50) is_none(name, percent, SHORT), is_none(name, percent, WHOLE);
    if (dying < 90) return;
    is_at_most(name, "words copied", (double)(policy.copied - before.copied) / (double)made, 0.15);
    is_at_most(name, "objects scanned", (double)(policy.scanned - before.scanned) / (double)made, 0.04);
}

int main(void)
{
    static const uint32_t shares[] = {20, 50, 75};
    for (int i = 0; i < 3; i++) {
        run("trees", make_tree, 91, shares[i], 10), run("lists", make_list, 81, shares[i], 10);
        run("entries", make_entry, 13, shares[i], 10), run("weak", make_weak, 9, shares[i], 10);
    }
    run("weak", make_weak, 9, 85, 10);
    run("trees", make_tree, 91, 50, 90), run("lists", make_list, 81, 50, 90), run("entries", make_entry, 13, 50, 90);
    g1_free(&heap);
    return failed;
}
