/* What the policy does where much of a heap lives, and where nearly nothing does, by counts:

   - a table leads to trees or to lists, and drawn ones are made anew, while as many words die at once, until twice the heap's words were
     made: in 128 MiB with 50 percent live at most 0.3 objects are scanned for each word made, with 75 percent 1.5
   - objects that die at once, each with a pointer to one old object: in 2, 32 and 128 MiB at most 9,000 cards are queued at any moment
   - drawn old objects get pointers to new ones: a look that takes no pause leaves at most 9,000 cards
   - lists that die at once in 256 MiB: at most 8 MB of it are touched
   - g1_collect_all and once more, with nothing between, of a table of entries that takes a third of 128 MiB, and of arrays that do: after
     the first half of the heap is free, and the second copies no word

     half_live

   Prints the figures of what misses its bar, and ends with status 1 then. */
#include <g1heap.h>
#include <inttypes.h>
#include <stdio.h>
#include <stdlib.h>
#include <unistd.h>

enum { TABLE, ROW, ELEMENT, PART, OTHER };      /* registers */
enum { LEAVES = 8, CELLS = 16, DYING = 5, MOST_CARDS = 9000, MOST_TOUCHED = 8000000 };

static int failed;
static uint64_t seed, made, owed;
static g1_heap heap = G1_HEAP_NONE;
static g1_policy policy;
static g1_sizes sizes;

static uint32_t draw(uint32_t below)
{
    seed ^= seed << 13, seed ^= seed >> 7, seed ^= seed << 17;
    return (uint32_t)((seed >> 20) % below);
}
static void start(uint32_t regions, uint32_t words, uint32_t card)
{
    sizes = (g1_sizes){regions, words, words / 8 - 1, 1, 0, card, 0, 8};
    g1_free(&heap);
    if (g1_new(&heap, &sizes) != G1_DONE) puts("no heap"), exit(1);
    g1_policy_start(&policy, &sizes);
    seed = 88172645463325252u, made = owed = 0;
}
static uint64_t all_words(void) { return (uint64_t)sizes.regions * sizes.words; }

/* Makes an object. Answers the words that it takes. */
static uint32_t make(uint32_t to, uint32_t pointers, uint32_t values)
{
    uint32_t code = g1_make(&heap, &policy, 0, to, pointers, 0, values).code;
    if (code != G1_NAME) printf("code %u with %u free regions\n", code, (unsigned)g1_free_regions(&heap).first), exit(1);
    made += 2 + pointers + values;
    return 2 + pointers + values;
}

/* What makes an element in register ELEMENT, and answers its words. */
typedef uint32_t (*element)(void);
static uint32_t make_tree(void)
{
    uint32_t words = make(ELEMENT, LEAVES, 0);
    for (uint32_t i = 0; i < LEAVES; i++) words += make(PART, 0, 8), g1_put(&heap, 0, ELEMENT, i, PART);
    return words;
}
static uint32_t make_list(void)
{
    uint32_t words = 0;
    g1_drop(&heap, 0, ELEMENT);
    for (uint32_t i = 0; i < CELLS; i++) {
        words += make(PART, 2, 1);
        g1_put(&heap, 0, PART, 0, ELEMENT), g1_move(&heap, 0, ELEMENT, PART);
    }
    return words;
}
static uint32_t make_entry(void)
{
    uint32_t words = make(PART, 0, 4);
    words += make(ELEMENT, 2, 2), g1_put(&heap, 0, ELEMENT, 1, PART);
    return words;
}
static uint32_t make_pair(void) { return make(ELEMENT, 2, 1); }
static uint32_t make_array(void) { return make(ELEMENT, 1, draw(398)); }

/* A table of so many places, in rows of as many. */
static void make_table(uint32_t rows)
{
    make(TABLE, rows, 0);
    for (uint32_t i = 0; i < rows; i++) make(ROW, rows, 0), g1_put(&heap, 0, TABLE, i, ROW);
}
/* Puts a new element at a place. Answers its words with the pointer to it. */
static uint32_t replace(element one, uint32_t row, uint32_t column)
{
    uint32_t words = one();
    g1_get(&heap, 0, ROW, TABLE, row), g1_put(&heap, 0, ROW, column, ELEMENT);
    return words + 1;
}
static uint32_t replace_drawn(element one, uint32_t rows)
{
    uint32_t row = draw(rows), column = draw(rows);
    return replace(one, row, column);
}
/* Fills a table with elements until so many words live. Answers its rows. */
static uint32_t fill(element one, uint32_t average, uint32_t percent)
{
    uint64_t live = all_words() * percent / 100, words = 0;
    uint32_t rows = 1;
    while ((uint64_t)rows * rows * average < live) rows++;
    make_table(rows);
    for (uint32_t i = 0; i < rows && words < live; i++)
        for (uint32_t k = 0; k < rows && words < live; k++) words += replace(one, i, k);
    return rows;
}

static void waste(uint32_t words)
{
    for (owed += words; owed >= DYING; owed -= DYING) make(OTHER, 2, 1);
}
/* Whether at most so many objects are scanned for each word made. */
static void scan(const char *name, element one, uint32_t average, uint32_t percent, double most)
{
    start(1024, 16384, 64);
    uint32_t rows = fill(one, average, percent);
    uint64_t before = policy.scanned;
    for (made = 0; made < 2 * all_words();) waste(replace_drawn(one, rows));
    double each = (double)(policy.scanned - before) / (double)made;
    if (each <= most) return;
    printf("%s, %u percent live: %.3f objects scanned for each word made, and the bar is %.1f\n", name, percent, each, most), failed = 1;
}

static void is_few(const char *what, uint64_t most)
{
    if (most <= MOST_CARDS) return;
    printf("%u MiB, %s: %" PRIu64 " cards queued, and the bar is %d\n", (unsigned)(all_words() / 131072), what, most, MOST_CARDS);
    failed = 1;
}
/* Whether few cards are queued, where each new object names an old one. */
static void name_old(uint32_t regions, uint32_t words, uint32_t card)
{
    uint64_t most = 0;
    start(regions, words, card);
    for (make(TABLE, 0, 1); made < 2 * all_words();) {
        make(ELEMENT, 1, 1), g1_put(&heap, 0, ELEMENT, 0, TABLE);
        if (g1_queued(&heap).first > most) most = g1_queued(&heap).first;
    }
    is_few("objects that name an old one", most);
}
/* Whether few are left by a look without a pause, where old objects name new ones. */
static void name_new(void)
{
    uint64_t most = 0;
    start(1024, 16384, 64);
    uint32_t rows = fill(make_pair, 6, 20);
    for (made = 0; made < all_words();) {
        uint64_t pauses = policy.pauses, queued;
        make(OTHER, 1, 1), queued = g1_queued(&heap).first;
        if (policy.left == policy.look && policy.pauses == pauses && queued > most) most = queued;
        g1_get(&heap, 0, ROW, TABLE, draw(rows)), g1_get(&heap, 0, PART, ROW, draw(rows));
        g1_put(&heap, 0, PART, 0, OTHER);
    }
    is_few("old objects that name new ones, after a look", most);
}

/* The resident bytes of this process. */
static uint64_t resident(void)
{
    unsigned long all, here;
    FILE *file = fopen("/proc/self/statm", "r");
    if (file == NULL || fscanf(file, "%lu %lu", &all, &here) != 2) puts("/proc/self/statm can't be read"), exit(1);
    fclose(file);
    return (uint64_t)here * (uint64_t)sysconf(_SC_PAGESIZE);
}
/* Whether little of a heap is touched, where what is made dies at once. */
static void touch(void)
{
    start(2048, 16384, 64);
    uint64_t before = resident();
    for (make_table(32); made < all_words() * 5 / 4;) make_list();
    uint64_t touched = resident() - before;
    if (touched <= MOST_TOUCHED) return;
    printf("256 MiB, lists that die at once: %" PRIu64 " bytes touched, and the bar is %d\n", touched, MOST_TOUCHED), failed = 1;
}

/* Whether a second whole collection copies nothing, after the first one left half of the heap free. */
static void collect_twice(const char *name, element one, uint32_t average)
{
    start(1024, 16384, 64);
    uint32_t rows = fill(one, average, 33);
    for (uint32_t i = 0; i < rows * rows / 2; i++) replace_drawn(one, rows);
    g1_drop(&heap, 0, ELEMENT), g1_drop(&heap, 0, PART);
    g1_collect_all(&heap, &policy);
    uint64_t before = policy.copied, free = g1_free_regions(&heap).first;
    g1_collect_all(&heap, &policy);
    if (policy.copied == before && free >= sizes.regions / 2) return;
    printf("%s: %" PRIu64 " regions free after a whole collection, and the bar is %u; then %" PRIu64 " words copied, and the bar is 0\n",
           name, free, sizes.regions / 2, policy.copied - before);
    failed = 1;
}

int main(void)
{
    scan("trees", make_tree, 91, 50, 0.3), scan("trees", make_tree, 91, 75, 1.5);
    scan("lists", make_list, 81, 50, 0.3), scan("lists", make_list, 81, 75, 1.5);
    name_old(256, 1024, 16), name_old(512, 8192, 64), name_old(1024, 16384, 64), name_new();
    touch();
    collect_twice("entries", make_entry, 13), collect_twice("arrays", make_array, 202);
    g1_free(&heap);
    return failed;
}
