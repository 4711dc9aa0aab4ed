/* Memory that goes back to the system by g1_shrink and g1_give_back, by what /proc/self/statm tells of the process: so it needs Linux.

     give_back               heaps of 64 MiB, 1 GiB and 4 GiB, in which a program makes objects of which up to 50 MB live: while it does it
                             holds at most 3 times these and 32 MiB. Then heaps that are filled, with up to 1 GB, and all but 50 MB of that
                             dropped: the policy's hint comes, after g1_shrink the process holds at most 1.5 times what lives and 16 MiB,
                             and while the program goes on 3 times and 32 MiB; then all is filled once more. A heap that grows and shrinks
                             100 times
     give_back courses FIRST COUNT    other courses of a program with 50 MB alive, by COUNT seeds each from FIRST on, in heaps of 1 GiB and
                             4 GiB that had up to 1 GB alive: the process holds at most 3 times the most that lives and 32 MiB
     give_back same COUNT    a drawn program, which gives back COUNT times: its record is the same whatever COUNT is

   Prints what the process holds. The status is 1 where that is too much, or an object isn't as it was. */
#include <g1heap.h>
#include <malloc.h>
#include <stdio.h>
#include <stdlib.h>
#include <string.h>
#include <unistd.h>

enum { LISTS = 1024, NEW = LISTS, AT, TABLE, ROW, REGISTERS, MEBIBYTE = 1 << 20, GIGABYTE = 1000000000 };

static g1_heap heap = G1_HEAP_NONE;
static g1_policy policy;
static g1_sizes sizes;
static uint64_t seed = 1;
/* Of each list how many objects it has, and the sum of their first data words. */
static uint64_t counts[LISTS], sums[LISTS];

static uint32_t draw(uint32_t below)
{
    seed ^= seed << 13, seed ^= seed >> 7, seed ^= seed << 17;
    return (uint32_t)((seed >> 20) % below);
}

/* The bytes that the process holds. */
static uint64_t resident(void)
{
    unsigned long long all, held = 0;
    FILE *file = fopen("/proc/self/statm", "r");
    if (file == NULL || fscanf(file, "%llu %llu", &all, &held) != 2) held = 0;
    if (file != NULL) fclose(file);
    return held * (uint64_t)sysconf(_SC_PAGESIZE);
}

static int fails(const char *what)
{
    printf("%s\n", what);
    return 1;
}

static int begin(uint32_t regions, uint32_t words, uint32_t registers)
{
    sizes = (g1_sizes){regions, words, 511, 1, 0, 64, 0, registers};
    if (sizes.buffer > words / 2) sizes.buffer = words / 2;
    memset(counts, 0, sizeof counts), memset(sums, 0, sizeof sums);
    if (g1_new(&heap, &sizes) != G1_DONE) return fails("there is no such heap");
    g1_policy_start(&policy, &sizes);
    return 0;
}

/* Makes an object of 1 pointer and so many data words, at the front of a list. Returns the code. */
static uint32_t add_to(uint32_t list, uint32_t values)
{
    uint32_t value = draw(1000000), code = g1_make(&heap, &policy, 0, NEW, 1, 0, values).code;
    if (code != G1_NAME) return code;
    g1_put(&heap, 0, NEW, 0, list), g1_write(&heap, 0, NEW, 0, value), g1_write(&heap, 0, NEW, values - 1, value);
    g1_move(&heap, 0, list, NEW);
    g1_drop(&heap, 0, NEW);
    counts[list]++, sums[list] += value;
    return code;
}

static uint32_t add(uint32_t values) { return add_to(draw(LISTS), values); }

/* Makes so many bytes of them. */
static int grow(uint64_t bytes, uint32_t values)
{
    for (uint64_t made = 0; made < bytes; made += 8 * (3 + (uint64_t)values))
        if (add(values) != G1_NAME) return fails("the heap is full too early");
    return 0;
}

/* Makes them until the heap is full: nine tenths of it live then at least. */
static int fill(uint32_t values)
{
    uint32_t code;
    do code = add(values);
    while (code == G1_NAME);
    if (code != G1_FULL) return fails("no Full");
    g1_collect_all(&heap, &policy);
    return g1_live_words(&heap).first / 9 * 10 > (uint64_t)sizes.regions * sizes.words ? 0 : fails("the heap is full too early");
}

static void drop_lists(uint32_t from)
{
    for (uint32_t list = from; list < LISTS; list++) g1_drop(&heap, 0, list), counts[list] = sums[list] = 0;
}

/* Whether each list has the objects that were made for it. */
static int are_whole(void)
{
    for (uint32_t list = 0; list < LISTS; list++) {
        uint64_t count = 0, sum = 0;
        g1_move(&heap, 0, AT, list);
        while (g1_name(&heap, 0, AT).code == G1_NAME) count++, sum += g1_read(&heap, 0, AT, 0).first, g1_get(&heap, 0, AT, AT, 0);
        if (count != counts[list] || sum != sums[list]) return printf("list %u has %llu objects\n", list, (unsigned long long)count), 0;
    }
    return 1;
}

static int shrink(void)
{
    if (g1_shrink(&heap, &policy).code != G1_DONE) return fails("memory was refused");
    return policy.idle == 0 && policy.most == sizes.regions - policy.held ? 0 : fails("what was in play isn't counted from here on");
}

/* Makes an object in one of so many lists, which are dropped by chance, so that they have as many bytes together as should live. */
static uint32_t renew(uint64_t live, uint32_t lists)
{
    uint32_t list = draw(lists);
    if (draw((uint32_t)(live / lists / (8 * 64))) == 0) g1_drop(&heap, 0, list), counts[list] = sums[list] = 0;
    return add_to(list, 61);
}

/* Makes so many bytes of them. While it runs the process holds 3 times what lives and 32 MiB at most. */
static int run_on(uint64_t bytes, uint64_t live, uint32_t lists)
{
    uint64_t most = 0, held;
    for (uint64_t i = 0; i < bytes / (8 * 64); i++) {
        if (renew(live, lists) != G1_NAME) return fails("the heap is full too early");
        if (i % 20000 == 0 && (held = resident()) > most) most = held;
    }
    printf("%llu bytes made, of which %llu live: %llu held at most, %u regions in play\n", (unsigned long long)bytes,
           (unsigned long long)live, (unsigned long long)most, sizes.regions - policy.held);
    return most <= 3 * live + 32 * MEBIBYTE ? 0 : fails("too much is held");
}

/* Makes such objects until the policy says that memory could go back, which comes before so many bytes. */
static int wait_for_hint(uint64_t bytes, uint64_t live, uint32_t lists)
{
    for (uint64_t i = 0; policy.idle == 0; i++)
        if (i > bytes / (8 * 64) || renew(live, lists) != G1_NAME) return fails("no hint");
    return 0;
}

/* A heap of so many mebibytes, of which so many live; then three quarters of it are filled, 1 GB at most, and dropped but for so many; and
   again. */
static int in_heap(uint32_t mebibytes, uint32_t regions, uint32_t left)
{
    uint64_t bytes = (uint64_t)mebibytes * MEBIBYTE, filled = bytes / 4 * 3 < GIGABYTE ? bytes / 4 * 3 : GIGABYTE;
    uint32_t lists = (uint32_t)(LISTS * ((uint64_t)left * MEBIBYTE) / filled);
    if (begin(regions, mebibytes * (131072 / regions), REGISTERS) || run_on(filled * 2, (uint64_t)left * MEBIBYTE, lists)) return 1;
    for (int turn = 0; turn < 2; turn++) {
        if (grow(filled - 8 * g1_live_words(&heap).first, 61)) return 1;
        uint64_t most = resident();
        drop_lists(lists);
        if (policy.most > policy.least && wait_for_hint(4 * filled, (uint64_t)left * MEBIBYTE, lists)) return 1;
        if (shrink()) return 1;
        uint64_t live = 8 * g1_live_words(&heap).first, held = resident();
        printf("%u MiB: %llu bytes live, %llu held, %llu before\n", mebibytes, (unsigned long long)live, (unsigned long long)held,
               (unsigned long long)most);
        if (live < (uint64_t)left * MEBIBYTE) live = (uint64_t)left * MEBIBYTE;
        if (held > live + live / 2 + 16 * MEBIBYTE || most < filled) return fails("too much is held, or too little was");
        if (!are_whole() || run_on(filled, live, lists) || !are_whole()) return fails("objects are lost, or too much is held");
    }
    if (mebibytes <= 64 && (fill(61) || !are_whole())) return fails("the heap can't be used whole");
    g1_free(&heap);
    return 0;
}

/* Courses of a program with 50 MB alive. Each step makes an object, and returns how many words it has, 0 where the heap is full. */
enum { LIVE = 50 * MEBIBYTE / 8, ROUND = 53 };

/* So many entries of a table in rows, of so many words each. So many words live at most, as the courses know, and did at most. */
static uint32_t entries, columns, entry_words;
static uint64_t alive, most_alive, list_words[LISTS];

static void lives(uint64_t more, uint64_t less)
{
    alive = alive + more - less;
    if (alive > most_alive) most_alive = alive;
}

/* Makes an object of so many words in register NEW. */
static int makes(uint32_t pointers, uint32_t words)
{
    return g1_make(&heap, &policy, 0, NEW, pointers, 0, words - 2 - pointers).code == G1_NAME;
}

static uint32_t put_entry(uint32_t entry)
{
    if (!makes(0, entry_words)) return 0;
    g1_get(&heap, 0, ROW, TABLE, entry / columns), g1_put(&heap, 0, ROW, entry % columns, NEW);
    return entry_words;
}

static int begin_table(uint32_t words)
{
    entry_words = words, entries = LIVE / (words + 1), columns = 1;
    while (columns * columns < entries) columns++;
    entries = columns * (columns - 1);
    if (g1_make(&heap, &policy, 0, TABLE, columns - 1, 0, 0).code != G1_NAME) return 0;
    for (uint32_t row = 0; row < columns - 1; row++) {
        if (!makes(columns, columns + 2)) return 0;
        g1_put(&heap, 0, TABLE, row, NEW);
    }
    for (uint32_t entry = 0; entry < entries; entry++)
        if (put_entry(entry) == 0) return 0;
    lives((uint64_t)entries * (words + 1), 0);
    return 1;
}

static int begin_nothing(void) { return 1; }
static int begin_entries(void) { return begin_table(64); }
static int begin_small(void) { return begin_table(8); }

/* An entry at a drawn place, where an old one dies. */
static uint32_t replace(void) { return put_entry(draw(entries)); }

/* Whole rows of entries die, and are filled anew one after another: half of the table at a time. */
static uint32_t refill(void)
{
    static uint32_t entry;
    if ((entry = (entry + 1) % entries) % (entries / 2) == 0)
        for (uint32_t row = entry / columns; row < entry / columns + columns / 2; row++) {
            if (!makes(columns, columns + 2)) return 0;
            g1_put(&heap, 0, TABLE, row % (columns - 1), NEW);
        }
    return put_entry(entry);
}

/* At the front of a list. */
static uint32_t push(uint32_t list, uint32_t words)
{
    if (!makes(1, words)) return 0;
    g1_put(&heap, 0, NEW, 0, list), g1_move(&heap, 0, list, NEW);
    list_words[list] += words, lives(words, 0);
    return words;
}

static void drop_list(uint32_t list)
{
    g1_drop(&heap, 0, list), lives(0, list_words[list]);
    list_words[list] = 0;
}

/* Lists that are dropped by chance, of larger objects and of smaller ones. */
static uint32_t chance(uint32_t words)
{
    uint32_t list = draw(ROUND);
    if (draw(LIVE / ROUND / words) == 0) drop_list(list);
    return push(list, words);
}

static uint32_t push_by_chance(void) { return chance(64); }
static uint32_t push_small(void) { return chance(8); }

/* One list that is dropped as a whole. */
static uint32_t build(void)
{
    if (list_words[0] + 64 > LIVE) drop_list(0);
    return push(0, 64);
}

/* A queue: the oldest object dies. Register 0 names its front, and 1 its end. */
static uint32_t queue(void)
{
    if (!makes(1, 64)) return 0;
    g1_move(&heap, 0, alive == 0 ? 0 : AT, NEW);
    if (alive != 0) g1_put(&heap, 0, 1, 0, NEW);
    g1_move(&heap, 0, 1, NEW);
    if (alive + 64 > LIVE) g1_get(&heap, 0, 0, 0, 0);
    else lives(64, 0);
    return 64;
}

/* Arrays at drawn places, which have so many words at most. */
static uint32_t array(uint32_t most)
{
    uint32_t place = draw(LISTS), words = 16 + draw(most - 16);
    drop_list(place);
    while (alive + words > LIVE) drop_list(draw(LISTS));
    if (g1_make(&heap, &policy, 0, place, 0, 0, words - 2).code != G1_NAME) return 0;
    list_words[place] = words, lives(words, 0);
    return words;
}

static uint32_t put_array(void) { return array(12288); }
static uint32_t put_large(void) { return array(3 * sizes.words); }

static const struct course {
    const char *name;
    int (*begin)(void);
    uint32_t (*step)(void);
} courses[] = {
    {"entries replaced", begin_entries, replace}, {"small ones replaced", begin_small, replace}, {"rows replaced", begin_entries, refill},
    {"lists", begin_nothing, push_by_chance},     {"lists of small ones", begin_nothing, push_small}, {"one list", begin_nothing, build},
    {"a queue", begin_nothing, queue},            {"arrays", begin_nothing, put_array}, {"large arrays", begin_nothing, put_large}};
enum { COURSES = sizeof courses / sizeof *courses };

/* Takes a course in a heap in which nothing lives, until 400 MB are made: so the marking before it had nothing to look at. */
static int take_course(const struct course *course)
{
    uint64_t held = 0, most = 0, next = 0;
    g1_scope(&heap, 0, 0);
    memset(list_words, 0, sizeof list_words), alive = most_alive = 0;
    if (shrink() || !course->begin()) return fails("a course doesn't begin");
    for (uint64_t made = 0, words; made < 400 * MEBIBYTE / 8; made += words) {
        if ((words = course->step()) == 0) return fails("the heap is full too early");
        if (made < next) continue;
        next = made + MEBIBYTE / 8;
        if ((held = resident()) > most) most = held;
    }
    printf("%s: %llu bytes live at most, %llu held at most, %u regions in play\n", course->name, (unsigned long long)most_alive * 8,
           (unsigned long long)most, sizes.regions - policy.held);
    uint64_t live = most_alive > LIVE ? most_alive : LIVE;
    return most <= 3 * 8 * live + 32 * MEBIBYTE ? 0 : fails("too much is held");
}

/* Each course by so many seeds, in a heap of so many mebibytes of which three quarters were filled, 1 GB at most, and dropped. */
static int in_courses(uint32_t mebibytes, uint32_t regions, uint32_t first, uint32_t count)
{
    uint64_t bytes = (uint64_t)mebibytes * MEBIBYTE, filled = bytes / 4 * 3 < GIGABYTE ? bytes / 4 * 3 : GIGABYTE;
    if (begin(regions, mebibytes * (131072 / regions), REGISTERS) || grow(filled, 61)) return 1;
    drop_lists(0);
    for (uint32_t i = 0; i < count * COURSES; i++) {
        seed = 88172645463325252u + first + i / COURSES;
        if (take_course(&courses[i % COURSES])) return 1;
    }
    g1_free(&heap);
    return 0;
}

/* What the first heap had goes back to the system before the second one, as docs/EMBEDDING.md tells. */
static int all_courses(uint32_t first, uint32_t count)
{
    mallopt(M_MMAP_THRESHOLD, 131072);
    return in_courses(1024, 1024, first, count) || in_courses(4096, 2048, first, count);
}

/* Grows and shrinks. What the process holds is the same after each turn, once the first few are over. */
static int in_turns(void)
{
    uint64_t held = 0;
    if (begin(512, 16384, REGISTERS)) return 1;
    for (int turn = 0; turn < 100; turn++) {
        if (grow(40 * MEBIBYTE, 509)) return 1;
        drop_lists(LISTS / 32);
        if (turn % 10 == 9) drop_lists(0);
        if (shrink() || !are_whole()) return fails("a turn failed");
        if (turn == 9) held = resident();
    }
    printf("100 turns: %llu bytes held after 10, %llu after all\n", (unsigned long long)held, (unsigned long long)resident());
    if (resident() > held + MEBIBYTE) return fails("the process has grown");
    g1_free(&heap);
    return 0;
}

/* A drawn program in a small heap, with so many calls of g1_give_back spread over it. */
static int same(uint32_t given)
{
    enum { STEPS = 20000, USED = 24 };
    if (begin(32, 256, USED)) return 1;
    for (uint32_t i = 0; i < STEPS; i++) {
        uint32_t a = draw(USED), b = draw(USED), pointers = draw(4), values = draw(draw(40) == 0 ? 600 : 20);
        switch (draw(8)) {
        case 0: case 1: case 2: g1_make(&heap, &policy, 0, a, pointers, draw(3), values); break;
        case 3: case 4: g1_put(&heap, 0, a, draw(4), b); break;
        case 5: g1_write(&heap, 0, a, draw(4), i); break;
        case 6: g1_drop(&heap, 0, a); break;
        default:
            if (draw(40) == 0) g1_collect_all(&heap, &policy);
            else if (draw(40) == 0) g1_shrink(&heap, &policy);
            else if (draw(10) == 0) g1_compact(&heap, sizes.words);
            else g1_get(&heap, 0, a, b, draw(4));
        }
        if (given != 0 && i % (STEPS / given) == 0 && g1_give_back(&heap).code != G1_DONE) return fails("memory was refused");
    }
    g1_free(&heap);
    return 0;
}

int main(int count, char **words)
{
    if (count == 3 && strcmp(words[1], "same") == 0) return same((uint32_t)atoi(words[2]));
    if (g1_give_back(&heap).code != G1_NO_HEAP || g1_shrink(&heap, &policy).code != G1_NO_HEAP) return fails("nothing gives memory back");
    if (count == 4 && strcmp(words[1], "courses") == 0) return all_courses((uint32_t)atoi(words[2]), (uint32_t)atoi(words[3]));
    return in_heap(64, 1024, 20) || in_heap(1024, 1024, 50) || in_heap(4096, 2048, 50) || in_turns();
}
