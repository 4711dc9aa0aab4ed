/* Loads that keep a share of a heap live. How long a look takes: a g1_make that ran the collector.

   A table of rows is filled with so many elements that the share of the heap's words lives. Then one element after another is made and
   put at a drawn place of the table, where an old one dies, until as many words were made as the heap has, 8,388,608 at least. Beside each
   element other objects are made that die at once. The elements:

     trees     a node of 8 pointers to objects of 8 data words
     lists     16 cells of 2 pointers and 1 data word
     hash      entries in chains, each with a key of 4 data words: a drawn key is put in where it isn't there, else taken out
     arrays    objects of 6 data words, which 16 large arrays lead to
     weak      objects of 4 weak slots that lead to drawn elements

     cc -O2 -D_DEFAULT_SOURCE -Iinclude tools/measuring/live_loads.c -Llib -lg1heap -o live_loads
     ./live_loads LOAD MEBIBYTES PERCENT [runs=2] [dying=10] [card=64] [pause_words=0] [words=0] [like=0]

   `dying`: for ten words of an element so many others are made that die at once. `card`: the words of a card. Where they aren't 0,
   `pause_words` is set in the policy, and `words` are made after the filling; and `like` is a larger heap's mebibytes: there are as many
   regions as in that, which are smaller, and the policy's numbers of words, cards and objects are as much smaller. So it goes the ways of
   that heap, in less time, and looks are as much shorter.

   It prints a row: the heap, percent live, the load; the longest look, and the longest while the table was filled; which part of the time
   looks took; objects scanned and words copied for each word made; cycles of marking; and the time of all for each object made. Times are
   processor time of the thread. Each run does the same in a process of its own; of each look, and of the whole, the least time counts.

   By -DMODEL over the plain heap the time is that of a model, the same on any machine however busy it is: what each kind of work costs by
   the table `costs`, and 20 ns for each word that is made.

     g++ -O2 -std=c++17 -DPLAIN_COUNTS -Iinclude -c plain/plain_library.cpp -o plain.o
     cc -O2 -D_DEFAULT_SOURCE -DMODEL -Iinclude tools/measuring/live_loads.c plain.o -lstdc++ -o live_model
     ./live_model LOAD MEBIBYTES PERCENT [dying=10] [card=64] [pause_words=0] [words=0] [like=0]

   Its row has more: the least part of any 100 ms that the program has; the collector's time for each word made; whole collections; and what
   the longest look did, in thousands.

   By -DMEMORY_BOEHM with -lgc the same on Boehm's collector, with one thread and, at first, as large a heap, without `weak`: weak slots
   are left out there. A look is a collection, whose sweeping comes later; the heap's size is that at the end. */
#include "../../clients/memory.h"
#include <inttypes.h>
#include <sys/mman.h>
#include <sys/wait.h>
#include <time.h>
#include <unistd.h>

enum { TABLE, ROW, ELEMENT, PART, KEY, BEFORE, OTHER }; /* registers */
enum { LEAVES = 8, CELLS = 16, ARRAYS = 16, SLOTS = 4, MOST_LOOKS = 1 << 23, LEAST_WORDS = 8388608, LARGEST = 65536 };

typedef struct load {
    const char *name;
    uint32_t words;             /* of an element with the pointer to it */
    void (*element)(void);      /* makes one in register ELEMENT */
} load;
/* What the processes of all runs share: of each look, and of all after the filling, the least time. */
typedef struct shared {
    uint64_t looks[MOST_LOOKS], spent, filling, count, heap, objects, words, cycles, scanned, copied;
} shared;

static shared *least;
static const load *loaded;
static uint64_t seed = 88172645463325252u, words_made, filled_words, look_count, owed;
static int is_filled;
static uint32_t elements, columns, dying = 10, card = 64, pause_words, runs = 2, wanted_words, like, shrunk = 1;

static uint32_t draw(uint32_t below)
{
    seed ^= seed << 13, seed ^= seed >> 7, seed ^= seed << 17;
    return (uint32_t)((seed >> 20) % below);
}
#ifdef MODEL
/* What plain_work counts, and what one costs in nanoseconds. */
enum { WORKS = 6 };
uint64_t plain_work(const g1_heap *heap, uint32_t kind);
static const struct cost { const char *of; uint64_t each; } costs[WORKS] = {
    {"words copied", 15}, {"cards visited", 300}, {"cards refined", 400}, {"words marked", 25}, {"objects cleared", 150}, {"flags", 2}};
static uint64_t longest_look, longest_work[WORKS], work_before[WORKS], starts[MOST_LOOKS], whole, packed_before;

static uint64_t now(void)
{
    uint64_t sum = 0;
    for (uint32_t kind = 0; kind < WORKS; kind++) sum += costs[kind].each * plain_work(&m_heap, kind);
    return sum;
}
/* Notes where a look of so much time starts, and what the longest one did. */
static void note_work(uint64_t time)
{
    uint64_t work[WORKS], program = 20 * (words_made + filled_words);
    for (uint32_t kind = 0; kind < WORKS; kind++) work[kind] = plain_work(&m_heap, kind);
    starts[look_count] = program + now() - time;
    for (uint32_t kind = 0; kind < WORKS && is_filled && time > longest_look; kind++) longest_work[kind] = work[kind] - work_before[kind];
    if (is_filled && time > longest_look) longest_look = time;
    memcpy(work_before, work, sizeof work);
    whole += is_filled && m_policy.packed_next != packed_before, packed_before = m_policy.packed_next;
}
/* The least part of any so many nanoseconds from the filling on that the program has. */
static double least_share(uint64_t window)
{
    uint64_t most = 0, sum = 0, end = least->filling;
    for (uint64_t from = end; from < least->count; from++) {
        for (; end < least->count && starts[end] + least->looks[end] <= starts[from] + window; end++) sum += least->looks[end];
        uint64_t in = sum, until = starts[from] + window;
        if (end < least->count && starts[end] < until) in += until - starts[end];
        if (in > most) most = in;
        if (end > from) sum -= least->looks[from];
        else end = from + 1;
    }
    return most < window ? 1 - (double)most / (double)window : 0;
}
static void print_model(void)
{
    uint64_t sum = 0;
    for (uint64_t i = least->filling; i < least->count; i++) sum += least->looks[i] - 1;
    printf("| %.3f | %.1f ns | %" PRIu64 " |", least_share(100000000), (double)sum / (double)least->words, whole);
    for (uint32_t kind = 0; kind < WORKS; kind++)
        if (longest_work[kind] >= 1000) printf(" %s %.0f", costs[kind].of, (double)longest_work[kind] / 1e3);
}
#else
static void note_work(uint64_t time) { (void)time; }
static void print_model(void) {}
static uint64_t now(void)
{
    struct timespec at;
    clock_gettime(CLOCK_THREAD_CPUTIME_ID, &at);
    return (uint64_t)at.tv_sec * 1000000000u + (uint64_t)at.tv_nsec;
}
#endif
static uint64_t sized_words(void) { return (uint64_t)m_sizes.regions * m_sizes.words; }
static void least_of(uint64_t *kept, uint64_t time)
{
    if (*kept == 0 || time < *kept) *kept = time;
}
static void note_look(uint64_t time)
{
    if (look_count == MOST_LOOKS) m_die("too many looks");
    note_work(time);
    least_of(&least->looks[look_count++], time + 1);
}

#ifdef MEMORY_BOEHM

static void note_event(GC_EventType event)
{
    static uint64_t start;
    if (event == GC_EVENT_START) start = now();
    if (event == GC_EVENT_END) note_look(now() - start);
}
static uint64_t heap_words(void) { return GC_get_heap_size() / 8; }
static void start(void)
{
    setenv("GC_MARKERS", "1", 1);
    m_start();
    GC_expand_hp(8 * (size_t)sized_words() - GC_get_heap_size()), GC_set_dont_expand(1);
    GC_set_on_collection_event(note_event);
}
static void make(reg to, uint32_t pointers, uint32_t values)
{
    words_made += 2 + pointers + values;
    if (!m_new(to, pointers, values)) m_die("the heap is full");
}
static void count_steps(uint64_t counts[M_COUNTS]) { m_count(counts), counts[M_CYCLES] = GC_get_gc_no(); }

#else

static uint64_t heap_words(void) { return sized_words(); }
/* The numbers of a policy for regions that are so many times larger, each as many times smaller. */
static void shrink(void)
{
    g1_sizes large = m_sizes;
    large.words *= shrunk;
    g1_policy_start(&m_policy, &large);
    uint32_t *numbers[] = {&m_policy.pause_words, &m_policy.mark_words, &m_policy.cycle_words, &m_policy.young_words, &m_policy.cards_left,
                           &m_policy.visit_cards, &m_policy.clear_objects};
    for (size_t i = 0; i < sizeof numbers / sizeof *numbers; i++) *numbers[i] /= shrunk;
}
static void start(void)
{
    m_start();
    if (shrunk > 1) shrink();
    if (pause_words != 0) m_policy.pause_words = pause_words;
}
/* Only a call that may run the collector is timed. */
static void make_object(reg to, uint32_t pointers, uint32_t weaks, uint32_t values)
{
    uint32_t size = 2 + pointers + weaks + values;
    int looks = size >= m_policy.left || g1_free_regions(&m_heap).first <= 2;
    uint64_t from = looks ? now() : 0;
    if (g1_make(&m_heap, &m_policy, 0, to, pointers, weaks, values).code != G1_NAME) m_die("the heap is full");
    if (looks) note_look(now() - from);
    words_made += size, m_objects++;
}
static void make(reg to, uint32_t pointers, uint32_t values) { make_object(to, pointers, 0, values); }
static void make_weak(void)
{
    make_object(ELEMENT, 1, SLOTS, 1);
    for (uint32_t i = 0; i < SLOTS; i++) {
        uint32_t place = draw(elements);
        m_get(ROW, TABLE, place / columns), m_get(PART, ROW, place % columns);
        m_done(g1_put_weak(&m_heap, 0, ELEMENT, i, PART));
    }
}
static void count_steps(uint64_t counts[M_COUNTS]) { m_count(counts); }

#endif

static void make_tree(void)
{
    make(ELEMENT, LEAVES, 0);
    for (uint32_t i = 0; i < LEAVES; i++) make(PART, 0, 8), m_put(ELEMENT, i, PART);
}
static void make_list(void)
{
    m_drop(ELEMENT);
    for (uint32_t i = 0; i < CELLS; i++) make(PART, 2, 1), m_put(PART, 0, ELEMENT), m_move(ELEMENT, PART);
}
static void make_leaf(void) { make(ELEMENT, 0, 6); }

static const load loads[] = {
    {"trees", 2 + LEAVES + LEAVES * 10 + 1, make_tree},
    {"lists", CELLS * 5 + 1, make_list},
    {"hash", 6 + 6 + 1, NULL},
    {"arrays", 8 + 1, make_leaf},
#ifndef MEMORY_BOEHM
    {"weak", 4 + SLOTS + 1, make_weak},
#endif
    {NULL, 0, NULL},
};

/* What dies at once beside so many words. */
static void waste(uint32_t words)
{
    for (owed += words * dying; owed >= 50; owed -= 50) make(OTHER, 2, 1);
    m_drop(OTHER);
}

/* Puts a new element at a place of the table. */
static void replace(uint32_t place)
{
    loaded->element();
    m_get(ROW, TABLE, place / columns), m_put(ROW, place % columns, ELEMENT);
    waste(loaded->words - 1);
}

/* Takes the entry of a key out of its chain, or puts one in. An entry has the next one, the key's object, and the key. */
static void change(uint32_t key)
{
    uint32_t place = key % elements, column = place % columns, is_first = 1;
    make(KEY, 0, 4), m_write(KEY, 0, key);
    m_get(ROW, TABLE, place / columns);
    int is_there = m_get(ELEMENT, ROW, column);
    for (; is_there && m_read(ELEMENT, 0) != key; is_first = 0) m_move(BEFORE, ELEMENT), is_there = m_get(ELEMENT, ELEMENT, 0);
    if (is_there) {
        m_get(OTHER, ELEMENT, 0);
        m_put(is_first ? ROW : BEFORE, is_first ? column : 0, OTHER);
    } else {
        make(ELEMENT, 2, 2), m_write(ELEMENT, 0, key), m_put(ELEMENT, 1, KEY);
        m_get(OTHER, ROW, column), m_put(ELEMENT, 0, OTHER), m_put(ROW, column, ELEMENT);
    }
    waste(6 + 6 / 2);           /* the words of an entry are made each second time */
}

/* Fills the table: a hash table with each second of twice as many keys, in a scattered order. */
static void fill(void)
{
    make(TABLE, (elements + columns - 1) / columns, 0);
    for (uint32_t i = 0; i * columns < elements; i++) make(ROW, columns, 0), m_put(TABLE, i, ROW);
    for (uint32_t i = 0; i < elements; i++)
        if (loaded->element) replace(i);
        else change((uint32_t)(i * (uint64_t)2654435761u % (2 * elements)));
}

static void run(void)
{
    uint64_t before[M_COUNTS], after[M_COUNTS], from, wanted = wanted_words;
    if (wanted == 0) wanted = sized_words() > LEAST_WORDS ? sized_words() : LEAST_WORDS;
    start();
    fill();
    least->filling = look_count, filled_words = words_made, words_made = 0, is_filled = 1, count_steps(before), from = now();
    while (words_made < wanted)
        if (loaded->element) replace(draw(elements));
        else change(draw(2 * elements));
    least_of(&least->spent, now() - from), count_steps(after);
    least->count = look_count, least->heap = heap_words(), least->words = words_made, least->objects = after[M_OBJECTS] - before[M_OBJECTS];
    least->cycles = after[M_CYCLES] - before[M_CYCLES];
    least->scanned = after[M_SCANNED] - before[M_SCANNED], least->copied = after[M_COPIED] - before[M_COPIED];
}

static void print_row(uint32_t percent)
{
    uint64_t longest[2] = {0, 0}, sum = 0;
    for (uint64_t i = 0; i < least->count; i++) {
        uint64_t *most = &longest[i < least->filling];
        if (least->looks[i] > *most) *most = least->looks[i];
        if (i >= least->filling) sum += least->looks[i];
    }
    double made = (double)least->words, spent = (double)least->spent;
    printf("| %" PRIu64 " MiB | %" PRIu32 " %% | %s | %.1f ms | %.1f ms | %.0f %% ", least->heap / 131072, percent, loaded->name,
           (double)longest[0] / 1e6, (double)longest[1] / 1e6, 100.0 * (double)sum / spent);
    printf("| %.3f | %.2f | %" PRIu64 " | %.3f us ", (double)least->scanned / made, (double)least->copied / made, least->cycles,
           spent / (double)least->objects / 1e3);
    print_model();
    puts("|");
}

/* A word NAME=NUMBER sets an option. */
static int set_option(const char *word)
{
    static const struct option { const char *name; uint32_t *number; } options[] = {
        {"runs=", &runs}, {"dying=", &dying}, {"card=", &card}, {"pause_words=", &pause_words}, {"words=", &wanted_words},
        {"like=", &like}};
    for (size_t i = 0; i < sizeof options / sizeof *options; i++) {
        size_t length = strlen(options[i].name);
        if (strncmp(word, options[i].name, length) == 0) return *options[i].number = (uint32_t)atoi(word + length), 1;
    }
    return 0;
}

/* Sizes of a heap of so many mebibytes, and of a table that keeps this share live. */
static void set_sizes(uint32_t mebibytes, uint32_t percent)
{
    uint64_t all;
    if (like > mebibytes) shrunk = like / mebibytes;
    mebibytes *= shrunk, all = (uint64_t)mebibytes * 131072;
    m_sizes.words = mebibytes > 16 ? 16384 : 4096;
    while (m_sizes.words < LARGEST && m_sizes.words * (uint64_t)2048 < all) m_sizes.words *= 2;
    m_sizes.regions = (uint32_t)(all / m_sizes.words), m_sizes.words /= shrunk;
    m_sizes.buffer = m_sizes.words / 8 - 1 < 1023 ? m_sizes.words / 8 - 1 : 1023;
    m_sizes.card = card;
    elements = (uint32_t)(sized_words() * percent / 100 / loaded->words), columns = 1;
    if (strcmp(loaded->name, "arrays") == 0) columns = (elements + ARRAYS - 1) / ARRAYS;
    else while ((uint64_t)columns * columns < elements) columns++;
}

int main(int count, char **words)
{
    for (loaded = loads; count > 1 && loaded->name && strcmp(loaded->name, words[1]) != 0;) loaded++;
    for (int i = 4; i < count; i++)
        if (!set_option(words[i])) count = 0;
    if (count < 4 || loaded->name == NULL) m_die("live_loads LOAD MEBIBYTES PERCENT [NAME=NUMBER ..]: see the top of its source");
    set_sizes((uint32_t)atoi(words[2]), (uint32_t)atoi(words[3]));
    least = mmap(NULL, sizeof *least, PROT_READ | PROT_WRITE, MAP_SHARED | MAP_ANONYMOUS, -1, 0);
    if (least == MAP_FAILED) m_die("no memory for the times");
#ifdef MODEL
    run(), runs = 0;
#endif
    for (uint32_t i = 0; i < runs; i++) {
        int status = 1;
        if (fork() == 0) run(), _exit(0);
        if (wait(&status) < 0 || status != 0) return 1;
    }
    print_row((uint32_t)atoi(words[3]));
    return 0;
}
