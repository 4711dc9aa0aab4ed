/* The policy where a heap gets full: most of what fills it dies, and room has to come back; heaps of 2 and 3 regions;
   objects that take whole regions; calls that name no step; registers of refused objects; weak slots, which are cleared where a
   marking is counted; random loads, of which each g1_make is looked at.

     policy [LOADS]      300 random loads where it is left out */
#include <g1heap.h>
#include <stdio.h>
#include <stdlib.h>

enum { SLOTS = 16384, MOST = 512 }; /* globals, which keep objects; those of a random load */
static int failed;
static uint64_t seed = 88172645463325252u;
static g1_heap heap = G1_HEAP_NONE;
static g1_policy policy;

static uint32_t free_regions(void) { return (uint32_t)g1_free_regions(&heap).first; }

static uint32_t draw(uint32_t below)
{
    seed ^= seed << 13, seed ^= seed >> 7, seed ^= seed << 17;
    return (uint32_t)((seed >> 20) % below);
}
static void is(int well, const char *what, uint32_t one, uint32_t other)
{
    if (well) return;
    if (failed++ < 20) printf("%s: %u, %u\n", what, one, other);
}
static void start(uint32_t regions, uint32_t words, uint32_t buffer, uint32_t mutators)
{
    g1_sizes sizes = {regions, words, buffer, mutators, 0, 8, SLOTS, 8};
    g1_free(&heap);
    if (g1_new(&heap, &sizes) != G1_DONE) exit(2);
    g1_policy_start(&policy, &sizes);
}
static uint32_t make(uint32_t mutator, uint32_t to, uint32_t size) { return g1_make(&heap, &policy, mutator, to, 0, 0, size - 2).code; }
static void drop_slot(uint32_t slot) { g1_save(&heap, 0, slot, 7); }

/* Fills globals with objects of so many words until G1_FULL. Answers how many there are. */
static uint32_t fill(uint32_t size)
{
    uint32_t count = 0;
    for (; count < SLOTS && make(0, 0, size) == G1_NAME; count++) g1_save(&heap, 0, count, 0);
    g1_drop(&heap, 0, 0);
    return count;
}

static void drop_most(uint32_t count)
{
    for (uint32_t slot = 0; slot < count; slot++)
        if (slot % 8 != 0) drop_slot(slot);
}

/* Full of objects that live, seven of eight of which then die: none of 20 new ones is refused. */
static void fill_and_drop(void)
{
    static const uint32_t regions[] = {4, 5, 8, 24, 64}, sizes[] = {2, 16, 63, 86, 100, 127, 128};
    for (size_t i = 0; i < sizeof regions / sizeof *regions; i++)
        for (size_t j = 0; j < sizeof sizes / sizeof *sizes; j++) {
            uint32_t count, refused = 0;
            start(regions[i], 256, j % 2 == 0 ? 31 : 64, 1);
            count = fill(sizes[j]);
            is(count < SLOTS && count * sizes[j] * 2 > (regions[i] - 2) * 256, "full too early", regions[i], sizes[j]);
            is(free_regions() == 2, "two regions aren't kept", regions[i], sizes[j]);
            drop_most(count);
            for (int more = 0; more < 20; more++) refused += make(0, 1, sizes[j]) != G1_NAME;
            is(refused == 0, "refused though most died", regions[i], sizes[j]);
        }
}

/* Heaps of 2 and 3 regions: garbage comes back there, and of 3 live objects each once what is full has died. */
static void use_small_heaps(void)
{
    for (uint32_t regions = 2; regions <= 4; regions++) {
        start(regions, 256, 31, 1);
        for (uint32_t i = 0; i < 5000; i++) is(make(0, 0, 2 + i % 127) == G1_NAME, "a small heap refuses", regions, i);
        g1_drop(&heap, 0, 0);
        uint32_t count = fill(16);
        is(count >= 8 * (regions < 4 ? regions - 1 : 2), "a small heap holds too little", regions, count);
        for (uint32_t slot = 0; slot < count; slot++) drop_slot(slot);
        is(make(0, 0, 16) == G1_NAME, "a small heap stays full", regions, count);
        for (uint32_t i = 0; i < 2000 && regions > 2; i++) is(make(0, 1 + i % 3, 16) == G1_NAME, "three objects are too many", regions, i);
    }
}

/* Objects of whole regions: two regions are kept of them too, but of those that need more than the others. */
static void use_large(void)
{
    start(16, 64, 7, 1);
    for (uint32_t i = 0; i < 7; i++) is(make(0, 0, 100) == G1_NAME, "a large object is refused", i, 0), g1_save(&heap, 0, i, 0);
    is(free_regions() == 2, "regions for 7 large objects", free_regions(), 0);
    is(make(0, 0, 33) == G1_FULL && make(0, 0, 16) == G1_FULL, "two regions aren't kept", 33, 16);
    g1_scope(&heap, 0, 0), drop_slot(3);
    is(make(0, 0, 16) == G1_NAME && make(0, 1, 33) == G1_NAME, "what a large object leaves", 16, 33);
    start(16, 64, 7, 1);
    for (uint32_t size = 64 * 13; size <= 64 * 16; size += 64)
        is(make(0, 0, size) == G1_NAME, "an object of nearly the whole heap", size, free_regions()), g1_drop(&heap, 0, 0);
    start(24, 256, 31, 1);
    drop_most(fill(16));
    is(make(0, 0, 256 * 12) == G1_NAME, "half of the heap at once, where most died", free_regions(), 0);
    start(16, 64, 7, 1);
    make(0, 0, 100), g1_begin(&heap), g1_drop(&heap, 0, 0);
    g1_collect_all(&heap, &policy);
    is(free_regions() == 16, "a whole collection while marking ran", free_regions(), 0);
}

/* Where a heap is full too, what names no step is told as that. */
static void use_wrongly(void)
{
    start(4, 16, 4, 2);
    for (int full = 0; full < 2; full++) {
        is(make(2, 0, 4) == G1_NO_STEP && make(0, 8, 4) == G1_NO_STEP, "no such mutator or register", (uint32_t)full, 0);
        is(g1_make(&heap, &policy, 0, 0, 0, 256, 0).code == G1_NO_STEP, "too many weak slots", (uint32_t)full, 0);
        uint64_t cycles = policy.cycles;
        is(make(0, 0, 65) == G1_TOO_BIG && policy.cycles == cycles, "too big", (uint32_t)full, 0);
        is(g1_make(&heap, &policy, 0, 0, UINT32_MAX, 0, UINT32_MAX).code == G1_TOO_BIG, "too big", (uint32_t)full, 1);
        fill(8);
    }
    is(make(1, 0, 4) == G1_FULL, "full", free_regions(), 0);
    g1_free(&heap);
    is(make(0, 0, 4) == G1_NO_HEAP, "no heap", 0, 0);
}

/* What a register holds where an object is refused: what it held, or nil where the policy says so after FULL. No other changes. */
static void drop_refused(void)
{
    uint32_t from[] = {2};
    uint64_t words[] = {7};
    for (uint32_t k = 0; k < 3; k++) {
        uint32_t held = G1_NAME, then = k == 0 ? G1_NAME : G1_NIL_VALUE;
        start(8, 64, 7, 2);
        policy.nil_on_full = k == 2 ? UINT32_MAX : k;
        for (uint32_t mutator = 0; mutator < 2; mutator++)
            for (uint32_t to = 1; to < 8; to++) g1_make(&heap, &policy, mutator, to, 0, 0, 1);
        fill(2);
        for (uint32_t to = 1; to < 6; to++) {
            uint32_t code = to == 1 ? make(1, to, 8) : to == 2 ? g1_make(&heap, &policy, 1, to, 0, 3, 0).code : to == 3 ? make(1, to, 50)
                          : to == 4 ? g1_make_filled(&heap, &policy, 1, to, from, 1, words, 1).code : make(1, to, 64 * 9);
            is(code == (to == 5 ? G1_TOO_BIG : G1_FULL), "an object in a full heap", k, to);
            is(g1_name(&heap, 1, to).code == (to == 5 ? held : then), "the register of a refused object", k, to);
            for (uint32_t other = to + 1; other < 8; other++) is(g1_name(&heap, 1, other).code == held, "another register", to, other);
            is(g1_name(&heap, 0, to).code == held, "another mutator's register", k, to);
        }
        for (uint32_t to = 1; to < 8; to++) g1_drop(&heap, 0, to), g1_drop(&heap, 1, to);
        for (uint32_t slot = 0; slot < SLOTS; slot++) g1_save(&heap, 0, slot, 0);
        is(make(1, 1, 8) == G1_NAME && g1_name(&heap, 1, 1).code == G1_NAME, "an object once there is room", k, 0);
    }
}

/* Weak slots become nil where the heap counts a marking more, and never else; it counts those of the policy, and each g1_remark of the
   program's own that answers MARKED. */
static void count_markings(void)
{
    enum { WEAKS = 8 };
    uint64_t own = 0;
    uint32_t lost[2] = {0, 0}, held[WEAKS] = {0};
    start(16, 64, 7, 1);
    g1_make(&heap, &policy, 0, 1, 0, WEAKS, 0);
    for (uint32_t i = 0; i < 20000; i++) {
        uint64_t cycles = policy.cycles, ended = g1_markings(&heap).first;
        switch (draw(40)) {
        case 0: g1_begin(&heap); break;
        case 1: own += g1_remark(&heap).code == G1_MARKED; break;                      /* what is read meanwhile is kept */
        case 9: g1_begin(&heap), own += g1_remark(&heap).code == G1_MARKED; break;
        case 2: g1_collect_all(&heap, &policy); break;
        case 3: g1_collect(&heap, &policy); break;
        case 4: g1_pause(&heap, 64), g1_cleanup(&heap), g1_clear(&heap, 1); break;
        case 5: if (draw(8) == 0) g1_shrink(&heap, &policy); break;
        case 6: case 7: g1_drop(&heap, 0, draw(2) == 0 ? 0 : 2); break;
        case 8: g1_move(&heap, 0, 2, 0); break;
        default: make(0, 0, 2 + draw(20));
        }
        is(g1_markings(&heap).first == policy.cycles + own, "markings that are counted", i, (uint32_t)own);
        for (uint32_t slot = 0; slot < WEAKS; slot++) {
            uint32_t is_held = g1_get_weak(&heap, 0, 3, 1, slot).code == G1_NAME;
            if (!held[slot] || is_held) continue;
            is(g1_markings(&heap).first != ended, "a weak slot was cleared and no marking counted", i, slot);
            lost[policy.cycles == cycles]++;
        }
        g1_drop(&heap, 0, 3), g1_put_weak(&heap, 0, 1, i % WEAKS, 0);
        for (uint32_t slot = 0; slot < WEAKS; slot++) held[slot] = g1_get_weak(&heap, 0, 3, 1, slot).code == G1_NAME;
        g1_drop(&heap, 0, 3);
    }
    is(lost[0] > 100 && lost[1] > 100, "weak slots that were cleared by the policy, and by the program", lost[0], lost[1]);
}

/* One random load. Two regions stay free, but where an object needs more than the others; a small object is refused only where more than
   half of the other regions' words live, without those of large objects. */
static void load(uint32_t number)
{
    uint32_t regions = 4 + draw(number % 2 == 0 ? 12 : 60), bits = 4 + draw(5), words = 1u << bits, most = words / 2;
    uint32_t mutators = 1 + (number % 3 == 0 ? draw(64) : draw(2)), large = draw(3) == 0 ? 30 : 0, live = 0, wide = 0;
    uint32_t sizes[MOST] = {0}, fitting = 4 * regions * words / most, slots = 1 + draw(fitting < MOST ? fitting : MOST);
    start(regions, words, 4 + draw(most - 3), mutators);
    for (int i = 0; i < 4000; i++) {
        uint32_t slot = draw(slots), mutator = draw(mutators), size = 2 + draw(draw(2) == 0 ? most - 1 : most / 4), code, free, is_large;
        if (large != 0 && draw(large) == 0) size = most + 1 + draw(2 * words);
        is_large = size > most;
        uint32_t taken = is_large ? (size + words - 1) / words : 1;
        drop_slot(slot);
        if (sizes[slot] > most) wide -= (sizes[slot] + words - 1) / words;
        else live -= sizes[slot];
        sizes[slot] = 0;
        code = make(mutator, 0, size), free = free_regions();
        if (taken + 2 < regions) is(free >= 2 || wide + 2 >= regions, "two regions aren't kept", number, free);
        if (code == G1_FULL && !is_large) {
            uint32_t ordinary = regions - wide - free;
            is(free <= 2, "full with free regions", number, free);
            is(ordinary < 2 || wide + 2 >= regions || ordinary * words < 2 * live, "full of what is dead", number, live);
        }
        if (code != G1_NAME) continue;
        g1_save(&heap, mutator, slot, 0), g1_drop(&heap, mutator, 0);
        sizes[slot] = size;
        if (is_large) wide += taken;
        else live += size;
    }
}

int main(int count, char **words)
{
    int loads = count > 1 ? atoi(words[1]) : 300;
    fill_and_drop();
    use_small_heaps();
    use_large();
    use_wrongly();
    drop_refused();
    count_markings();
    for (int i = 0; i < loads; i++) load((uint32_t)i);
    g1_free(&heap);
    if (failed == 0) puts("two regions are kept, and room comes back");
    return failed != 0;
}
