/* What a refused object says: drawn loads in small heaps, of objects with pointers and weak slots, of several mutators, between steps of the
   collector that come as they like. Half of the loads fill a heap until an object is refused, drop some or most of it, and fill it again. A
   graph of objects of its own tells after each G1_FULL what roots reached: for an object of at most half a region more than half of the
   words of all regions but three, of all but two unless just one region is ordinary, and, of objects of at most half a region, of all
   ordinary ones if these are two or more. For a larger one that takes c regions fewer than c + 2 are free, side by side, and roots reached
   more than half of the words of all but c + 2, of all but c + 1 unless just one region is ordinary.

     full_bound [LOADS [FIRST]]        1,400 loads from number 1 on, where they are left out: a load hangs on its number alone

   Prints a hash of all answers, how many objects were made and refused, and of each kind of load the tightest refusals, with the number of
   the load: behind the same header two libraries print the same. The status is 1 where a promise was broken. */
#include <g1heap.h>
#include <stdio.h>
#include <stdlib.h>
#include <string.h>

enum { OBJECTS = 20000, FIELDS = 6, GLOBALS = 2048, REGISTERS = 6, MUTATORS = 3, ROOTS = GLOBALS + REGISTERS * MUTATORS, STEPS = 2000 };
enum { HALF, BELOW_HALF, THIRD, LEAST, THESE, MIXED, LARGE, KINDS };
static const char *const kinds[KINDS] = {"R/2", "R/2 - 1", "R/3 + 1", "2", "these four", "2 to R/2", "2 to R/2, and larger"};

typedef struct object { uint32_t size, pointers, weaks; int32_t fields[FIELDS]; } object; /* pointers, then weak slots */
typedef struct reach { uint64_t small, all; uint32_t wide; } reach_of;
/* Of so many words so many were reachable: in the load of this number, in so many regions of so many words. */
typedef struct share { uint64_t live, of; int load; uint32_t regions, words; } share;
enum { BUT_TWO, BUT_THREE, ORDINARY, SHARES };

static uint64_t seed, hash = 14695981039346656037u, made, full[KINDS], full_larger;
static object objects[OBJECTS];
static int32_t count, roots[ROOTS], queue[OBJECTS];
static uint8_t reached[OBJECTS];
static share tightest[KINDS][SHARES];
static g1_heap heap = G1_HEAP_NONE;
static g1_policy policy;
static g1_sizes sizes;
static int failed, number;

static uint32_t draw(uint32_t below)
{
    seed ^= seed << 13, seed ^= seed >> 7, seed ^= seed << 17;
    return (uint32_t)((seed >> 20) % below);
}
/* Seeds of neighbouring numbers have nothing in common. */
static void seed_by(uint64_t of)
{
    of = of * 0x9e3779b97f4a7c15u + 0x632be59bd9b4e019u;
    of = (of ^ of >> 30) * 0xbf58476d1ce4e5b9u, of = (of ^ of >> 27) * 0x94d049bb133111ebu;
    seed = (of ^ of >> 31) | 1;
}
static void is(int well, const char *what, uint64_t one, uint64_t other)
{
    if (well || failed++ >= 20) return;
    printf("load %d, %s: %llu, %llu\n", number, what, (unsigned long long)one, (unsigned long long)other);
}
static g1_answer noted(g1_answer answer)
{
    hash = (hash ^ answer.code) * 1099511628211u, hash = (hash ^ answer.first) * 1099511628211u;
    return answer;
}

static uint32_t free_regions(void) { return (uint32_t)g1_free_regions(&heap).first; }
static int32_t *root(uint32_t mutator, uint32_t to) { return &roots[GLOBALS + mutator * REGISTERS + to]; }
static int32_t held(g1_answer answer) { return answer.code == G1_NAME ? (int32_t)answer.first : -1; }
static int is_larger(uint32_t size) { return size > sizes.words / 2; }
static uint32_t regions_for(uint32_t size) { return (size + sizes.words - 1) / sizes.words; }

static void reach(int32_t which, uint32_t *last)
{
    if (which >= 0 && !reached[which]) reached[which] = 1, queue[(*last)++] = which;
}
/* The words of reachable objects of at most half a region, and of all; and how many regions the larger ones take. */
static reach_of what_is_reached(void)
{
    reach_of all = {0, 0, 0};
    uint32_t last = 0;
    memset(reached, 0, (size_t)count);
    for (uint32_t i = 0; i < ROOTS; i++) reach(roots[i], &last);
    for (uint32_t i = 0; i < last; i++) {
        object *it = &objects[queue[i]];
        all.all += it->size;
        if (is_larger(it->size)) all.wide += regions_for(it->size);
        else all.small += it->size;
        for (uint32_t k = 0; k < it->pointers; k++) reach(it->fields[k], &last);
    }
    return all;
}

/* So many words are reachable, more than half of those of so many regions. */
static void is_half(int kind, int which, const char *what, uint64_t live, uint32_t regions)
{
    uint64_t of = (uint64_t)regions * sizes.words;
    share *least = &tightest[kind][which], here = {live, of, number, sizes.regions, sizes.words};
    is(of < 2 * live, what, live, of);
    if (least->of == 0 || live * least->of < least->live * of) *least = here;
}
/* An object of at most half a region was refused, where two regions were free before. */
static void look(int kind)
{
    reach_of all = what_is_reached();
    uint32_t ordinary = sizes.regions - all.wide - 2;
    full[kind]++;
    is(free_regions() == 2, "refused where not two regions are free", free_regions(), 2);
    is(all.wide + 2 <= sizes.regions, "more larger objects than regions", all.wide, sizes.regions);
    is_half(kind, BUT_THREE, "refused while half of all regions but three is dead", all.all, sizes.regions - 3);
    if (ordinary != 1) is_half(kind, BUT_TWO, "refused while half of all regions but two is dead", all.all, sizes.regions - 2);
    if (ordinary >= 2) is_half(kind, ORDINARY, "refused while half of the ordinary regions is dead", all.small, ordinary);
}
/* A larger one was. */
static void look_at_runs(uint32_t size)
{
    reach_of all = what_is_reached();
    uint32_t free = free_regions(), run = (uint32_t)g1_free_run(&heap).first, taken = regions_for(size);
    uint64_t words = (uint64_t)(sizes.regions - 2 - taken) * sizes.words;
    full_larger++;
    is(free < taken + 2, "refused though there is a run of free regions", free, taken);
    is(free == run, "free regions lie apart", free, run);
    is(words < 2 * all.all, "refused while half of all but two and its own regions is dead", all.all, words);
    words += sizes.words;
    if (all.wide + free + 1 != sizes.regions) is(words < 2 * all.all, "refused while half of one region more is dead", all.all, words);
}

static uint32_t size_of(int kind)
{
    uint32_t half = sizes.words / 2;
    switch (kind) {
    case HALF: return half;
    case BELOW_HALF: return half - 1;
    case THIRD: return sizes.words / 3 + 1;
    case LEAST: return 2;
    case THESE: return size_of((int)draw(THESE));
    case LARGE: if (draw(20) == 0) return half + 1 + draw(2 * sizes.words); break;
    default: break;
    }
    return 2 + draw(half - 1);
}

/* Asks for an object. Answers whether it was made. */
static int make(int kind, uint32_t mutator, uint32_t to)
{
    uint32_t size = size_of(kind), before = free_regions(), pointers = draw(4), weaks = draw(3);
    if (pointers > size - 2) pointers = size - 2;
    if (weaks > size - 2 - pointers) weaks = size - 2 - pointers;
    if (count == OBJECTS) return 0;
    g1_answer answer = noted(g1_make(&heap, &policy, mutator, to, pointers, weaks, size - 2 - pointers - weaks));
    int leaves_two = regions_for(size) + 2 < sizes.regions;
    if (before >= 2 && leaves_two) is(free_regions() >= 2, "two regions aren't kept", free_regions(), before);
    if (answer.code == G1_FULL && before >= 2 && !is_larger(size)) look(kind);
    if (answer.code == G1_FULL && before >= 2 && leaves_two && is_larger(size)) look_at_runs(size);
    if (answer.code != G1_NAME) return is(answer.code == G1_FULL, "no object", answer.code, size), 0;
    is((int32_t)answer.first == count, "a name", answer.first, (uint64_t)count);
    objects[count].size = size, objects[count].pointers = pointers, objects[count].weaks = weaks;
    for (int i = 0; i < FIELDS; i++) objects[count].fields[i] = -1;
    *root(mutator, to) = count++, made++;
    return 1;
}

static void drop(uint32_t m, uint32_t to) { noted(g1_drop(&heap, m, to)), *root(m, to) = -1; }
static void save(uint32_t m, uint32_t global, uint32_t from) { noted(g1_save(&heap, m, global, from)), roots[global] = *root(m, from); }

/* A weak slot holds what was put into it, or is nil for good if that wasn't reachable. */
static void get_weak(uint32_t m, uint32_t to, uint32_t of, uint32_t slot)
{
    int32_t *field = &objects[*root(m, of)].fields[objects[*root(m, of)].pointers + slot];
    int32_t got = held(noted(g1_get_weak(&heap, m, to, of, slot)));
    if (got < 0 && *field >= 0) what_is_reached(), is(!reached[*field], "a weak slot lost what is reachable", slot, 0), *field = -1;
    is(got == *field, "a weak slot", slot, 0);
    *root(m, to) = got;
}
static void step_of_mutator(uint32_t m, uint32_t slots)
{
    uint32_t a = draw(REGISTERS), b = draw(REGISTERS), global = draw(slots);
    int32_t of = *root(m, a), from = *root(m, b);
    object *it = of < 0 ? 0 : &objects[of];
    uint32_t i = it && it->pointers ? draw(it->pointers) : 0, k = it && it->weaks ? draw(it->weaks) : 0;
    switch (draw(8)) {
    case 0: case 1: save(m, global, b); break;
    case 2: *root(m, a) = held(noted(g1_load(&heap, m, a, global))); is(*root(m, a) == roots[global], "a global", global, 0); break;
    case 3: if (noted(g1_put(&heap, m, a, i, b)).code == G1_DONE) it->fields[i] = from; break;
    case 4:
        if (!it || !it->pointers) break;
        is(held(noted(g1_get(&heap, m, b, a, i))) == it->fields[i], "a pointer", i, 0), *root(m, b) = it->fields[i];
        break;
    case 5: if (noted(g1_put_weak(&heap, m, a, k, b)).code == G1_DONE) it->fields[it->pointers + k] = from; break;
    case 6: if (it && it->weaks) get_weak(m, b, a, k); break;
    default: drop(m, a); break;
    }
}

static void step_of_collector(void)
{
    switch (draw(8)) {
    case 0: noted(g1_begin(&heap)); break;
    case 1: noted(g1_mark(&heap, draw(20))); break;
    case 2: noted(g1_remark(&heap)); break;
    case 3: noted(g1_cleanup(&heap)); break;
    case 4: noted(g1_refine(&heap, draw(20))); break;
    case 5: noted(g1_pause(&heap, draw(3 * sizes.words))); break;
    default: noted(g1_collect(&heap, &policy)); break;
    }
}

/* Drops what the first globals hold, but for some of it: of all, or of the larger half, or of the smaller one. */
static void drop_some(uint32_t m, uint32_t used)
{
    uint32_t keeps = 1 + draw(12), way = draw(3);
    drop(m, 0);
    for (uint32_t i = 0; i < used; i++) {
        int is_wide = roots[i] >= 0 && objects[roots[i]].size > sizes.words / 4;
        if (roots[i] >= 0 && (way == 0 || (way == 1) == is_wide) && draw(keeps) != 0) save(m, i, 0);
    }
}
/* Fills globals with objects until one is refused or all globals are in use, and drops some of them. */
static void fill(int kind, uint32_t slots)
{
    uint32_t m = draw(sizes.mutators), others = 4 + draw(40);
    for (uint32_t i = 0; i < slots; i++) {
        if (roots[i] >= 0) continue;
        if (!make(kind, m, 0)) break;
        save(m, i, 0);
        if (draw(others) == 0) step_of_mutator(draw(sizes.mutators), slots);
    }
    drop_some(m, slots);
}

static void load(void)
{
    int kind = number % KINDS;
    seed_by((uint64_t)number);
    uint32_t words = 16u << draw(4), regions = 4 + draw(21), most = regions * words / 2, slots, rarely, fills;
    sizes = (g1_sizes){regions, words, 4 + draw(words / 2 - 3), 1 + draw(MUTATORS), 0, 8, GLOBALS, REGISTERS};
    if (g1_new(&heap, &sizes) != G1_DONE) exit(2);
    g1_policy_start(&policy, &sizes);
    count = 0;
    for (uint32_t i = 0; i < ROOTS; i++) roots[i] = -1;
    slots = 1 + draw(most < GLOBALS ? most : GLOBALS), rarely = 4 + draw(40), fills = draw(2);
    for (int i = 0; i < STEPS; i++) {
        if (fills && i % 200 == 0) fill(kind, most < GLOBALS ? most : GLOBALS);
        uint32_t mutator = draw(sizes.mutators);
        if (draw(3) == 0) make(kind, mutator, draw(REGISTERS));
        else if (draw(rarely) == 0) step_of_collector();
        else step_of_mutator(mutator, slots);
    }
    g1_free(&heap);
}

static void tell(const char *of, const share *it)
{
    if (it->of == 0) return;
    printf("    of %s at least %.1f %%: %llu of %llu words (load %d, %u regions of %u)\n", of, 100.0 * (double)it->live / (double)it->of,
           (unsigned long long)it->live, (unsigned long long)it->of, it->load, it->regions, it->words);
}
int main(int words, char **word)
{
    int loads = words > 1 ? atoi(word[1]) : 1400, first = words > 2 ? atoi(word[2]) : 1;
    for (number = first; number < first + loads; number++) load();
    printf("hash %016llx, %llu objects made, %llu larger ones refused\n", (unsigned long long)hash, (unsigned long long)made,
           (unsigned long long)full_larger);
    for (int kind = 0; kind < KINDS; kind++) {
        printf("%s: %llu refused\n", kinds[kind], (unsigned long long)full[kind]);
        tell("all regions but two", &tightest[kind][BUT_TWO]);
        tell("all regions but three", &tightest[kind][BUT_THREE]);
        tell("ordinary regions", &tightest[kind][ORDINARY]);
    }
    return failed != 0;
}
