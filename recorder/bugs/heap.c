/* A small heap with a collector: right as it is, and with one mistake where `bug` says which. table.json names them.

   New objects are in eden. `heap_collect` copies the young objects that are reached, those of eden and of a survivor space: the first time
   into the other survivor space, then into old regions. Dirty cards tell which old words may lead to young objects. Marking goes by a
   snapshot of all objects while mutators go on. `heap_remark` ends it: it clears weak slots and frees old regions without a marked
   object. `heap_compact` moves marked objects out of regions that hold few. An address is the number of a word, 0 is nil. Words that
   hold nothing are filled with POISON, so that a pointer that was left behind is soon seen. */
#include <stdint.h>
#include <stdlib.h>
#include <string.h>

enum { GLOBALS = 4, MUTATORS = 2, REGISTERS = 12, ROOTS = GLOBALS + MUTATORS * REGISTERS };
enum { EDEN = 64, EDEN_END = 384, SURVIVORS = 96, OLD = 576, REGION = 64, REGIONS = 96, END = OLD + REGION * REGIONS };
enum { CARD = 8, CARDS = END / CARD, QUEUE = 16, FEW = 52 };
typedef uint64_t Word;
typedef unsigned Address;
static const Word POISON = 0xdddddddddddddddd, MOVED = 1ull << 63, OLDER = 1ull << 40;

static int bug;
static Word memory[END + 1024], next_name;
static Address roots[ROOTS], eden_top, survivor, survivor_top, mark_top, region_top[REGIONS], old_region;
static Address grey[END], copies[END], queue[QUEUE], moved_to[END];
static unsigned greys, copied, queued, all_cards, marking, marked_count;
static unsigned char marked[END + 1024], dirty[CARDS + 128], chosen[REGIONS];

/* A header has the counts of pointers, weak slots and data words, and OLDER after the first copy; or MOVED and the address of the copy.
   The name and the fields, pointers before weak slots, come after it. */
static Word header(Address a) { if (a == 0 || a >= END) abort(); return memory[a]; }
static Address field(Address at) { if (memory[at] >= END) abort(); return (Address)memory[at]; }
static unsigned pointers_of(Address a) { return header(a) & 0xff; }
static unsigned fields_of(Address a) { return pointers_of(a) + (header(a) >> 8 & 0xff); }
static unsigned words_of(Address a) { return header(a) >> 16 & 0xff; }
static unsigned size_of(Address a) { return 2 + fields_of(a) + words_of(a); }
static int is_young(Address a) { return a >= EDEN && a < OLD; }
static int is_new(Address a) { return a >= mark_top && a < EDEN_END; }
static int is_kept(Address a) { return marked[a] || (is_new(a) && bug != 25); }
static Address bottom(unsigned region) { return OLD + region * REGION; }
static void poison(Address from, Address to) { while (from < to) memory[from++] = POISON; }

static void heap_start(int which) {
    bug = which;
    poison(0, END + 1024);
    eden_top = mark_top = EDEN, survivor = survivor_top = EDEN_END, old_region = REGIONS;
    for (unsigned i = 0; i < REGIONS; i++) region_top[i] = bottom(i);
}

/* Calls `visit` for each object, reached or not. */
static void each_in(Address from, Address top, void (*visit)(Address)) { for (; from < top; from += size_of(from)) visit(from); }
static void each(void (*visit)(Address)) {
    each_in(EDEN, eden_top, visit);
    each_in(survivor, survivor_top, visit);
    for (unsigned i = 0; i < REGIONS; i++) if (!chosen[i]) each_in(bottom(i), region_top[i], visit);
}

/* Old regions. */
static unsigned free_regions(void) {
    unsigned count = 0;
    for (unsigned i = 0; i < REGIONS; i++) count += region_top[i] == bottom(i);
    return count;
}
static Address old_words(unsigned size) {
    if (old_region == REGIONS || region_top[old_region] + size > bottom(old_region + 1))
        for (old_region = 0; region_top[old_region] != bottom(old_region);) if (++old_region == REGIONS) abort();
    region_top[old_region] += size;
    return region_top[old_region] - size;
}
static void free_region(unsigned i) {
    poison(bottom(i), bottom(i + 1));
    memset(dirty + bottom(i) / CARD, 0, REGION / CARD);
    region_top[i] = bottom(i);
    if (old_region == i) old_region = REGIONS;
}

/* The barrier of cards: an old field that leads to a young object is in a dirty card. */
static void note(Address object, Address at, Address value) {
    Address card = (bug == 11 ? object : at) / CARD;
    if (bug == 14 && !is_young(value)) dirty[card] = 0;
    if (is_young(object) || !is_young(value) || dirty[card]) return;
    dirty[card] = 1;
    if (queued < QUEUE) queue[queued++] = card;
    else if (bug != 15) all_cards = 1;
}

/* Marking: what is made above mark_top since it began is kept without a mark. */
static void shade(Address a) {
    if (a == 0 || is_new(a) || marked[a]) return;
    marked[a] = 1, marked_count++;
    if (bug == 27 && greys >= 8) return;
    grey[greys++] = a;
}
static void heap_begin(void) {
    for (Address a = 0; a < END; a++) if (bug != 24 || a < OLD) marked[a] = 0;
    if (bug != 26 || mark_top == EDEN) mark_top = eden_top;
    marking = 1, marked_count = greys = 0;
    for (unsigned i = 0; i < ROOTS; i++) if (bug != 1 || i < GLOBALS + REGISTERS) shade(roots[i]);
}
static void heap_mark(unsigned count) {
    for (; count > 0 && greys > 0; count--) {
        Address a = grey[--greys];
        unsigned pointers = bug == 6 && pointers_of(a) > 2 ? pointers_of(a) - 1 : pointers_of(a);
        for (unsigned i = 0; i < pointers; i++) shade(field(a + 2 + i));
    }
}
static void clear_weaks(Address a) {
    if (!is_kept(a) || bug == 30) return;
    for (Address at = a + 2 + pointers_of(a); at < a + 2 + fields_of(a); at++) if (memory[at] != 0 && !is_kept(field(at))) memory[at] = 0;
}
static unsigned live_words(unsigned region, unsigned *objects) {
    unsigned words = 0;
    *objects = 0;
    for (Address a = bottom(region); a < region_top[region]; a += size_of(a)) if (marked[a]) words += size_of(a), ++*objects;
    return words;
}
static unsigned heap_remark(void) {
    heap_mark(bug == 28 ? 4 : END);
    marking = 0;
    each(clear_weaks);
    return marked_count;
}
static unsigned heap_cleanup(void) {
    unsigned count = 0, objects;
    for (unsigned i = 0; i < REGIONS; i++) {
        live_words(i, &objects);
        if (region_top[i] > bottom(i) && objects <= (bug == 32)) free_region(i), count++;
    }
    return count;
}

/* Compaction, right after a remark. */
static void update(Address a) {
    if (!is_kept(a) || (bug == 7 && is_new(a))) return;
    for (unsigned i = 0; i < (bug == 21 ? pointers_of(a) : fields_of(a)); i++) {
        Address at = a + 2 + i, to = moved_to[field(at)];
        if (to != 0) memory[at] = to;
    }
}
static void compact_region(unsigned region) {
    for (Address a = bottom(region); a < region_top[region]; a += size_of(a)) {
        if (!marked[a]) continue;
        Address to = moved_to[a] = old_words(size_of(a));
        memcpy(memory + to, memory + a, (bug == 20 ? 2 + fields_of(a) : size_of(a)) * sizeof(Word));
        marked[to] = 1;
        for (Address at = to + 2; bug != 35 && at < to + 2 + fields_of(to); at++) note(to, at, field(at));
    }
}
static unsigned heap_compact(void) {
    unsigned words = 0, room = free_regions() * FEW, objects;
    for (unsigned i = 0; i < REGIONS; i++) {
        unsigned live = live_words(i, &objects);
        chosen[i] = live > 0 && live < FEW && words + live < room / 2;
        words += chosen[i] ? live : 0;
    }
    old_region = REGIONS;
    for (unsigned i = 0; i < REGIONS; i++) if (chosen[i]) compact_region(i);
    for (unsigned i = bug == 4 ? GLOBALS : 0; i < ROOTS; i++) if (moved_to[roots[i]] != 0) roots[i] = moved_to[roots[i]];
    each(update);
    for (unsigned i = 0; i < REGIONS; i++) if (chosen[i]) free_region(i);
    memset(chosen, 0, sizeof chosen), memset(moved_to, 0, sizeof moved_to);
    return words;
}

/* A collection of the young objects; marking doesn't run. */
static Address copy_of(Address a) {
    if (!is_young(a) || (a >= survivor && a < survivor + SURVIVORS)) return a;
    if (header(a) & MOVED) return (Address)(header(a) & 0xffffffff);
    unsigned size = size_of(a), old = (header(a) & OLDER) || (bug != 34 && survivor_top + size > survivor + SURVIVORS);
    Address to = old ? old_words(size) : survivor_top;
    if (!old) survivor_top += size;
    memcpy(memory + to, memory + a, (bug == 19 && words_of(a) > 0 ? size - 1 : size) * sizeof(Word));
    memory[to] |= OLDER;
    if (bug != 18 || fields_of(a) > 0) memory[a] = MOVED | to;
    copies[copied++] = to;
    return to;
}
static void scan_copy(Address a) {
    unsigned fields = bug == 5 && fields_of(a) > 2 ? 2 : fields_of(a);
    for (unsigned i = 0; i < fields; i++) {
        Address at = a + 2 + i, value = field(at);
        if (bug == 29 && i >= pointers_of(a) && is_young(value) && !(header(value) & MOVED)) memory[at] = 0;
        memory[at] = copy_of(field(at));
        if (bug != 16) note(a, at, field(at));
    }
}
static void scan_card(Address card) {
    Address from = card * CARD, end = from + CARD - (bug == 12);
    unsigned region = (from - OLD) / REGION;
    if (bug != 13) dirty[card] = 0;
    for (Address a = bottom(region); a < region_top[region]; a += size_of(a))
        for (Address at = a + 2; at < a + 2 + fields_of(a); at++)
            if (at >= from && at < end && is_young(field(at))) memory[at] = copy_of(field(at)), note(a, at, field(at));
    if (bug == 13) dirty[card] = 0;
}
static unsigned heap_collect(void) {
    Address taken[QUEUE], from = survivor;
    unsigned count = queued, all = all_cards, reached = ROOTS - (bug == 3);
    memcpy(taken, queue, sizeof queue);
    copied = queued = all_cards = 0, survivor = from == EDEN_END ? EDEN_END + SURVIVORS : EDEN_END;
    if (bug != 33) survivor_top = survivor;
    if (bug == 36) memset(dirty, 0, sizeof dirty);
    for (unsigned i = 0; i < reached; i++) {
        Address to = copy_of(roots[i]);
        if (bug != 2 || i >= GLOBALS) roots[i] = to;
    }
    for (unsigned i = 0; i < count; i++) if (dirty[taken[i]]) scan_card(taken[i]);
    for (unsigned i = OLD / CARD; all && i < CARDS; i++) if (dirty[i]) scan_card(i);
    for (unsigned i = 0; i < copied; i++) scan_copy(copies[i]);
    poison(EDEN, EDEN_END), poison(from, from + SURVIVORS);
    eden_top = EDEN;
    return copied;
}

/* What mutators call. */
static Address heap_new(unsigned pointers, unsigned weaks, unsigned words) {
    unsigned size = 2 + pointers + weaks + words;
    Address a = eden_top;
    if (a + size > EDEN_END) return 0;
    eden_top += size;
    memset(memory + a, 0, (bug == 23 ? size - words : size) * sizeof(Word));
    memory[a] = pointers | weaks << 8 | words << 16, memory[a + 1] = bug == 22 ? next_name & 511 : next_name, next_name++;
    return a;
}
static void heap_put(Address object, unsigned i, Address value) {
    Address at = object + 2 + i;
    if (marking && i < pointers_of(object) && bug != 37 && !(bug == 9 && value == 0)) {
        if (bug == 10) marked[field(at)] = 1;
        else shade(bug == 8 ? value : field(at));
    }
    memory[at] = value;
    if (bug != 17 || i < pointers_of(object)) note(object, at, value);
}
static Address heap_get_weak(Address object, unsigned i) {
    Address value = field(object + 2 + pointers_of(object) + i);
    if (marking && bug != 31) shade(value);
    return value;
}
