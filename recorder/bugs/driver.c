/* Mutators that take steps of a fixed pseudo-random order over the heap of heap.c, and the record of what they got.

       driver BUG RECORD WALK [LAST [WITHOUT]]

   WALK is `never`, `collections`, after each of which a walk is recorded, or the number of the event from which on a walk is
   recorded after each. LAST is the event after which the run ends, or 0. Events of walks don't count. On standard output a line for each
   other event: its number in the record, and 1 where it is the end of a collection. WITHOUT leaves out what shows bugs: `holders` that
   live long, the two tables; `overwriting` fields that aren't nil; objects of all `sizes`: each has two pointers and a data word; steps
   while `marking` runs. */
#include "../g1record.h"
#include "heap.c"

enum { STORE, READ, TAKE };
enum { STEPS = 6000, FRAME = 4, TABLE = 40 };
static g1record record;
static unsigned walk_from, walk_collections, events, last;
static const char *without = "";
static int has(const char *part) { return strcmp(without, part) != 0; }

static unsigned drawn(unsigned below) {
    static uint64_t state = 176345290926650502;
    state ^= state << 13, state ^= state >> 7, state ^= state << 17;
    return (unsigned)((state >> 20) % below);
}

/* What the walk sees. An address out of the heap has a name that no object has. */
static void *object_at(Word a) { return a == 0 ? NULL : memory + (a < END ? a : END); }
static Address address_of(void *object) { return (Address)((Word *)object - memory); }
static int is_object(Address a) { return a < END && memory[a + 1] < next_name; }
static unsigned see_roots(void *heap, int m) { (void)heap; return m < 0 ? GLOBALS : REGISTERS; }
static void *see_root(void *heap, int m, unsigned i)
{ (void)heap; return object_at(roots[m < 0 ? i : (unsigned)m * REGISTERS + GLOBALS + i]); }
static uint64_t see_name(void *heap, void *it) { (void)heap; return memory[address_of(it) + 1]; }
static unsigned see_pointers(void *heap, void *it) { (void)heap; return is_object(address_of(it)) ? pointers_of(address_of(it)) : 0; }
static unsigned see_fields(void *heap, void *it) { (void)heap; return is_object(address_of(it)) ? fields_of(address_of(it)) : 0; }
static unsigned see_weaks(void *heap, void *it) { return see_fields(heap, it) - see_pointers(heap, it); }
static unsigned see_words(void *heap, void *it) { (void)heap; return is_object(address_of(it)) ? words_of(address_of(it)) : 0; }
static void *see_pointer(void *heap, void *it, unsigned i) { (void)heap; return object_at(memory[address_of(it) + 2 + i]); }
static void *see_weak(void *heap, void *it, unsigned i) { return see_pointer(heap, it, see_pointers(heap, it) + i); }
static uint64_t see_word(void *heap, void *it, unsigned i) { return memory[address_of(it) + 2 + see_fields(heap, it) + i]; }
static void walk(void) {
    g1record_view view = {NULL, see_roots, see_root, see_name, see_pointers, see_weaks, see_words, see_pointer, see_weak, see_word};
    if (marking) view.weaks = NULL;
    if (g1record_walk(&record, &view) != 0) abort();
}

/* After each event. */
static void done(int collected) {
    events++;
    printf("%" PRIu64 " %d\n", record.events, collected);
    fflush(stdout);
    if ((walk_from > 0 && events >= walk_from) || (walk_collections && collected)) walk();
    if (events == last) exit(g1record_close(&record) != 0);
}
static uint64_t name_at(Word a) { return a == 0 ? G1RECORD_NIL : memory[(a < END ? a : END) + 1]; }

static void finish_marking(void) {
    g1record_remark(&record, heap_remark()), done(0);
    g1record_cleanup(&record, heap_cleanup()), done(0);
    g1record_pause(&record, 0, 0, heap_compact()), done(1);
}
static void begin_marking(void) { heap_begin(), g1record_begin(&record), done(0); }
static void collect(void) {
    if (marking) finish_marking();
    if (free_regions() < 16) begin_marking(), finish_marking();
    if (free_regions() < 16) return;
    g1record_pause(&record, 0, 0, heap_collect()), done(1);
}

static void make(unsigned m, unsigned to, unsigned pointers, Address *held) {
    unsigned weaks = drawn(3) == 0 ? 1 + drawn(3) : 0, words = drawn(4);
    Address made;
    if (!has("sizes") && pointers < TABLE) pointers = 2, weaks = 0, words = 1;
    made = heap_new(pointers, weaks, words);
    if (made == 0) collect(), made = heap_new(pointers, weaks, words);
    if (made == 0) g1record_new_refused(&record, m, to, pointers, weaks, words);
    else if (weaks == 0) g1record_new(&record, m, to, pointers, words);
    else g1record_newweak(&record, m, to, pointers, weaks, words);
    if (made != 0) held[to] = made;
    done(0);
}
static void read_pointer(unsigned m, unsigned to, unsigned of, unsigned i, Address *held) {
    Word found = memory[held[of] + 2 + i];
    g1record_get(&record, m, to, of, i, name_at(found));
    held[to] = found < END ? (Address)found : END;
    done(0);
}
static void store_pointer(unsigned m, unsigned of, unsigned i, unsigned from, Address *held) {
    if (!has("overwriting") && memory[held[of] + 2 + i] != 0) return;
    heap_put(held[of], i, from == G1RECORD_NOTHING ? 0 : held[from]);
    g1record_put(&record, m, of, i, from);
    done(0);
}
/* Stores, or reads, or takes an object out of a field; one in six stores is of nil. */
static void use_pointer(unsigned m, unsigned of, unsigned other, Address *held, unsigned kind) {
    unsigned count = pointers_of(held[of]), i = count > 0 ? drawn(count) : 0, nil = drawn(6) == 0;
    if (count == 0) {
        g1record_event(&record, "%u get r%u r%u 0 = refused 2 NoField", m, other, of), done(0);
    } else if (kind == STORE) {
        store_pointer(m, of, i, nil ? G1RECORD_NOTHING : other, held);
    } else {
        read_pointer(m, other, of, i, held);
        if (kind == TAKE && of != other) store_pointer(m, of, i, G1RECORD_NOTHING, held);
    }
}
static void use_weak(unsigned m, unsigned of, unsigned other, Address *held, int store) {
    unsigned pointers = pointers_of(held[of]), count = fields_of(held[of]) - pointers, i = count > 0 ? drawn(count) : 0;
    if (count == 0) {
        g1record_weaks(&record, m, of, 0);
    } else if (store && (has("overwriting") || memory[held[of] + 2 + pointers + i] == 0)) {
        heap_put(held[of], pointers + i, held[other]);
        g1record_putweak(&record, m, of, i, other);
    } else {
        held[other] = heap_get_weak(held[of], i);
        g1record_getweak(&record, m, other, of, i, name_at(held[other]));
    }
    done(0);
}
/* Two globals name tables of many pointers. */
static void use_table(unsigned m, unsigned it, unsigned other, Address *held, unsigned kind) {
    unsigned global = drawn(2);
    if (it == other || (kind == STORE && held[other] == 0) || !has("holders")) return;
    held[it] = roots[global];
    g1record_load(&record, m, it, global, name_at(held[it])), done(0);
    if (drawn(4) == 0) use_weak(m, it, other, held, kind == STORE);
    else use_pointer(m, it, other, held, kind);
}
static void use_word(unsigned m, unsigned of, Address *held, int store) {
    unsigned count = words_of(held[of]), j = count > 0 ? drawn(count) : 0;
    Address at = held[of] + 2 + fields_of(held[of]) + j;
    if (count == 0) g1record_shape(&record, m, of, pointers_of(held[of]), 0);
    else if (store) memory[at] = drawn(1000), g1record_write(&record, m, of, j, memory[at]);
    else g1record_read(&record, m, of, j, memory[at]);
    done(0);
}
static void use_root(unsigned m, unsigned it, unsigned other, Address *held) {
    unsigned global = drawn(GLOBALS), kind = drawn(9);
    if (kind < 3) held[it] = held[other], g1record_move(&record, m, it, other);
    else if (kind < 5) held[it] = 0, g1record_drop(&record, m, it);
    else if (kind < 7) held[it] = roots[global], g1record_load(&record, m, it, global, name_at(held[it]));
    else roots[2 + global % 2] = held[it], g1record_save(&record, m, 2 + global % 2, it);
    done(0);
}
/* A call enters a frame, which needs no event; a return leaves one. */
static void call_or_return(unsigned m, unsigned *base, Address *held) {
    if (drawn(2) == 0 && *base + 2 * FRAME <= REGISTERS) { *base += FRAME; return; }
    for (unsigned i = *base; i < REGISTERS; i++) held[i] = 0;
    g1record_scope(&record, m, *base);
    *base -= *base > 0 ? FRAME : 0;
    done(0);
}
static void step(void) {
    static unsigned base[MUTATORS];
    unsigned m = drawn(MUTATORS), kind = drawn(100), it = base[m] + drawn(FRAME), other = base[m] + drawn(FRAME);
    Address *held = roots + GLOBALS + m * REGISTERS;
    if (kind < 22) make(m, it, drawn(5), held);
    else if (kind < 34) use_table(m, it, other, held, kind < 30 ? STORE : kind < 32 ? TAKE : READ);
    else if (kind < 39) use_root(m, it, other, held);
    else if (kind < 42) call_or_return(m, &base[m], held);
    else if (kind < 45 && !marking) { begin_marking(); if (!has("marking")) finish_marking(); }
    else if (kind < 48 && marking) heap_mark(2), g1record_mark(&record, 2), done(0);
    else if (kind < 51 && marking && greys == 0) finish_marking();
    else if (held[it] == 0) g1record_event(&record, "%u read r%u 0 = refused 1 Nil", m, it), done(0);
    else if (kind < 82) use_pointer(m, it, other, held, kind < 66 ? STORE : kind < 75 ? READ : TAKE);
    else if (kind < 92) use_weak(m, it, other, held, kind < 87);
    else use_word(m, it, held, kind < 96);
}

int main(int count, char **words) {
    if (count < 4) return 2;
    walk_collections = strcmp(words[3], "collections") == 0;
    walk_from = (unsigned)atoi(words[3]);
    last = count > 4 ? (unsigned)atoi(words[4]) : 0;
    without = count > 5 ? words[5] : "";
    heap_start(atoi(words[1]));
    if (g1record_open(&record, words[2], END, MUTATORS, GLOBALS, 64) != 0) return 1;
    for (unsigned i = 0; i < 2 && has("holders"); i++) {
        make(0, 0, TABLE, roots + GLOBALS), roots[i] = roots[GLOBALS];
        g1record_save(&record, 0, i, 0), done(0);
    }
    for (unsigned i = 0; i < STEPS; i++) step();
    return g1record_close(&record) != 0;
}
