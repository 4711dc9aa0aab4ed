/* An anchor: what a heap behind g1heap.h costs at least. It has the steps of mutators with the same answers, tests and barriers, laid out
   for speed alone: an object's fields by its address, a register as one word, one test of a number and its row's bound, a byte for a card. It
   has no names (an object's address is its name), no weak slots and no collector: nothing is ever freed, and a marking that began goes on.
   tools/measure clients measures it; nothing of it is proved, and it is no part of the library.

     cc -O2 -Iinclude -c tools/measuring/tuned_heap.c -o tuned_heap.o */
#ifndef _DEFAULT_SOURCE
#define _DEFAULT_SOURCE
#endif
#include <g1heap.h>
#include <stdlib.h>
#include <string.h>
#include <sys/mman.h>

typedef struct object {
    uint32_t pointers, values;
    union { struct object *object; uint64_t value; } words[];
} object;

typedef struct row {
    object **at;
    uint32_t bound, count; /* from the bound on all are nil */
} row;

typedef struct mutator {
    row registers;
    char *next, *end; /* its buffer */
} mutator;

enum { MUTATORS = 64, SAVED = 256, RESERVED_BITS = 34 }; /* addresses are reserved for 16 GiB: memory is taken where it is touched */

typedef struct tuned {
    uint32_t count, card_shift;
    uint64_t region; /* bytes */
    bool marking;
    uint8_t *cards; /* of the address 0 on */
    row globals;
    uint32_t regions, buffer, saves;
    char *next, *end;
    object *saved[SAVED];
    mutator mutators[MUTATORS];
} tuned;

#define LIKELY(it) __builtin_expect(!!(it), 1)
#define RARE __attribute__((noinline, cold))

static inline g1_answer tell(uint32_t code, uint64_t first) { return (g1_answer){code, 0, first}; }
static inline g1_answer told(const object *it) { return tell(it != NULL ? G1_NAME : G1_NIL_VALUE, (uint64_t)it); }

/* Whether a root is there that a step is to set; its row's bound is above it then. */
RARE static bool raise_bound(row *roots, uint32_t number)
{
    if (number >= roots->count) return false;
    roots->bound = number + 1;
    return true;
}
static inline bool opens(row *roots, uint32_t number) { return LIKELY(number < roots->bound) || raise_bound(roots, number); }

/* Whether a root is there, with what it holds. */
static inline bool holds(const row *roots, uint32_t number, object **it)
{
    *it = NULL;
    if (LIKELY(number < roots->bound)) *it = roots->at[number];
    else if (number >= roots->count) return false;
    return true;
}

/* A store's rare parts: what marking saves, and a card that gets dirty. */
RARE static g1_answer store_noted(tuned *heap, object **field, object *value)
{
    heap->cards[(uint64_t)field >> heap->card_shift] = 1;
    *field = value;
    return tell(G1_DONE, 0);
}
static inline g1_answer store(tuned *heap, object **field, object *value)
{
    uint64_t at = (uint64_t)field;
    if (value != NULL && (at ^ (uint64_t)value) >= heap->region && !heap->cards[at >> heap->card_shift])
        return store_noted(heap, field, value);
    *field = value;
    return tell(G1_DONE, 0);
}
RARE static g1_answer store_saved(tuned *heap, object **field, object *value)
{
    if (*field != NULL) heap->saved[heap->saves++ % SAVED] = *field;
    return store(heap, field, value);
}

/* How a step begins: with its heap `all`, the registers of its mutator `m`; and with the object `it` of a register. */
#define BEGIN                                                 \
    if (!LIKELY(heap->live)) return tell(G1_NO_HEAP, 0);      \
    tuned *all = heap->at;                                    \
    if (!LIKELY(by < all->count)) return tell(G1_NO_STEP, 0); \
    mutator *m = &all->mutators[by];                          \
    row *mine = &m->registers
#define BEGIN_AT(root)                                                \
    BEGIN;                                                            \
    object *it;                                                       \
    if (!LIKELY(holds(mine, root, &it))) return tell(G1_NO_STEP, 0);   \
    if (!LIKELY(it != NULL)) return tell(G1_NIL, 0)
#define STEP_IF(there) if (!LIKELY(there)) return tell(G1_NO_STEP, 0)

g1_answer g1_get(g1_heap *heap, uint32_t by, uint32_t to, uint32_t from, uint32_t field)
{
    BEGIN_AT(from);
    STEP_IF(opens(mine, to));
    if (!LIKELY(field < it->pointers)) return tell(G1_NO_FIELD, 0);
    return told(mine->at[to] = it->words[field].object);
}
g1_answer g1_get_word(g1_heap *heap, uint32_t by, uint32_t to, uint32_t from, uint32_t field, uint32_t word)
{
    object *value;
    BEGIN_AT(from);
    STEP_IF(opens(mine, to));
    if (!LIKELY(field < it->pointers)) return tell(G1_NO_FIELD, 0);
    value = mine->at[to] = it->words[field].object;
    if (value == NULL || !LIKELY(word < value->values)) return told(value);
    return tell(G1_WORD, value->words[value->pointers + word].value);
}
g1_answer g1_put(g1_heap *heap, uint32_t by, uint32_t into, uint32_t field, uint32_t from)
{
    object *value;
    BEGIN_AT(into);
    STEP_IF(holds(mine, from, &value) || from == G1_NIL_REGISTER);
    if (!LIKELY(field < it->pointers)) return tell(G1_NO_FIELD, 0);
    return LIKELY(!all->marking) ? store(all, &it->words[field].object, value) : store_saved(all, &it->words[field].object, value);
}
g1_answer g1_read(g1_heap *heap, uint32_t by, uint32_t from, uint32_t field)
{
    BEGIN_AT(from);
    return LIKELY(field < it->values) ? tell(G1_WORD, it->words[(uint64_t)it->pointers + field].value) : tell(G1_NO_FIELD, 0);
}
g1_answer g1_get_many(g1_heap *heap, uint32_t by, uint32_t to, uint32_t from, uint32_t field, uint32_t count)
{
    BEGIN_AT(from);
    STEP_IF(to < mine->count && count <= mine->count - to && (from < to || from - to + 1 >= count));
    STEP_IF(count == 0 || opens(mine, to + count - 1));
    if (!LIKELY((uint64_t)field + count <= it->pointers)) return tell(G1_NO_FIELD, 0);
    for (uint32_t i = 0; i < count; i++) mine->at[to + i] = it->words[field + i].object;
    return tell(G1_DONE, 0);
}
g1_answer g1_put_many(g1_heap *heap, uint32_t by, uint32_t into, uint32_t field, uint32_t from, uint32_t count)
{
    BEGIN_AT(into);
    STEP_IF(from < mine->count && count <= mine->count - from && (count == 0 || opens(mine, from + count - 1)));
    if (!LIKELY((uint64_t)field + count <= it->pointers)) return tell(G1_NO_FIELD, 0);
    for (uint32_t i = 0; i < count; i++) {
        object **at = &it->words[field + i].object, *value = mine->at[from + i];
        if (LIKELY(!all->marking)) store(all, at, value);
        else store_saved(all, at, value);
    }
    return tell(G1_DONE, 0);
}
g1_answer g1_fill(g1_heap *heap, uint32_t by, uint32_t into, uint32_t field, uint32_t from, uint32_t count)
{
    for (uint32_t i = 0; i < count; i++) g1_put(heap, by, into, field + i, from);
    return tell(G1_DONE, 0);
}
g1_answer g1_write(g1_heap *heap, uint32_t by, uint32_t into, uint32_t field, uint64_t value)
{
    BEGIN_AT(into);
    if (!LIKELY(field < it->values)) return tell(G1_NO_FIELD, 0);
    it->words[(uint64_t)it->pointers + field].value = value;
    return tell(G1_DONE, 0);
}
g1_answer g1_shape(g1_heap *heap, uint32_t by, uint32_t object_of)
{
    BEGIN_AT(object_of);
    return (g1_answer){G1_SHAPE, it->values, it->pointers};
}
g1_answer g1_move(g1_heap *heap, uint32_t by, uint32_t to, uint32_t from)
{
    object *it;
    BEGIN;
    STEP_IF(holds(mine, from, &it) && opens(mine, to));
    mine->at[to] = it;
    return tell(G1_DONE, 0);
}
g1_answer g1_drop(g1_heap *heap, uint32_t by, uint32_t to)
{
    BEGIN;
    STEP_IF(opens(mine, to));
    mine->at[to] = NULL;
    return tell(G1_DONE, 0);
}
g1_answer g1_scope(g1_heap *heap, uint32_t by, uint32_t first)
{
    BEGIN;
    STEP_IF(first < mine->count);
    while (mine->bound > first) mine->at[--mine->bound] = NULL;
    return tell(G1_DONE, 0);
}
g1_answer g1_load(g1_heap *heap, uint32_t by, uint32_t to, uint32_t global)
{
    object *it;
    BEGIN;
    STEP_IF(holds(&all->globals, global, &it) && opens(mine, to));
    return told(mine->at[to] = it);
}
g1_answer g1_save(g1_heap *heap, uint32_t by, uint32_t global, uint32_t from)
{
    object *it;
    BEGIN;
    STEP_IF(holds(mine, from, &it) && opens(&all->globals, global));
    all->globals.at[global] = it;
    return tell(G1_DONE, 0);
}
g1_answer g1_name(const g1_heap *heap, uint32_t by, uint32_t object_of)
{
    object *it;
    BEGIN;
    STEP_IF(holds(mine, object_of, &it));
    return told(it);
}

/* Cuts a new buffer, or one object. Reserved memory is zero. */
RARE static g1_answer new_apart(tuned *heap, mutator *m, uint32_t to, uint32_t pointers, uint32_t values)
{
    uint64_t size = sizeof(object) + 8 * ((uint64_t)pointers + values), cut = size > heap->buffer ? size : heap->buffer;
    if (cut > (uint64_t)(heap->end - heap->next)) return tell(G1_FULL, 0);
    object *it = (object *)heap->next;
    if (cut > size) m->next = heap->next + size, m->end = heap->next + cut;
    heap->next += cut;
    it->pointers = pointers, it->values = values;
    m->registers.at[to] = it;
    return tell(G1_NAME, (uint64_t)it);
}
/* An object in the buffer. Its words are cleared, unless the caller writes them all. */
static inline g1_answer new_in_buffer(tuned *all, mutator *m, uint32_t to, uint32_t pointers, uint32_t values, bool clears)
{
    uint64_t words = (uint64_t)pointers + values, size = sizeof(object) + 8 * words;
    object *it = (object *)m->next;
    if (!LIKELY(size <= (uint64_t)(m->end - m->next))) return new_apart(all, m, to, pointers, values);
    m->next += size;
    it->pointers = pointers, it->values = values;
    for (uint64_t i = 0; clears && i < words; i++) it->words[i].value = 0;
    m->registers.at[to] = it;
    return tell(G1_NAME, (uint64_t)it);
}
g1_answer g1_new_object(g1_heap *heap, uint32_t by, uint32_t to, uint32_t pointers, uint32_t values)
{
    BEGIN;
    STEP_IF(opens(mine, to));
    return new_in_buffer(all, m, to, pointers, values, true);
}

/* What a policy of collection asks for: no region is ever taken, so it never collects. */
g1_answer g1_free_regions(const g1_heap *heap) { return tell(G1_NUMBER, ((tuned *)heap->at)->regions); }
g1_answer g1_marking(const g1_heap *heap) { return tell(G1_NUMBER, ((tuned *)heap->at)->marking); }
g1_answer g1_begin(g1_heap *heap) { return ((tuned *)heap->at)->marking = true, tell(G1_DONE, 0); }
g1_answer g1_used_words(const g1_heap *heap) { return (void)heap, tell(G1_NUMBER, 0); }
g1_answer g1_live_words(const g1_heap *heap) { return (void)heap, tell(G1_NUMBER, 0); }
g1_answer g1_grey(const g1_heap *heap) { return (void)heap, tell(G1_NUMBER, 0); }
g1_answer g1_mark(g1_heap *heap, uint32_t objects) { return (void)heap, (void)objects, tell(G1_SCANNED, 0); }
g1_answer g1_remark(g1_heap *heap) { return (void)heap, tell(G1_MARKED, 0); }
g1_answer g1_cleanup(g1_heap *heap) { return (void)heap, tell(G1_RECLAIMED, 0); }
g1_answer g1_pause(g1_heap *heap, uint32_t words) { return (void)heap, (void)words, tell(G1_MOVED, 0); }
g1_answer g1_new_weak(g1_heap *heap, uint32_t by, uint32_t to, uint32_t pointers, uint32_t weaks, uint32_t values)
{
    return weaks == 0 ? g1_new_object(heap, by, to, pointers, values) : tell(G1_FULL, 0);
}
/* It has no weak slots, so these calls do nothing. */
g1_answer g1_get_weak(g1_heap *heap, uint32_t by, uint32_t to, uint32_t from, uint32_t slot)
{
    return (void)heap, (void)by, (void)to, (void)from, (void)slot, tell(G1_NIL, 0);
}
g1_answer g1_put_weak(g1_heap *heap, uint32_t by, uint32_t into, uint32_t slot, uint32_t from)
{
    return (void)heap, (void)by, (void)into, (void)slot, (void)from, tell(G1_NIL, 0);
}
/* Its policy only counts what is asked for: there is nothing to collect by. */
void g1_policy_start(g1_policy *policy, const g1_sizes *sizes) { (void)sizes, memset(policy, 0, sizeof *policy); }
g1_answer g1_make(g1_heap *heap, g1_policy *policy, uint32_t by, uint32_t to, uint32_t pointers, uint32_t weaks, uint32_t values)
{
    policy->left -= 2 + pointers + weaks + values;
    return g1_new_weak(heap, by, to, pointers, weaks, values);
}
g1_answer g1_read_words(g1_heap *heap, uint32_t by, uint32_t object, uint32_t from, uint64_t *out, size_t count)
{
    g1_answer answer = {G1_DONE, 0, 0};
    for (size_t i = 0; i < count && answer.code < G1_NIL; i++) answer = g1_read(heap, by, object, from + (uint32_t)i), out[i] = answer.first;
    return answer.code < G1_NIL ? tell(G1_DONE, 0) : answer;
}
g1_answer g1_write_words(g1_heap *heap, uint32_t by, uint32_t object, uint32_t from, const uint64_t *in, size_t count)
{
    g1_answer answer = {G1_DONE, 0, 0};
    for (size_t i = 0; i < count && answer.code < G1_NIL; i++) answer = g1_write(heap, by, object, from + (uint32_t)i, in[i]);
    return answer;
}
/* Whether each source is nil or a register, and another one than the one that takes the object: the number of nil is the largest. */
static inline bool are_sources(const row *mine, uint32_t to, const uint32_t *from, size_t count)
{
    for (size_t i = 0; i < count; i++)
        if (!LIKELY(from[i] != to && from[i] + 1 <= mine->count)) return false;
    return true;
}
g1_answer g1_new_filled(g1_heap *heap, uint32_t by, uint32_t to, const uint32_t *from, size_t pointers, const uint64_t *words, size_t values)
{
    BEGIN;
    STEP_IF(LIKELY(pointers <= UINT32_MAX && values <= UINT32_MAX) && are_sources(mine, to, from, pointers) && opens(mine, to));
    g1_answer made = new_in_buffer(all, m, to, (uint32_t)pointers, (uint32_t)values, false);
    object *it = (object *)made.first;
    if (!LIKELY(made.code == G1_NAME)) return made;
    for (size_t i = 0; i < pointers; i++)
        store(all, &it->words[i].object, from[i] < mine->bound ? mine->at[from[i]] : NULL);
    for (size_t i = 0; i < values; i++) it->words[pointers + i].value = words[i];
    return made;
}
g1_answer g1_make_filled(g1_heap *heap, g1_policy *policy, uint32_t by, uint32_t to, const uint32_t *from, size_t pointers,
                         const uint64_t *words, size_t values)
{
    policy->left -= (uint32_t)(2 + pointers + values);
    return g1_new_filled(heap, by, to, from, pointers, words, values);
}
g1_answer g1_collect(g1_heap *heap, g1_policy *policy) { return (void)heap, (void)policy, tell(G1_DONE, 0); }
g1_answer g1_collect_all(g1_heap *heap, g1_policy *policy) { return g1_collect(heap, policy); }
/* It can't tell its objects. */
g1_answer g1_walk(const g1_heap *heap, uint64_t *cursor, g1_object *objects, size_t count)
{
    return (void)heap, (void)cursor, (void)objects, (void)count, tell(G1_NUMBER, 0);
}
g1_answer g1_who(const g1_heap *heap, uint64_t name, uint64_t *cursor, g1_holder *holders, size_t count)
{
    return (void)heap, (void)name, (void)cursor, (void)holders, (void)count, tell(G1_NUMBER, 0);
}

static void *reserve(size_t bytes)
{
    void *at = mmap(NULL, bytes, PROT_READ | PROT_WRITE, MAP_PRIVATE | MAP_ANONYMOUS | MAP_NORESERVE, -1, 0);
    if (at == MAP_FAILED) abort();
    return at;
}
static row row_of(uint32_t count) { return (row){reserve(8 * ((size_t)count + 1)), 0, count}; }

uint32_t g1_new(g1_heap *heap, const g1_sizes *sizes)
{
    tuned *it = reserve(sizeof *it);
    it->card_shift = 3 + (uint32_t)__builtin_ctz(sizes->card), it->region = 8 * (uint64_t)sizes->words;
    it->next = reserve((size_t)1 << RESERVED_BITS), it->end = it->next + ((size_t)1 << RESERVED_BITS);
    it->cards = (uint8_t *)((uint64_t)reserve(((size_t)1 << RESERVED_BITS) >> it->card_shift) - ((uint64_t)it->next >> it->card_shift));
    it->regions = sizes->regions, it->buffer = 8 * sizes->buffer, it->count = sizes->mutators;
    it->globals = row_of(sizes->globals);
    for (uint32_t i = 0; i < it->count; i++) it->mutators[i].registers = row_of(sizes->registers);
    *heap = (g1_heap){true, it};
    return G1_DONE;
}
void g1_free(g1_heap *heap) { *heap = (g1_heap){false, NULL}; }
