/* A small heap that clears weak slots at moments of its own and uses the places of lost objects again, under steps that a seed draws. No
   event tells when it clears: where a filled slot reads nil, a sync is written.

       clears RECORD SEED STEPS [held|half|inner]

   At the end the heap may clear a slot too early, and a sync ends the run: by `held` a register holds its object; by `half` another slot;
   by `inner` an object that another slot holds. Prints how many syncs there were, and how many slots they found cleared. clears.py does the
   same in Python. */
#include "../../recorder/g1record.h"
#include <string.h>

enum { PLACES = 64, GLOBALS = 2, MUTATORS = 2, SLOTS = 5, FIELDS = 8 };
typedef struct object {
    uint64_t name, word;
    unsigned pointers, weaks, used, reached, filled[FIELDS];
    struct object *fields[FIELDS]; /* pointers, then weak slots */
} object;
static object places[PLACES], *globals[GLOBALS], *stacks[MUTATORS][SLOTS];
static g1record r;
static uint64_t state;
static unsigned syncs, cleared;

static unsigned drawn(unsigned below) {
    state ^= state << 13, state ^= state >> 7, state ^= state << 17;
    return (unsigned)((state >> 20) % below);
}

static unsigned roots(void *h, int m) { (void)h; return m < 0 ? GLOBALS : SLOTS; }
static void *root(void *h, int m, unsigned i) { (void)h; return m < 0 ? globals[i] : stacks[m][i]; }
static uint64_t name(void *h, void *it) { (void)h; return ((object *)it)->name; }
static unsigned pointers(void *h, void *it) { (void)h; return ((object *)it)->pointers; }
static unsigned weaks(void *h, void *it) { (void)h; return ((object *)it)->weaks; }
static unsigned words(void *h, void *it) { (void)h, (void)it; return 1; }
static void *pointer(void *h, void *it, unsigned i) { (void)h; return ((object *)it)->fields[i]; }
static uint64_t word(void *h, void *it, unsigned i) { (void)h, (void)i; return ((object *)it)->word; }
/* A slot that is nil here is one that the sync reads: it is settled. */
static void *weak(void *h, void *it, unsigned i) {
    object *holder = (object *)it;
    unsigned at = holder->pointers + i;
    (void)h;
    if (holder->fields[at] == NULL && holder->filled[at]) holder->filled[at] = 0, cleared++;
    return holder->fields[at];
}
static void sync_all(void) {
    g1record_view view = {NULL, roots, root, name, pointers, weaks, words, pointer, weak, word};
    if (g1record_sync(&r, &view) != 0) exit(1);
    syncs++;
}

static void reach(object *it) {
    if (it == NULL || it->reached) return;
    it->reached = 1;
    for (unsigned i = 0; i < it->pointers; i++) reach(it->fields[i]);
}
/* Clears the slots of objects that roots don't reach, but for some of these, which are kept for now with all that they lead to. */
static void clear(unsigned keep) {
    for (unsigned i = 0; i < PLACES; i++) places[i].reached = 0;
    for (unsigned i = 0; i < GLOBALS; i++) reach(globals[i]);
    for (unsigned i = 0; i < MUTATORS * SLOTS; i++) reach(stacks[i / SLOTS][i % SLOTS]);
    for (unsigned i = 0; i < PLACES && keep > 0; i++) if (places[i].used && !places[i].reached && drawn(4) < keep) reach(&places[i]);
    for (object *it = places; it < places + PLACES; it++)
        for (unsigned i = it->pointers; it->used && i < it->pointers + it->weaks; i++)
            if (it->fields[i] != NULL && !it->fields[i]->reached) it->fields[i] = NULL;
    for (unsigned i = 0; i < PLACES; i++) if (!places[i].reached) memset(&places[i], 0xdd, sizeof places[i]), places[i].used = 0;
}

static void make(unsigned m, unsigned to, unsigned pointer_count, unsigned weak_count) {
    object *made = places;
    while (made < places + PLACES && made->used) made++;
    if (made == places + PLACES) {
        clear(0);
        g1record_new_refused(&r, m, to, pointer_count, weak_count, 1);
        return;
    }
    memset(made, 0, sizeof *made);
    made->used = 1, made->pointers = pointer_count, made->weaks = weak_count;
    made->name = g1record_newweak(&r, m, to, pointer_count, weak_count, 1);
    stacks[m][to] = made;
}
static void put(unsigned m, unsigned of, unsigned i, unsigned from) {
    object *it = stacks[m][of];
    it->fields[i] = from == G1RECORD_NOTHING ? NULL : stacks[m][from];
    it->filled[i] = it->fields[i] != NULL;
    if (i < it->pointers) g1record_put(&r, m, of, i, from);
    else g1record_putweak(&r, m, of, i - it->pointers, from);
}
static void get(unsigned m, unsigned to, unsigned of, unsigned i) {
    object *it = stacks[m][of], *found = it->fields[i];
    uint64_t known = found == NULL ? G1RECORD_NIL : found->name;
    if (i >= it->pointers && found == NULL && it->filled[i]) sync_all();
    stacks[m][to] = found;
    if (i < it->pointers) g1record_get(&r, m, to, of, i, known);
    else g1record_getweak(&r, m, to, of, i - it->pointers, known);
}
/* A mutator takes one of the two holders that live long, or an object it has, and uses a field. */
static void step(void) {
    unsigned m = drawn(MUTATORS), of = drawn(SLOTS), other = drawn(SLOTS), kind = drawn(100), global = drawn(GLOBALS);
    unsigned pointer_count = drawn(3), weak_count = drawn(3), keep = drawn(6);
    object *it = stacks[m][of];
    unsigned fields = it == NULL ? 0 : it->pointers + it->weaks, i = fields > 0 ? drawn(fields) : 0;
    if (kind < 25) make(m, of, pointer_count, weak_count);
    else if (kind < 33) stacks[m][of] = NULL, g1record_drop(&r, m, of);
    else if (kind < 45) stacks[m][of] = globals[global], g1record_load(&r, m, of, global, globals[global]->name);
    else if (kind < 49) clear(keep);
    else if (fields == 0) g1record_move(&r, m, of, other), stacks[m][of] = stacks[m][other];
    else if (kind < 53) it->word = kind, g1record_write(&r, m, of, 0, kind);
    else if (kind < 80) put(m, of, i, kind < 56 ? G1RECORD_NOTHING : other);
    else get(m, other, of, i);
}

/* The wrong clearing, in an object of two weak slots that is made for it. */
static void spoil(const char *kind) {
    for (unsigned i = 0; i < SLOTS; i++) stacks[0][i] = NULL;
    g1record_scope(&r, 0, 0);
    clear(0);
    make(0, 0, 0, 2);
    make(0, 1, 1, 0);
    make(0, 2, 1, 0);
    put(0, 2, 0, 1);
    put(0, 0, 0, 1);
    put(0, 0, 1, strcmp(kind, "held") == 0 ? G1RECORD_NOTHING : strcmp(kind, "half") == 0 ? 1 : 2);
    stacks[0][2] = NULL, g1record_drop(&r, 0, 2);
    if (strcmp(kind, "held") != 0) stacks[0][1] = NULL, g1record_drop(&r, 0, 1);
    stacks[0][0]->fields[0] = NULL;
}

int main(int count, char **arguments) {
    unsigned steps = count > 3 ? (unsigned)atoi(arguments[3]) : 0;
    if (count < 4 || g1record_open(&r, arguments[1], 4096, MUTATORS, GLOBALS, PLACES + 1) != 0) return 1;
    state = 176345290926650502 + strtoull(arguments[2], NULL, 10);
    for (unsigned i = 0; i < GLOBALS; i++) make(0, 0, 2, 6), globals[i] = stacks[0][0], g1record_save(&r, 0, i, 0);
    for (unsigned i = 0; i < steps; i++) step();
    if (count > 4) spoil(arguments[4]);
    sync_all();
    printf("%u %u\n", syncs, cleared);
    return g1record_close(&r) != 0;
}
