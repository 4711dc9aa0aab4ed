/* Writes the record of a heap, which `g1heap check` judges: a line for each event, whole and flushed. Copy this file (MIT licence);
   docs/CHECKING.md tells how to use it. Call where the step took effect, under the same lock. Objects have names by birth, from
   0. Registers are the slots of a mutator's stack, globals those of tables that all mutators see. C11 or C++17. */
#ifndef G1RECORD_H
#define G1RECORD_H

#include <inttypes.h>
#include <stdarg.h>
#include <stdio.h>
#include <stdlib.h>
#include <string.h>

#define G1RECORD_NIL UINT64_MAX      /* in place of a name */
#define G1RECORD_NOTHING 0xffffffffu /* in place of a register whose value is stored: nil is stored */

/* Lets a compiler that can do it check a format against what is handed over with it. */
#if defined(__GNUC__) || defined(__clang__)
#define G1RECORD_FORMAT __attribute__((__format__(__printf__, 2, 3)))
#else
#define G1RECORD_FORMAT
#endif

typedef struct {
    FILE *file;                            /* NULL where none is open */
    uint64_t events, next, limit;          /* written events, the next name, the words of the largest object */
    unsigned mutators, globals, registers; /* the client's: the walk has one mutator more, and one global more */
    int failed;                            /* 1 since a line couldn't be written */
    char spelled[24];
} g1record;

/* 0 where every line was written; -1 where one wasn't, or the record was never opened, or is closed already. */
static inline int g1record_close(g1record *r) {
    if (r->file == NULL) return -1;
    if (fclose(r->file) != 0) r->failed = 1;
    r->file = NULL;
    return r->failed ? -1 : 0;
}

/* Opens a record of a heap of so many words. 0, or -1 where the file can't be opened, or the judge takes no such sizes: then nothing is
   open, and the other calls do nothing but count. */
static inline int g1record_open(g1record *r, const char *path, uint64_t words, unsigned mutators, unsigned globals, unsigned registers) {
    uint64_t roots = ((uint64_t)mutators + 1) * registers + globals + 1;
    uint64_t region = 16;
    uint64_t regions;
    while (region < 2097152 && region * 1024 < words) region *= 2;
    regions = words <= region * 2 ? 2 : words >= region * 1024 ? 1024 : (words + region - 1) / region;
    r->file = NULL;
    r->failed = 1;
    r->events = 0;
    r->next = 0;
    r->limit = regions * region < 16777216 ? regions * region : 16777216;
    r->mutators = mutators;
    r->globals = globals;
    r->registers = registers;
    if (mutators < 1 || mutators > 63 || globals > 65535 || registers < 2 || registers > 65536 || roots > 1048576) return -1;
    r->file = fopen(path, "wb");
    if (r->file == NULL) return -1;
    r->failed = fprintf(r->file, "heap3 %" PRIu64 " %" PRIu64 " 4 %u 0 8 %u %u\n", regions, region, mutators + 1, globals + 1,
                        registers) < 0;
    if (fflush(r->file) != 0) r->failed = 1;
    return r->failed ? g1record_close(r) : 0;
}

/* Any event, as docs/TEXTS.md spells it, a refusal too: g1record_event(r, "%u read r%u %u = refused 1 Nil", 0, 3, 1). */
G1RECORD_FORMAT static inline void g1record_event(g1record *r, const char *event, ...) {
    char line[160];
    int front = snprintf(line, sizeof line, "%" PRIu64 " ", r->events + 1);
    int size;
    va_list words;
    va_start(words, event);
    size = vsnprintf(line + front, sizeof line - (size_t)front - 1, event, words);
    va_end(words);
    r->events++;
    if (r->failed) return;
    if (size < 0 || front + size > 120 || strchr(line, '\n') != NULL) {
        r->failed = 1;
        return;
    }
    size += front;
    line[size] = '\n';
    if (fwrite(line, 1, (size_t)size + 1, r->file) != (size_t)size + 1 || fflush(r->file) != 0) r->failed = 1;
}

static inline const char *g1record_spell(g1record *r, uint64_t name) {
    if (name == G1RECORD_NIL) return "nil";
    snprintf(r->spelled, sizeof r->spelled, "#%" PRIu64, name);
    return r->spelled;
}

/* The steps of mutator m. A name that is given is the one of the object that the heap found, or G1RECORD_NIL. A new object's is
   returned. */
static inline uint64_t g1record_new(g1record *r, unsigned m, unsigned to, unsigned pointers, unsigned words) {
    g1record_event(r, "%u new r%u %u %u = #%" PRIu64, m, to, pointers, words, r->next);
    return r->next++;
}

static inline uint64_t g1record_newweak(g1record *r, unsigned m, unsigned to, unsigned pointers, unsigned weaks, unsigned words) {
    g1record_event(r, "%u newweak r%u %u %u %u = #%" PRIu64, m, to, pointers, weaks, words, r->next);
    return r->next++;
}

static inline void g1record_new_refused(g1record *r, unsigned m, unsigned to, unsigned pointers, unsigned weaks, unsigned words) {
    uint64_t size = 2 + (uint64_t)pointers + weaks + words;
    g1record_event(r, "%u newweak r%u %u %u %u = refused %s", m, to, pointers, weaks, words, size > r->limit ? "4 TooBig" : "3 Full");
}

static inline void g1record_get(g1record *r, unsigned m, unsigned to, unsigned of, unsigned i, uint64_t name) {
    g1record_event(r, "%u get r%u r%u %u = %s", m, to, of, i, g1record_spell(r, name));
}

static inline void g1record_getweak(g1record *r, unsigned m, unsigned to, unsigned of, unsigned i, uint64_t name) {
    g1record_event(r, "%u getweak r%u r%u %u = %s", m, to, of, i, g1record_spell(r, name));
}

static inline void g1record_put(g1record *r, unsigned m, unsigned of, unsigned i, unsigned from) {
    if (from == G1RECORD_NOTHING) g1record_event(r, "%u put r%u %u nil = ok", m, of, i);
    else g1record_event(r, "%u put r%u %u r%u = ok", m, of, i, from);
}

static inline void g1record_putweak(g1record *r, unsigned m, unsigned of, unsigned i, unsigned from) {
    if (from == G1RECORD_NOTHING) g1record_event(r, "%u putweak r%u %u nil = ok", m, of, i);
    else g1record_event(r, "%u putweak r%u %u r%u = ok", m, of, i, from);
}

static inline void g1record_read(g1record *r, unsigned m, unsigned of, unsigned j, uint64_t word) {
    g1record_event(r, "%u read r%u %u = %" PRIu64, m, of, j, word);
}

static inline void g1record_write(g1record *r, unsigned m, unsigned of, unsigned j, uint64_t word) {
    g1record_event(r, "%u write r%u %u %" PRIu64 " = ok", m, of, j, word);
}

static inline void g1record_move(g1record *r, unsigned m, unsigned to, unsigned from) {
    g1record_event(r, "%u move r%u r%u = ok", m, to, from);
}

static inline void g1record_drop(g1record *r, unsigned m, unsigned it) {
    g1record_event(r, "%u drop r%u = ok", m, it);
}

static inline void g1record_load(g1record *r, unsigned m, unsigned to, unsigned global, uint64_t name) {
    g1record_event(r, "%u load r%u g%u = %s", m, to, global, g1record_spell(r, name));
}

static inline void g1record_save(g1record *r, unsigned m, unsigned global, unsigned from) {
    g1record_event(r, "%u save g%u r%u = ok", m, global, from);
}

static inline void g1record_scope(g1record *r, unsigned m, unsigned first) {
    g1record_event(r, "%u scope r%u = ok", m, first);
}

static inline void g1record_shape(g1record *r, unsigned m, unsigned of, unsigned pointers, unsigned words) {
    g1record_event(r, "%u shape r%u = %u %u", m, of, pointers, words);
}

static inline void g1record_weaks(g1record *r, unsigned m, unsigned of, unsigned weaks) {
    g1record_event(r, "%u weaks r%u = %u", m, of, weaks);
}

/* The steps of the collector. The first two matter to weak slots, the others to a reader. */
static inline void g1record_begin(g1record *r) {
    g1record_event(r, "gc begin = ok");
}

static inline void g1record_remark(g1record *r, unsigned marked) {
    g1record_event(r, "gc remark = marked %u", marked);
}

static inline void g1record_mark(g1record *r, unsigned k) {
    g1record_event(r, "gc mark %u = ok", k);
}

static inline void g1record_cleanup(g1record *r, unsigned regions) {
    g1record_event(r, "gc cleanup = reclaimed %u", regions);
}

static inline void g1record_refine(g1record *r, unsigned k, unsigned cards) {
    g1record_event(r, "gc refine %u = refined %u", k, cards);
}

static inline void g1record_pause(g1record *r, unsigned budget, unsigned regions, unsigned words) {
    g1record_event(r, "gc pause %u = moved %u %u", budget, regions, words);
}

/* How the walk sees a heap. An object is its address, NULL is nil; mutator -1 has the globals. `weaks` may be NULL: then none is read. */
typedef struct {
    void *heap;                                 /* handed to each call */
    unsigned (*roots)(void *heap, int mutator); /* how many are in use */
    void *(*root)(void *heap, int mutator, unsigned i);
    uint64_t (*name)(void *heap, void *object);
    unsigned (*pointers)(void *heap, void *object), (*weaks)(void *heap, void *object), (*words)(void *heap, void *object);
    void *(*pointer)(void *heap, void *object, unsigned i), *(*weak)(void *heap, void *object, unsigned i);
    uint64_t (*word)(void *heap, void *object, unsigned i);
} g1record_view;

/* A walk: where the object of each name was found, and how many objects weren't followed. */
typedef struct {
    g1record *r;
    const g1record_view *view;
    void **places;
    int64_t left;
} g1record_walker;

/* The name to write for an object: none of the heap's, where its name is at two addresses. It is fresh where it is to be looked at. */
static inline uint64_t g1record_meet(g1record_walker *w, void *object, int room, int *fresh) {
    uint64_t name = object == NULL ? G1RECORD_NIL : w->view->name(w->view->heap, object);
    int given = name < w->r->next;
    int first = given && w->places[name] == NULL;
    int elsewhere = given && !first && w->places[name] != object;
    *fresh = first && room;
    w->left += first && !room;
    if (*fresh) w->places[name] = object;
    return object != NULL && (elsewhere || name == G1RECORD_NIL) ? G1RECORD_NIL - 1 : name;
}

/* Reads shape and data words of the object in register `at` of the walk. The answer is how many fields it has, pointers and weak slots. */
static inline unsigned g1record_read_words(g1record_walker *w, unsigned at, void *object) {
    const g1record_view *v = w->view;
    unsigned m = w->r->mutators;
    unsigned pointers = v->pointers(v->heap, object);
    unsigned words = v->words(v->heap, object);
    unsigned weaks = v->weaks == NULL ? 0 : v->weaks(v->heap, object);
    g1record_shape(w->r, m, at, pointers, words);
    if (v->weaks != NULL) g1record_weaks(w->r, m, at, weaks);
    for (unsigned i = 0; i < words; i++) g1record_read(w->r, m, at, i, v->word(v->heap, object, i));
    return pointers + weaks;
}

/* Reads the object in register `at` of the walk and follows its fields. The last one may take its register, so a list needs no more. */
static inline void g1record_look(g1record_walker *w, unsigned at, void *object) {
    const g1record_view *v = w->view;
    g1record *r = w->r;
    unsigned m = r->mutators;
    int fresh = 1;
    while (fresh) {
        void *holder = object;
        unsigned pointers = v->pointers(v->heap, holder);
        unsigned fields = g1record_read_words(w, at, holder);
        fresh = 0;
        for (unsigned i = 0; i < fields; i++) {
            int last = i + 1 == fields;
            uint64_t name;
            unsigned to;
            object = i < pointers ? v->pointer(v->heap, holder, i) : v->weak(v->heap, holder, i - pointers);
            name = g1record_meet(w, object, last || (at + 2 < r->registers && at < 10000), &fresh);
            to = fresh && last ? at : at + 1;
            if (i < pointers) g1record_get(r, m, to, at, i, name);
            else g1record_getweak(r, m, to, at, i - pointers, name);
            if (fresh && !last) g1record_look(w, at + 1, object);
        }
    }
}

/* After a collection: reads what every root reaches, so what was lost is found though nobody asks for it. The answer is how many objects
   weren't followed, for want of registers, or -1 where memory was refused. While marking runs, `weaks` must be NULL. */
static inline int64_t g1record_walk(g1record *r, const g1record_view *view) {
    g1record_walker w = {r, view, (void **)calloc(r->next + 1, sizeof(void *)), 0};
    if (w.places == NULL) return -1;
    for (int m = -1; m < (int)r->mutators; m++)
        for (unsigned i = 0; i < view->roots(view->heap, m); i++) {
            void *object = view->root(view->heap, m, i);
            int fresh;
            if (m >= 0) g1record_save(r, (unsigned)m, r->globals, i);
            g1record_load(r, r->mutators, 0, m < 0 ? i : r->globals, g1record_meet(&w, object, 1, &fresh));
            if (fresh) g1record_look(&w, 0, object);
        }
    g1record_scope(r, r->mutators, 0);
    g1record_save(r, r->mutators, r->globals, 0);
    free(w.places);
    return w.left;
}

/* The objects that a sync has taken: the one in held[i] is in register i of the walk, and register `count` is for what isn't fresh. */
typedef struct {
    g1record_walker w;
    void **held;
    unsigned count;
} g1record_taker;

/* The name to write for an object that comes into register `count`, where it stays if it is fresh. */
static inline uint64_t g1record_take(g1record_taker *t, void *object) {
    int fresh;
    uint64_t name = g1record_meet(&t->w, object, t->count + 1 < t->w.r->registers, &fresh);
    if (fresh) t->held[t->count++] = object;
    return name;
}

/* Reads the object in register `at` of the walk, and takes what its pointers name, and its weak slots that still hold something. */
static inline void g1record_take_fields(g1record_taker *t, unsigned at) {
    const g1record_view *v = t->w.view;
    g1record *r = t->w.r;
    void *holder = t->held[at];
    unsigned pointers = v->pointers(v->heap, holder);
    unsigned fields = g1record_read_words(&t->w, at, holder);
    for (unsigned i = 0; i < fields; i++) {
        void *object = i < pointers ? v->pointer(v->heap, holder, i) : v->weak(v->heap, holder, i - pointers);
        unsigned to = t->count;
        if (i < pointers) g1record_get(r, r->mutators, to, at, i, g1record_take(t, object));
        else if (object != NULL) g1record_getweak(r, r->mutators, to, at, i - pointers, g1record_take(t, object));
    }
}

static inline void g1record_read_nil_slots(g1record_taker *t) {
    const g1record_view *v = t->w.view;
    for (unsigned at = 0; at < t->count; at++)
        for (unsigned i = 0; v->weaks != NULL && i < v->weaks(v->heap, t->held[at]); i++)
            if (v->weak(v->heap, t->held[at], i) == NULL) g1record_getweak(t->w.r, t->w.r->mutators, t->count, at, i, G1RECORD_NIL);
}

/* In place of a walk, where the heap clears weak slots when it likes: each object that is reached, by pointers and by weak slots that
   still hold something, takes a register; the judge clears the slots of all others; then the slots that are nil are read. The answer is how
   many objects found no register, and then nothing is cleared; or -1 where memory was refused. */
static inline int64_t g1record_sync(g1record *r, const g1record_view *view) {
    g1record_taker t = {{r, view, (void **)calloc(r->next + 1, sizeof(void *)), 0}, (void **)calloc(r->registers, sizeof(void *)), 0};
    unsigned spare = r->mutators;
    int whole = t.w.places != NULL && t.held != NULL;
    for (int m = -1; whole && m < (int)spare; m++)
        for (unsigned i = 0; i < view->roots(view->heap, m); i++) {
            unsigned to = t.count;
            if (m >= 0) g1record_save(r, (unsigned)m, r->globals, i);
            g1record_load(r, spare, to, m < 0 ? i : r->globals, g1record_take(&t, view->root(view->heap, m, i)));
        }
    for (unsigned at = 0; at < t.count; at++) g1record_take_fields(&t, at);
    if (whole && t.w.left == 0) {
        g1record_begin(r);
        g1record_remark(r, 0);
        g1record_read_nil_slots(&t);
    }
    if (whole) {
        g1record_scope(r, spare, 0);
        g1record_save(r, spare, r->globals, 0);
    }
    free(t.w.places);
    free(t.held);
    return whole ? t.w.left : -1;
}

#endif
