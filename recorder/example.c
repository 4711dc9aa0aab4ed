/* A heap without a collector, and its record by each call of g1record.h. tools/check_recorder compares it with that of example.py.

       example RECORD [crash] */
#include "g1record.h"

/* The name is in the object, and moves with it. A heap whose objects have no room for it keeps a table beside it. */
typedef struct object {
    uint64_t name;
    unsigned pointers, weaks, words;
    struct object *fields[4]; /* pointers, then weak slots */
    uint64_t data[2];
} object;
typedef struct {
    object *globals[2], *stacks[2][8];
    unsigned used[2]; /* how many slots of each stack are in use */
    object objects[16];
} heap;

static object *make(heap *h, unsigned m, unsigned to, uint64_t name, unsigned pointers, unsigned weaks, unsigned words) {
    object *made = &h->objects[name];
    made->name = name, made->pointers = pointers, made->weaks = weaks, made->words = words;
    h->stacks[m][to] = made;
    return made;
}

/* What the walk asks for. A heap whose mutators read through a barrier that follows forwarding pointers does so here too. */
static unsigned roots(void *h, int m) { return m < 0 ? 2 : ((heap *)h)->used[m]; }
static void *root(void *h, int m, unsigned i) { return m < 0 ? ((heap *)h)->globals[i] : ((heap *)h)->stacks[m][i]; }
static uint64_t name(void *h, void *it) { (void)h; return ((object *)it)->name; }
static unsigned pointers(void *h, void *it) { (void)h; return ((object *)it)->pointers; }
static unsigned weaks(void *h, void *it) { (void)h; return ((object *)it)->weaks; }
static unsigned words(void *h, void *it) { (void)h; return ((object *)it)->words; }
static void *pointer(void *h, void *it, unsigned i) { (void)h; return ((object *)it)->fields[i]; }
static void *weak(void *h, void *it, unsigned i) { (void)h; return ((object *)it)->fields[((object *)it)->pointers + i]; }
static uint64_t word(void *h, void *it, unsigned i) { (void)h; return ((object *)it)->data[i]; }

/* Objects, fields and words: a list of three, of which the last names the second. */
static void use_objects(g1record *r, heap *h) {
    object *a = make(h, 0, 0, g1record_new(r, 0, 0, 2, 1), 2, 0, 1);
    object *b = make(h, 0, 1, g1record_newweak(r, 0, 1, 1, 1, 2), 1, 1, 2);
    object *c = make(h, 0, 2, g1record_new(r, 0, 2, 1, 0), 1, 0, 0);
    h->used[0] = 3;
    g1record_new_refused(r, 0, 3, 3, 0, 3);
    g1record_new_refused(r, 0, 3, 4000000, 0, 0);
    a->fields[1] = b, g1record_put(r, 0, 0, 1, 1);
    b->fields[0] = c, g1record_put(r, 0, 1, 0, 2);
    b->fields[1] = c, g1record_putweak(r, 0, 1, 0, 2);
    c->fields[0] = b, g1record_put(r, 0, 2, 0, 1);
    a->fields[0] = NULL, g1record_put(r, 0, 0, 0, G1RECORD_NOTHING);
    a->data[0] = 7, g1record_write(r, 0, 0, 0, 7);
    b->data[1] = UINT64_MAX, g1record_write(r, 0, 1, 1, UINT64_MAX);
    g1record_read(r, 0, 1, 1, b->data[1]);
    g1record_event(r, "%u read r%u %u = refused 1 Nil", 0, 3, 0);
    h->globals[0] = a, g1record_save(r, 0, 0, 0);
}

/* The other mutator comes by the objects, in a frame that begins at r2. */
static void use_frames(g1record *r, heap *h) {
    object **stack = h->stacks[1];
    stack[2] = h->globals[0], g1record_load(r, 1, 2, 0, stack[2]->name);
    stack[3] = stack[2]->fields[1], g1record_get(r, 1, 3, 2, 1, stack[3]->name);
    stack[4] = stack[3]->fields[1], g1record_getweak(r, 1, 4, 3, 0, stack[4]->name);
    g1record_get(r, 1, 5, 2, 0, G1RECORD_NIL);
    g1record_shape(r, 1, 3, 1, 2);
    g1record_weaks(r, 1, 3, 1);
    stack[0] = stack[3], g1record_move(r, 1, 0, 3);
    stack[4] = NULL, g1record_drop(r, 1, 4);
    h->used[1] = 1, g1record_scope(r, 1, 2);
    h->stacks[0][2] = NULL, g1record_drop(r, 0, 2);
}

/* An object that a weak slot alone names is lost, and the heap clears the slot when it likes, without an event. */
static int use_weak_slots(g1record *r, heap *h, const g1record_view *view) {
    object **stack = h->stacks[1];
    int settled;
    stack[1] = make(h, 1, 1, g1record_new(r, 1, 1, 0, 0), 0, 0, 0);
    stack[0]->fields[1] = stack[1], g1record_putweak(r, 1, 0, 0, 1);
    stack[1] = NULL, g1record_drop(r, 1, 1);
    stack[0]->fields[1] = NULL;
    settled = g1record_sync(r, view) == 0;
    g1record_getweak(r, 1, 1, 0, 0, G1RECORD_NIL);
    return settled;
}

int main(int count, char **arguments) {
    static heap h;
    g1record r;
    g1record_view view = {&h, roots, root, name, pointers, weaks, words, pointer, weak, word};
    int whole;
    if (count < 2 || g1record_open(&r, arguments[1], 3000000, 2, 2, 8) != 0) return 1;
    use_objects(&r, &h);
    use_frames(&r, &h);
    g1record_begin(&r);
    g1record_mark(&r, 4);
    h.stacks[1][0]->fields[1] = NULL, g1record_putweak(&r, 1, 0, 0, G1RECORD_NOTHING);
    g1record_remark(&r, 3);
    g1record_cleanup(&r, 0);
    g1record_refine(&r, 2, 1);
    g1record_pause(&r, 4096, 1, 8);
    whole = g1record_walk(&r, &view) == 0 && use_weak_slots(&r, &h, &view);
    if (count > 2) abort();
    return g1record_close(&r) == 0 && whole ? 0 : 1;
}
