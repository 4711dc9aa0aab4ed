/* Trees built and dropped by several threads: what a lock costs where threads share a heap, and what a heap a thread takes.

   Each thread keeps a tree of depth 12, and builds and drops its share of so many trees of a depth. A node has 2 pointers and 1 data word,
   and comes after its children: a g1_make, a g1_put for each child, a g1_write, and a g1_scope that drops the children's registers. Its
   data word tells how many nodes there are from it on, by which each tree is tested; a thread's last one is walked too.

     call      one heap, and a lock of its own around each call
     node      one heap, and a lock around a node's calls
     tree      one heap, and a lock around a tree
     turns     the same by a lock that threads get in the order in which they asked, as a mutex doesn't promise
     heaps     a heap a thread, and no lock
     messages  the same, and each tree is sent: its thread writes it as words into a box of the next thread, which builds it in its own heap

     cc -O2 -D_DEFAULT_SOURCE -Iinclude tools/measuring/thread_trees.c -Llib -lg1heap -pthread -o thread_trees
     ./thread_trees WAY THREADS [TREES=2000] [DEPTH=10]

   It prints the seconds by the clock, from the first tree to the last, the processor seconds of all threads, and the longest time in
   milliseconds that a thread waited for the lock, or for a box. By `call` and `node` that isn't taken, since to read the clock costs as
   much as a lock. A shared heap has as many words as the heaps of the threads together, 8 MiB each. */
#include <g1heap.h>
#include <inttypes.h>
#include <pthread.h>
#include <stdio.h>
#include <stdlib.h>
#include <string.h>
#include <time.h>

enum { KEPT, TREE };                        /* registers: the kept tree, and the one that is built */
enum { LEFT, RIGHT };                       /* a node's pointers */
enum { KEPT_DEPTH = 12, MOST_DEPTH = 14, MOST_THREADS = 16 };
enum { BY_CALL, BY_NODE, BY_TREE, IN_TURNS, HEAPS, MESSAGES, WAYS };
static const char *const way_names[WAYS] = {"call", "node", "tree", "turns", "heaps", "messages"};

typedef struct managed {
    g1_heap heap;
    g1_policy policy;
} managed;
/* A tree in words: of each node how many there are from it on, each before its children. It is full, or empty. */
typedef struct box {
    pthread_mutex_t lock;
    pthread_cond_t changed;
    int is_full;
    uint32_t count;
    uint64_t nodes[2 << MOST_DEPTH];
} box;
typedef struct worker {
    pthread_t thread;
    managed *heap;
    uint32_t mutator, trees;
    box *in, *out;
    uint64_t waited;                        /* nanoseconds, the longest */
} worker;

static pthread_mutex_t lock = PTHREAD_MUTEX_INITIALIZER;
static pthread_cond_t next_turn = PTHREAD_COND_INITIALIZER;
static uint64_t turns_asked, turn;          /* of IN_TURNS */
static pthread_barrier_t all_ready;
static uint32_t way, depth = 10;
static managed heaps[MOST_THREADS];
static box boxes[MOST_THREADS];
static worker workers[MOST_THREADS];

static _Noreturn void die(const char *why)
{
    fprintf(stderr, "%s\n", why);
    exit(1);
}
static uint64_t now(clockid_t clock)
{
    struct timespec at;
    clock_gettime(clock, &at);
    return (uint64_t)at.tv_sec * 1000000000u + (uint64_t)at.tv_nsec;
}
static void note_wait(worker *of, uint64_t from)
{
    uint64_t waited = now(CLOCK_MONOTONIC) - from;
    if (waited > of->waited) of->waited = waited;
}

/* The lock around a part, where the way is by such parts. */
static void hold(uint32_t part)
{
    if (way == part) pthread_mutex_lock(&lock);
}
static void leave(uint32_t part)
{
    if (way == part) pthread_mutex_unlock(&lock);
}
static void hold_tree(worker *of)
{
    uint64_t from = now(CLOCK_MONOTONIC);
    hold(BY_TREE);
    if (way == IN_TURNS) {
        pthread_mutex_lock(&lock);
        for (uint64_t own = turns_asked++; turn != own;) pthread_cond_wait(&next_turn, &lock);
        pthread_mutex_unlock(&lock);
    }
    note_wait(of, from);
}
static void leave_tree(void)
{
    leave(BY_TREE);
    if (way == IN_TURNS) {
        pthread_mutex_lock(&lock);
        turn++;
        pthread_cond_broadcast(&next_turn);
        pthread_mutex_unlock(&lock);
    }
}
static uint64_t well(g1_answer answer)
{
    leave(BY_CALL);
    if (answer.code >= G1_NIL) die(answer.code == G1_FULL ? "the heap is full" : "the heap refused a step");
    return answer.first;
}
#define CALL(call) (hold(BY_CALL), well(call))
/* Whether a pointer is an object: then register `to` holds it. */
static int get(worker *of, uint32_t to, uint32_t object, uint32_t field)
{
    hold(BY_CALL);
    g1_answer answer = g1_get(&of->heap->heap, of->mutator, to, object, field);
    well(answer);
    return answer.code == G1_NAME;
}

/* A node in register `at`, whose children are in the two after it, where there are any. */
static void make_node(worker *of, uint32_t at, int is_leaf, uint64_t nodes)
{
    g1_heap *heap = &of->heap->heap;
    hold(BY_NODE);
    CALL(g1_make(heap, &of->heap->policy, of->mutator, at, 2, 0, 1));
    if (!is_leaf) {
        CALL(g1_put(heap, of->mutator, at, LEFT, at + 1));
        CALL(g1_put(heap, of->mutator, at, RIGHT, at + 2));
    }
    CALL(g1_write(heap, of->mutator, at, 0, nodes));
    CALL(g1_scope(heap, of->mutator, at + 1));
    leave(BY_NODE);
}
static uint64_t make_tree(worker *of, uint32_t of_depth, uint32_t at)
{
    uint64_t nodes = 1;
    if (of_depth > 0) {
        nodes += make_tree(of, of_depth - 1, at + 1);
        nodes += make_tree(of, of_depth - 1, at + 2);
    }
    make_node(of, at, of_depth == 0, nodes);
    return nodes;
}

/* Writes the tree of a register into a box, each node before its children. */
static void write_tree(worker *of, uint32_t at, box *to)
{
    to->nodes[to->count++] = CALL(g1_read(&of->heap->heap, of->mutator, at, 0));
    for (uint32_t side = LEFT; side <= RIGHT; side++)
        if (get(of, at + 1, at, side)) write_tree(of, at + 1, to);
}
/* Builds the tree that begins at a place of a box in a register, and answers where it ends. */
static uint32_t read_tree(worker *of, uint32_t at, const box *from, uint32_t place)
{
    uint64_t nodes = from->nodes[place++];
    for (uint32_t side = LEFT; nodes > 1 && side <= RIGHT; side++) place = read_tree(of, at + 1 + side, from, place);
    make_node(of, at, nodes == 1, nodes);
    return place;
}
static box *take(worker *of, box *it, int is_full)
{
    uint64_t from = now(CLOCK_MONOTONIC);
    pthread_mutex_lock(&it->lock);
    while (it->is_full != is_full) pthread_cond_wait(&it->changed, &it->lock);
    note_wait(of, from);
    return it;
}
static void give(box *it, int is_full)
{
    it->is_full = is_full;
    pthread_cond_signal(&it->changed);
    pthread_mutex_unlock(&it->lock);
}

static uint64_t count_nodes(worker *of, uint32_t at)
{
    uint64_t nodes = 1;
    for (uint32_t side = LEFT; side <= RIGHT; side++)
        if (get(of, at + 1, at, side)) nodes += count_nodes(of, at + 1);
    return nodes;
}
/* The tree in register TREE has all of its nodes, and is dropped. */
static void drop_tree(worker *of, int is_walked)
{
    uint64_t nodes = CALL(g1_read(&of->heap->heap, of->mutator, TREE, 0));
    if (nodes != (UINT64_C(2) << depth) - 1 || (is_walked && count_nodes(of, TREE) != nodes)) die("a tree lacks nodes");
    CALL(g1_scope(&of->heap->heap, of->mutator, TREE));
}
static void do_tree(worker *of, int is_walked)
{
    hold_tree(of);
    make_tree(of, depth, TREE);
    if (way == MESSAGES) {
        box *out = take(of, of->out, 0);
        out->count = 0;
        write_tree(of, TREE, out);
        give(out, 1);
        CALL(g1_scope(&of->heap->heap, of->mutator, TREE));
        read_tree(of, TREE, take(of, of->in, 1), 0);
        give(of->in, 0);
    }
    drop_tree(of, is_walked);
    leave_tree();
}
static void *work(void *given)
{
    worker *of = given;
    hold_tree(of);
    uint64_t kept = make_tree(of, KEPT_DEPTH, KEPT);
    leave_tree();
    of->waited = 0;
    pthread_barrier_wait(&all_ready);
    pthread_barrier_wait(&all_ready);       /* the clock is read between */
    for (uint32_t i = 1; i <= of->trees; i++) do_tree(of, i == of->trees);
    pthread_barrier_wait(&all_ready);
    if (CALL(g1_read(&of->heap->heap, of->mutator, KEPT, 0)) != kept) die("the kept tree lacks nodes");
    return NULL;
}

static void make_heap(managed *it, uint32_t threads)
{
    g1_sizes sizes = {.regions = 64 * threads, .words = 16384, .buffer = 255, .mutators = threads, .card = 64, .registers = 64};
    if (g1_new(&it->heap, &sizes) != G1_DONE) die("no heap");
    g1_policy_start(&it->policy, &sizes);
}
static void start(uint32_t threads, uint32_t trees)
{
    int is_shared = way < HEAPS;
    for (uint32_t i = 0; i < (is_shared ? 1 : threads); i++) make_heap(&heaps[i], is_shared ? threads : 1);
    pthread_barrier_init(&all_ready, NULL, threads + 1);
    for (uint32_t i = 0; i < threads; i++) {
        pthread_mutex_init(&boxes[i].lock, NULL), pthread_cond_init(&boxes[i].changed, NULL);
        workers[i].heap = &heaps[is_shared ? 0 : i], workers[i].mutator = is_shared ? i : 0, workers[i].trees = trees / threads;
        workers[i].in = &boxes[i], workers[i].out = &boxes[(i + 1) % threads];
        if (pthread_create(&workers[i].thread, NULL, work, &workers[i]) != 0) die("no thread");
    }
}

int main(int count, char **words)
{
    uint32_t threads = count > 2 ? (uint32_t)atoi(words[2]) : 0, trees = count > 3 ? (uint32_t)atoi(words[3]) : 2000;
    if (count > 4) depth = (uint32_t)atoi(words[4]);
    while (way < WAYS && (count < 2 || strcmp(words[1], way_names[way]) != 0)) way++;
    if (way == WAYS || threads < 1 || threads > MOST_THREADS || depth > MOST_DEPTH)
        die("thread_trees call|node|tree|turns|heaps|messages THREADS [TREES [DEPTH]]: see the top of its source");
    start(threads, trees);
    pthread_barrier_wait(&all_ready);
    uint64_t from = now(CLOCK_MONOTONIC), spent = now(CLOCK_PROCESS_CPUTIME_ID), waited = 0;
    pthread_barrier_wait(&all_ready);
    pthread_barrier_wait(&all_ready);
    uint64_t to = now(CLOCK_MONOTONIC), all = now(CLOCK_PROCESS_CPUTIME_ID);
    for (uint32_t i = 0; i < threads; i++) {
        pthread_join(workers[i].thread, NULL);
        if (workers[i].waited > waited) waited = workers[i].waited;
    }
    printf("%.3f %.3f %.1f\n", (double)(to - from) / 1e9, (double)(all - spent) / 1e9, (double)waited / 1e6);
    for (uint32_t i = 0; i < threads; i++) g1_free(&heaps[i].heap);
    return 0;
}
