/* GCBench, the benchmark of J. Ellis, P. Kovac and H. Boehm (http://www.hboehm.info/gc/gc_bench.html), written from its description: trees
   of many lifetimes beside a long-lived tree and a long-lived array of doubles.

     gcbench [DEPTH]      the depth of the long-lived tree, 16 where it is left out; the stretch tree is 2 deeper */
#include "memory.h"

enum { LONG_LIVED, ARRAY, FRAME }; /* registers */
enum { LEFT, RIGHT };              /* a node has two pointers and two data words */
enum { SHALLOWEST = 4 };

static void node(reg to, uint32_t pointers, uint32_t values)
{
    if (!m_new(to, pointers, values)) m_die("the heap is full");
}

/* A tree from its leaves up, in register `at`. Its frame goes on after it. */
static void make_tree(int depth, reg at)
{
    if (depth > 0) {
        make_tree(depth - 1, at + 1);
        make_tree(depth - 1, at + 2);
    }
    node(at, 2, 2);
    if (depth == 0) return;
    m_put(at, LEFT, at + 1);
    m_put(at, RIGHT, at + 2);
    m_scope(at + 1);
}

/* A tree from its root down: gives the node in register `at` children, and these theirs. */
static void populate(int depth, reg at)
{
    if (depth == 0) return;
    for (uint32_t side = LEFT; side <= RIGHT; side++) {
        node(at + 1, 2, 2);
        m_put(at, side, at + 1);
        populate(depth - 1, at + 1);
    }
    m_scope(at + 1);
}

static uint64_t count(reg at)
{
    uint64_t nodes = 1;
    if (m_get(at + 1, at, LEFT)) nodes += count(at + 1);
    if (m_get(at + 1, at, RIGHT)) nodes += count(at + 1);
    return nodes;
}

static uint64_t tree_size(int depth) { return (2u << depth) - 1; }

int main(int words, char **word)
{
    int deepest = words > 1 ? atoi(word[1]) : 16;
    uint32_t length = deepest >= 16 ? 500000 : 500000u >> (16 - deepest);
    double tenth = 1.0 / 10, read;
    uint64_t bits;
    if (deepest < SHALLOWEST || deepest > 17) m_die("usage: gcbench [DEPTH], a depth of 4 to 17");
    if (deepest > 12) m_sizes.words = 16384, m_sizes.regions = deepest <= 16 ? 400 : 800;
    m_start();
    make_tree(deepest + 2, FRAME);
    m_scope(FRAME);
    node(LONG_LIVED, 2, 2);
    populate(deepest, LONG_LIVED);
    m_scope(ARRAY);
    node(ARRAY, 0, length);
    for (uint32_t i = 0; i < length / 2; i++) {
        double value = 1.0 / i;
        memcpy(&bits, &value, sizeof bits);
        m_write(ARRAY, i, bits);
    }
    for (int depth = SHALLOWEST; depth <= deepest; depth += 2) {
        uint64_t times = 2 * tree_size(deepest + 2) / tree_size(depth);
        for (uint64_t i = 0; i < times; i++) {
            node(FRAME, 2, 2);
            populate(depth, FRAME);
            m_scope(FRAME);
        }
        for (uint64_t i = 0; i < times; i++) {
            make_tree(depth, FRAME);
            m_scope(FRAME);
        }
        printf("%llu trees of depth %d, top down and bottom up\n", (unsigned long long)times, depth);
    }
    bits = m_read(ARRAY, 10);
    memcpy(&read, &bits, sizeof read);
    m_move(FRAME, LONG_LIVED);
    printf("long-lived: a tree of %llu nodes, an array of %u words%s\n", (unsigned long long)count(FRAME), length,
           read == tenth ? "" : ", and it is broken");
    m_stop(getenv("VERBOSE") != NULL);
    return read == tenth ? 0 : 1;
}
