/* binary-trees, of the Computer Language Benchmarks Game (https://benchmarksgame-team.pages.debian.net/benchmarksgame/), written from its
   description: it makes and walks many trees while a long-lived one stands.

     binary_trees [DEPTH]      16 where it is left out; 19 is the deepest that 16,777,216 words hold */
#include "memory.h"

enum { LONG_LIVED, FRAME }; /* registers */
enum { LEFT, RIGHT };       /* a node has two pointers and nothing else */
enum { SHALLOWEST = 4 };

static void make_tree(int depth, reg at)
{
    if (!m_new(at, 2, 0)) m_die("the heap is full");
    if (depth == 0) return;
    for (uint32_t side = LEFT; side <= RIGHT; side++) {
        make_tree(depth - 1, at + 1);
        m_put(at, side, at + 1);
    }
    m_scope(at + 1);
}

static uint64_t count(reg at)
{
    uint64_t nodes = 1;
    for (uint32_t side = LEFT; side <= RIGHT; side++)
        if (m_get(at + 1, at, side)) nodes += count(at + 1);
    return nodes;
}

/* Makes a tree in the frame, counts its nodes, and leaves the frame. */
static uint64_t try_tree(int depth)
{
    uint64_t nodes;
    make_tree(depth, FRAME);
    nodes = count(FRAME);
    m_scope(FRAME);
    return nodes;
}

int main(int words, char **word)
{
    int deepest = words > 1 ? atoi(word[1]) : 16;
    if (deepest < SHALLOWEST + 2 || deepest > 19) m_die("usage: binary_trees [DEPTH], a depth of 6 to 19");
    if (deepest > 12) m_sizes.words = 16384, m_sizes.regions = deepest <= 17 ? 256 : 1024;
    m_start();
    printf("stretch tree of depth %d\t check: %llu\n", deepest + 1, (unsigned long long)try_tree(deepest + 1));
    make_tree(deepest, LONG_LIVED);
    for (int depth = SHALLOWEST; depth <= deepest; depth += 2) {
        uint64_t times = (uint64_t)1 << (deepest - depth + SHALLOWEST), nodes = 0;
        for (uint64_t i = 0; i < times; i++) nodes += try_tree(depth);
        printf("%llu\t trees of depth %d\t check: %llu\n", (unsigned long long)times, depth, (unsigned long long)nodes);
    }
    m_move(FRAME, LONG_LIVED);
    printf("long lived tree of depth %d\t check: %llu\n", deepest, (unsigned long long)count(FRAME));
    m_stop(getenv("VERBOSE") != NULL);
    return 0;
}
