/* Makes 1,000,000 objects in a heap of 512 KiB, of which a list keeps the last 1,000. */
#include <g1heap.h>
#include <stdio.h>

enum { LIST, CELL, FRAME }; /* registers: two that main uses; a function's frame begins after them */
enum { NEXT };              /* a cell has a pointer to the next one, and a data word */

static const g1_sizes sizes = {.regions = 64, .words = 1024, .buffer = 127, .mutators = 1, .card = 8, .globals = 0, .registers = 16};
static g1_heap heap = G1_HEAP_NONE;
static g1_policy policy;

static uint64_t sum_and_cut(int keep)
{
    uint64_t sum = 0;
    g1_move(&heap, 0, FRAME, LIST);
    for (int i = 0; i < keep; i++) {
        if (i > 0) g1_get(&heap, 0, FRAME, FRAME, NEXT);
        sum += g1_read(&heap, 0, FRAME, 0).first;
    }
    g1_put(&heap, 0, FRAME, NEXT, G1_NIL_REGISTER); /* what follows can't be reached any more */
    g1_scope(&heap, 0, FRAME);                      /* the frame is left: its registers are nil */
    return sum;
}

int main(void)
{
    uint64_t sum = 0;
    if (g1_new(&heap, &sizes) != G1_DONE) return 1;
    g1_policy_start(&policy, &sizes);
    for (uint64_t i = 1; i <= 1000000; i++) {
        if (g1_make(&heap, &policy, 0, CELL, 1, 0, 1).code != G1_NAME) return 1;
        g1_write(&heap, 0, CELL, 0, i);
        g1_put(&heap, 0, CELL, NEXT, LIST);
        g1_move(&heap, 0, LIST, CELL);
        if (i % 1000 == 0) sum = sum_and_cut(1000);
    }
    printf("the last 1,000 numbers up to 1,000,000 add up to %llu\n", (unsigned long long)sum);
    g1_free(&heap);
    return 0;
}
