/* Makes one kind of call so many times, for tools/measure clients, which counts instructions of two runs.

     library_costs CALL TIMES */
#include <g1heap.h>
#include <stdlib.h>
#include <string.h>

static g1_heap heap = G1_HEAP_NONE;
static g1_policy policy;
static g1_sizes sizes = {256, 1024, 128, 1, 0, 8, 16, 64};

/* What is in memory may have changed: else a compiler that inlines the calls would take them out of the loop. It costs no instruction. */
static inline void again(void) { __asm__ volatile("" : : "r"(&heap) : "memory"); }

/* Calls that came later, apart: how a compiler inlines a call hangs on how many others are in the function. */
static __attribute__((noinline)) uint64_t others(const char *call, long times)
{
    uint64_t sum = 0;
    if (strncmp(call, "get weak", 8) == 0) {
        g1_new_weak(&heap, 0, 4, 0, 1, 0), g1_put_weak(&heap, 0, 4, 0, 1);
        if (strcmp(call, "get weak while clearing") == 0) g1_begin(&heap), g1_remark(&heap);
        for (long i = 0; i < times; i++, again()) sum += g1_get_weak(&heap, 0, 2, 4, 0).first;
        return sum;
    }
    g1_new_object(&heap, 0, 4, 4, 0), g1_fill(&heap, 0, 4, 0, 1, 4);
    if (strcmp(call, "get word") == 0) for (long i = 0; i < times; i++, again()) sum += g1_get_word(&heap, 0, 2, 0, 0, 1).first;
    else if (strcmp(call, "get many, 4") == 0) for (long i = 0; i < times; i++, again()) sum += g1_get_many(&heap, 0, 5, 4, 0, 4).code;
    else if (strcmp(call, "put many, 4") == 0) for (long i = 0; i < times; i++, again()) sum += g1_put_many(&heap, 0, 4, 0, 0, 4).code;
    return sum;
}

int main(int count, char **words)
{
    const char *call = count == 3 ? words[1] : "";
    long times = count == 3 ? atol(words[2]) : 0;
    uint64_t sum = 0, words_of_it[] = {7};
    /* A filled object's numbers are constants, as a new one's are: its source is the first object. Where nothing is freed a region has room
       for all. */
    static const uint32_t sources[] = {0, G1_NIL_REGISTER};
    if (strcmp(call, "new filled 2 + 1") == 0) sizes.regions = 16, sizes.words = 1 << 18;
    if (g1_new(&heap, &sizes) != G1_DONE) return 1;
    g1_new_object(&heap, 0, 0, 2, 2), g1_new_object(&heap, 0, 1, 2, 2), g1_put(&heap, 0, 0, 0, 1);
    if (strcmp(call, "get") == 0) for (long i = 0; i < times; i++, again()) sum += g1_get(&heap, 0, 2, 0, 0).first;
    else if (strcmp(call, "read") == 0) for (long i = 0; i < times; i++, again()) sum += g1_read(&heap, 0, 0, 1).first;
    else if (strcmp(call, "write") == 0) for (long i = 0; i < times; i++, again()) sum += g1_write(&heap, 0, 0, 1, (uint64_t)i).code;
    else if (strcmp(call, "put") == 0) for (long i = 0; i < times; i++, again()) sum += g1_put(&heap, 0, 0, 0, 1).code;
    else if (strcmp(call, "put while marking") == 0) {
        g1_begin(&heap);
        for (long i = 0; i < times; i++, again()) sum += g1_put(&heap, 0, 0, 0, 1).code;
    } else if (strcmp(call, "move") == 0) for (long i = 0; i < times; i++, again()) sum += g1_move(&heap, 0, 2, 0).code;
    else if (strcmp(call, "new 2 + 1") == 0) for (long i = 0; i < times; i++, again()) sum += g1_new_object(&heap, 0, 3, 2, 1).code;
    else if (strcmp(call, "make 2 + 1") == 0) {
        g1_policy_start(&policy, &sizes);
        for (long i = 0; i < times; i++, again()) sum += g1_make(&heap, &policy, 0, 3, 2, 0, 1).code;
    } else if (strcmp(call, "new filled 2 + 1") == 0) {
        for (long i = 0; i < times; i++, again()) sum += g1_new_filled(&heap, 0, 3, sources, 2, words_of_it, 1).code;
    } else if (strcmp(call, "make filled 2 + 1") == 0) {
        g1_policy_start(&policy, &sizes);
        for (long i = 0; i < times; i++, again()) sum += g1_make_filled(&heap, &policy, 0, 3, sources, 2, words_of_it, 1).code;
    } else if (strcmp(call, "name") == 0) for (long i = 0; i < times; i++, again()) sum += g1_name(&heap, 0, 0).first;
    else if (strcmp(call, "scope") == 0) for (long i = 0; i < times; i++, again()) sum += g1_scope(&heap, 0, 4).code;
    else if (strcmp(call, "no such register") == 0) for (long i = 0; i < times; i++, again()) sum += g1_get(&heap, 0, 2, 99, 0).code;
    else if (strcmp(call, "nothing") == 0) for (long i = 0; i < times; i++, again()) sum += (uint64_t)i;
    else sum += others(call, times);
    g1_free(&heap);
    return sum == 1;
}
