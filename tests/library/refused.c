/* Each request for memory of g1_new refused in turn: it answers G1_NO_MEMORY, leaves no heap, and gives back what it took. The same of
   g1_give_back and of g1_shrink: the heap is as where none is refused, which a second heap tells that takes the same steps. No other call
   asks for memory. It comes before the C library's malloc, and so needs glibc. */
#include <errno.h>
#include <g1heap.h>
#include <stdio.h>

void *__libc_malloc(size_t bytes);
void *__libc_calloc(size_t count, size_t bytes);
void *__libc_realloc(void *old, size_t bytes);
void *__libc_memalign(size_t alignment, size_t bytes);
void __libc_free(void *old);

static long requests, refused, held;

static int refuses(void) { return ++requests == refused; }
static void *held_now(void *got)
{
    held += got != NULL;
    return got;
}
void *malloc(size_t bytes) { return refuses() ? NULL : held_now(__libc_malloc(bytes)); }
void *calloc(size_t count, size_t bytes) { return refuses() ? NULL : held_now(__libc_calloc(count, bytes)); }
void *realloc(void *old, size_t bytes)
{
    if (old == NULL) return malloc(bytes);
    return refuses() ? NULL : __libc_realloc(old, bytes);
}
void *aligned_alloc(size_t alignment, size_t bytes) { return refuses() ? NULL : held_now(__libc_memalign(alignment, bytes)); }
int posix_memalign(void **to, size_t alignment, size_t bytes)
{
    *to = aligned_alloc(alignment, bytes);
    return *to == NULL ? ENOMEM : 0;
}
void free(void *old)
{
    held -= old != NULL;
    __libc_free(old);
}

static const g1_sizes sizes = {64, 64, 16, 3, 0, 8, 5, 7};
enum { REGISTERS = 7 };

static uint64_t noted(uint64_t hash, g1_answer answer)
{
    return ((hash * 31 + answer.code) * 31 + answer.first) * 31 + answer.second;
}

/* Takes so many drawn steps, and the collector's among them. Returns a hash of all answers. */
static uint64_t use(g1_heap *heap, uint64_t seed, int steps)
{
    uint64_t hash = 0;
    for (int i = 0; i < steps; i++) {
        seed ^= seed << 13, seed ^= seed >> 7, seed ^= seed << 17;
        uint32_t drawn = (uint32_t)(seed >> 20), a = drawn % REGISTERS, b = (drawn >> 8) % REGISTERS, field = (drawn >> 16) % 3;
        switch ((drawn >> 20) % 8) {
        case 0: case 1: hash = noted(hash, g1_new_weak(heap, 0, a, 2, 1, (drawn >> 24) % (i % 50 == 0 ? 100 : 4))); break;
        case 2: hash = noted(hash, g1_put(heap, 0, a, field, b)); break;
        case 3: hash = noted(hash, g1_put_weak(heap, 0, a, 0, b)); break;
        case 4: hash = noted(hash, g1_get(heap, 0, a, b, field)); break;
        case 5: hash = noted(hash, g1_write(heap, 0, a, field, seed)); break;
        case 6: hash = noted(hash, g1_read(heap, 0, a, field)); break;
        default: hash = noted(hash, g1_get_weak(heap, 0, a, b, 0));
        }
        if (i % 60 == 59) hash = noted(hash, i % 120 == 59 ? g1_begin(heap) : g1_remark(heap));
        if (i % 240 == 239) hash = noted(noted(hash, g1_cleanup(heap)), g1_pause(heap, 1000));
        if (i % 480 == 479) hash = noted(hash, g1_compact(heap, 64));
        if (i % 960 == 959) hash = noted(hash, g1_drop(heap, 0, b));
    }
    return hash;
}

/* Refuses each request of g1_give_back, or of g1_shrink, in turn, and tells how many there are, or 0 where something is wrong. */
static long give_back_refused(int shrinks)
{
    g1_heap heap = G1_HEAP_NONE, other = G1_HEAP_NONE;
    g1_policy policy, same;
    g1_policy_start(&policy, &sizes), g1_policy_start(&same, &sizes);
    if (g1_new(&heap, &sizes) != G1_DONE || g1_new(&other, &sizes) != G1_DONE) return 0;
    for (long turn = 1;; turn++) {
        uint64_t seed = 77 + (uint64_t)turn;
        long before = held;
        if (use(&heap, seed, 3000) != use(&other, seed, 3000)) return 0;
        requests = 0, refused = turn;
        g1_answer got = shrinks ? g1_shrink(&heap, &policy) : g1_give_back(&heap);
        refused = 0;
        if (shrinks && (g1_shrink(&other, &same).code != G1_DONE || policy.copied != same.copied)) return 0;
        if (held != before || (got.code != G1_DONE && got.code != G1_NO_MEMORY) || (requests < turn && got.code != G1_DONE)) {
            fprintf(stderr, "memory goes back, request %ld refused: code %u, %ld pieces of memory kept\n", turn, got.code, held - before);
            return 0;
        }
        if (requests < turn) {
            g1_free(&heap), g1_free(&other);
            return requests;
        }
    }
}

int main(void)
{
    g1_heap heap = G1_HEAP_NONE;
    long first, made, turn, start = held;
    uint32_t code;
    for (turn = 1;; turn++) {
        long before = held;
        requests = 0, refused = turn;
        code = g1_new(&heap, &sizes);
        made = requests;
        if (code == G1_DONE && made < turn) break;
        if (code != G1_NO_MEMORY || heap.live || held != before) {
            fprintf(stderr, "request %ld refused: code %u, %ld pieces of memory kept\n", turn, code, held - before);
            return 1;
        }
    }
    first = requests, refused = 0;
    for (int i = 0; i < 3000; i++) {
        g1_new_object(&heap, 0, (uint32_t)i % 7, 2, 1), g1_put(&heap, 0, (uint32_t)i % 7, 0, (uint32_t)(i + 1) % 7);
        if (i % 50 == 0) g1_begin(&heap), g1_remark(&heap), g1_cleanup(&heap), g1_pause(&heap, 1000);
    }
    g1_free(&heap);
    if (requests != first || turn < 2) {
        fprintf(stderr, "%ld requests for memory after g1_new, %ld within\n", requests - first, made);
        return 1;
    }
    if (give_back_refused(0) < 2 || give_back_refused(1) < 2 || held != start) {
        fprintf(stderr, "a refused request changed a heap, or %ld pieces of memory are left\n", held - start);
        return 1;
    }
    puts("each request for memory was refused, and told");
    return 0;
}
