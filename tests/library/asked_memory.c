/* What g1_sizes_bytes tells: how many bytes g1_new asks malloc for, of sizes of all kinds, exactly; 0 for sizes that don't suit. And where a
   process may have so much more address space and one percent, and 256 KiB, a heap is made; where it may have that much less, g1_new answers
   G1_NO_MEMORY. It comes before the C library's malloc, and so needs glibc; the limit needs Linux.

     asked_memory         tries that
     asked_memory told    prints what is told of the same sizes */
#define _GNU_SOURCE
#include <errno.h>
#include <g1heap.h>
#include <stdio.h>
#include <stdlib.h>
#include <string.h>
#include <sys/resource.h>
#include <sys/wait.h>
#include <unistd.h>

void *__libc_malloc(size_t bytes);
void *__libc_calloc(size_t count, size_t bytes);
void *__libc_realloc(void *old, size_t bytes);
void *__libc_memalign(size_t alignment, size_t bytes);

/* The bytes that were asked for, and how many pieces were made larger or smaller. */
static uint64_t asked, changed;

void *malloc(size_t bytes) { return asked += bytes, __libc_malloc(bytes); }
void *calloc(size_t count, size_t bytes) { return asked += count * bytes, __libc_calloc(count, bytes); }
void *realloc(void *old, size_t bytes)
{
    if (old == NULL) return malloc(bytes);
    return changed++, __libc_realloc(old, bytes);
}
void *aligned_alloc(size_t alignment, size_t bytes) { return asked += bytes, __libc_memalign(alignment, bytes); }
int posix_memalign(void **to, size_t alignment, size_t bytes)
{
    *to = aligned_alloc(alignment, bytes);
    return *to == NULL ? ENOMEM : 0;
}

static int fails(const char *what, const g1_sizes *s, uint64_t told, uint64_t got)
{
    printf("%s: regions %u, words %u, mutators %u, card %u, globals %u, registers %u: told %llu, asked for %llu\n", what, s->regions, s->words,
           s->mutators, s->card, s->globals, s->registers, (unsigned long long)told, (unsigned long long)got);
    return 1;
}

static int prints;

/* Whether a heap of the sizes asks for as many bytes as are told, which may be printed alone. */
static int is_exact(const g1_sizes *sizes)
{
    g1_heap heap = G1_HEAP_NONE;
    uint64_t told = g1_sizes_bytes(sizes);
    if (prints) return printf("%llu\n", (unsigned long long)told) < 0;
    asked = changed = 0;
    uint32_t code = g1_new(&heap, sizes);
    uint64_t got = asked;
    g1_free(&heap);
    return code == G1_DONE && changed == 0 && got == told ? 0 : fails("not what was told", sizes, told, got);
}

/* The bytes of address space that the process has. */
static uint64_t address_space(void)
{
    unsigned long long pages = 0;
    FILE *file = fopen("/proc/self/statm", "r");
    if (file == NULL || fscanf(file, "%llu", &pages) != 1) pages = 0;
    if (file != NULL) fclose(file);
    return pages * (uint64_t)sysconf(_SC_PAGESIZE);
}

/* What g1_new answers in a process that may have so many bytes more than it has. */
static uint32_t code_within(const g1_sizes *sizes, uint64_t more)
{
    int status = 0;
    pid_t child = fork();
    if (child == 0) {
        g1_heap heap = G1_HEAP_NONE;
        uint64_t most = address_space() + more;
        struct rlimit limit = {most, most};
        _exit(setrlimit(RLIMIT_AS, &limit) == 0 ? (int)g1_new(&heap, sizes) : 255);
    }
    return child > 0 && waitpid(child, &status, 0) == child && WIFEXITED(status) ? (uint32_t)WEXITSTATUS(status) : 255;
}

static int is_enough(const g1_sizes *sizes)
{
    uint64_t told = g1_sizes_bytes(sizes), spare = told / 100 + (256 << 10);
    uint32_t above = code_within(sizes, told + spare), below = code_within(sizes, told - spare);
    if (above != G1_DONE) return fails("a little more isn't enough", sizes, told, above);
    if (below != G1_NO_MEMORY) return fails("less is enough", sizes, told, below);
    return 0;
}

static uint64_t seed = 7;
static uint32_t draw(uint32_t below)
{
    seed ^= seed << 13, seed ^= seed >> 7, seed ^= seed << 17;
    return (uint32_t)((seed >> 20) % below);
}

int main(int count, char **words)
{
    static const g1_sizes some[] = {
        {2, 16, 4, 1, 0, 8, 0, 1}, {3, 16, 4, 64, 0, 16, 5, 7}, {256, 1024, 127, 1, 0, 64, 16, 64}, {255, 512, 63, 2, 0, 8, 0, 9},
        {4096, 64, 8, 3, 0, 8, 65536, 1}, {1024, 8192, 511, 1, 0, 64, 16, 64}, {513, 16384, 511, 9, 0, 512, 64, 65536},
        {2, 4194304, 511, 1, 0, 8, 64, 4096}, {4096, 4096, 511, 1, 0, 64, 64, 4096}, {31, 65536, 511, 64, 0, 128, 0, 16384},
    };
    static const g1_sizes unfit[] = {
        {1, 16, 4, 1, 0, 8, 0, 1}, {2, 17, 4, 1, 0, 8, 0, 1}, {4096, 4194304, 4, 1, 0, 8, 0, 1}, {2, 16, 9, 1, 0, 8, 0, 1},
        {2, 16, 4, 65, 0, 8, 0, 1}, {2, 16, 4, 1, 0, 32, 0, 1}, {2, 16, 4, 1, 0, 8, 65537, 1}, {2, 16, 4, 1, 0, 8, 0, 0},
        {2, 16, 4, 64, 0, 8, 0, 65536},
    };
    int failed = 0;
    prints = count > 1 && strcmp(words[1], "told") == 0;
    /* before any heap, of whose memory the process would keep some */
    for (size_t i = 5; i < sizeof some / sizeof *some && !prints; i++) failed += is_enough(&some[i]);
    for (size_t i = 0; i < sizeof some / sizeof *some; i++) failed += is_exact(&some[i]);
    for (size_t i = 0; i < sizeof unfit / sizeof *unfit; i++)
        if (g1_sizes_bytes(&unfit[i]) != 0) failed += fails("sizes that don't suit", &unfit[i], g1_sizes_bytes(&unfit[i]), 0);
    for (int i = 0; i < 300; i++) {
        uint32_t size = 16u << draw(12), card = 8u << draw(7), mutators = 1 + draw(64);
        g1_sizes drawn = {2 + draw(600), size, 4, mutators, 0, card < size ? card : size, draw(3000), 1 + draw(3000)};
        failed += is_exact(&drawn);
    }
    if (failed == 0 && !prints) puts("a heap asks for as many bytes as is told");
    return failed != 0;
}
