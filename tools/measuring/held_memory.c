/* What a process holds, as /proc/self/statm tells, while a program that keeps 50 MB alive goes on, after it had up to 1 GB, and idle.

   Objects of 512 bytes are added to drawn lists, which are dropped by chance, so that some 50 MB of them live. Printed is the most held
   while twice as much as the heap has is made; then what is held when three quarters of the heap, at most 1 GB, live; after all but 50 MB
   of it were dropped and as much again was made; and after that, idle: after g1_shrink.

     cc -O2 -D_DEFAULT_SOURCE -Iinclude tools/measuring/held_memory.c -Llib -lg1heap -o held_memory
     ./held_memory MEBIBYTES

   With -DMEMORY_BOEHM and -lgc the same on Boehm's collector, which may grow to so many mebibytes, and is idle after eight collections: it
   unmaps what was free for six. tools/measuring/held_memory.java is the same in Java. */
#include "../../clients/memory.h"
#include <unistd.h>

enum { LISTS = 1024, NEW = LISTS, BYTES = 512, MEBIBYTE = 1 << 20, GIGABYTE = 1000000000, LIVE = 50 * MEBIBYTE };
static uint64_t seed = 1;

static uint32_t draw(uint32_t below)
{
    seed ^= seed << 13, seed ^= seed >> 7, seed ^= seed << 17;
    return (uint32_t)((seed >> 20) % below);
}
static uint64_t resident(void)
{
    unsigned long long all, held;
    FILE *file = fopen("/proc/self/statm", "r");
    if (file == NULL || fscanf(file, "%llu %llu", &all, &held) != 2) m_die("statm can't be read");
    fclose(file);
    return held * (uint64_t)sysconf(_SC_PAGESIZE);
}
static void add(uint32_t list)
{
    if (!m_new(NEW, 1, BYTES / 8 - 3)) m_die("the heap is full");
    m_put(NEW, 0, list), m_move(list, NEW);
}
static void grow(uint64_t bytes)
{
    for (uint64_t i = 0; i < bytes / BYTES; i++) add(draw(LISTS));
}
/* Makes so many bytes, of which some 50 MB live, in so many lists. Returns the most that is held meanwhile. */
static uint64_t run_on(uint64_t bytes, uint32_t lists)
{
    uint64_t most = 0;
    for (uint64_t i = 0; i < bytes / BYTES; i++) {
        uint32_t list = draw(lists);
        if (draw(LIVE / BYTES / lists) == 0) m_drop(list);
        add(list);
        if (i % 20000 == 0 && resident() > most) most = resident();
    }
    return most;
}
static void idle(void)
{
#ifdef MEMORY_BOEHM
    m_drop(NEW);
    for (int i = 0; i < 8; i++) GC_gcollect();
#else
    m_done(g1_shrink(&m_heap, &m_policy));
#endif
}
int main(int count, char **words)
{
    uint64_t mebibytes = count == 2 ? strtoul(words[1], NULL, 10) : 0, bytes = mebibytes * MEBIBYTE;
    uint64_t filled = bytes / 4 * 3 < GIGABYTE ? bytes / 4 * 3 : GIGABYTE;
    uint32_t lists = (uint32_t)(LISTS * (uint64_t)LIVE / filled);
    if (mebibytes < 128) m_die("held_memory MEBIBYTES: 128 at least");
    m_sizes = (g1_sizes){mebibytes > 1024 ? 2048 : 1024, (uint32_t)mebibytes * (mebibytes > 1024 ? 64 : 128), 511, 1, 0, 64, 0, LISTS + 1};
    m_start();
#ifdef MEMORY_BOEHM
    GC_set_max_heap_size(bytes);
#endif
    printf("%llu MiB: %llu MB while it runs", (unsigned long long)mebibytes, (unsigned long long)run_on(2 * bytes, lists) / 1000000);
    for (uint32_t list = 0; list < LISTS; list++) m_drop(list);
    grow(filled);
    printf(", %llu with %llu MB alive", (unsigned long long)resident() / 1000000, (unsigned long long)filled / 1000000);
    for (uint32_t list = lists; list < LISTS; list++) m_drop(list);
    run_on(filled, lists);
    printf(", %llu after that", (unsigned long long)resident() / 1000000);
    idle();
    printf(", %llu idle\n", (unsigned long long)resident() / 1000000);
    return 0;
}
