/* Fills heaps to their last word: a small object at the first word, which names the last object, whose last data word is the heap's. Before
   that it makes an object of the most words.

     last_word [WORDS ..]        of the heaps, by powers of two: 24 and 31 where they are left out

   2^WORDS words take as many bytes as they say, since each is written: 16 GiB for the largest heap, and an eighth more is asked for beside
   it. Where the system has less memory to give the heap is left out, and a line says so. */
#include <g1heap.h>
#include <stdio.h>
#include <stdlib.h>

enum { REGIONS = 2048 };
static int failed;

static void is(const char *what, g1_answer got, uint32_t code, uint64_t first)
{
    if (got.code == code && got.first == first) return;
    printf("%s: code %u, first %llu\n", what, got.code, (unsigned long long)got.first);
    failed++;
}

/* The memory that the system can give, in bytes. Where it doesn't say, none. */
static uint64_t available(void)
{
    char line[256];
    unsigned long long kibibytes = 0;
    FILE *file = fopen("/proc/meminfo", "r");
    if (file == NULL) return 0;
    while (fgets(line, sizeof line, file) != NULL && sscanf(line, "MemAvailable: %llu", &kibibytes) != 1) {}
    fclose(file);
    return (uint64_t)kibibytes * 1024;
}

/* An object of the most words that one has, to its last data word and its last pointer, and one of a word more, for which there is room. */
static void largest(void)
{
    uint32_t most = G1_MAX_OBJECT_WORDS, last = most - 3;
    g1_sizes sizes = {17, most / 8, 8, 1, 0, 512, 0, 2};
    g1_heap heap = G1_HEAP_NONE;
    uint32_t code = g1_new(&heap, &sizes);
    if (code != G1_DONE) {
        printf("g1_new: %u\n", code), failed++;
        return;
    }
    is("one word more", g1_new_object(&heap, 0, 0, 0, most - 1), G1_TOO_BIG, 0);
    is("one word more", g1_new_object(&heap, 0, 0, most - 1, 0), G1_TOO_BIG, 0);
    is("one word more", g1_new_weak(&heap, 0, 0, 1, 1, most - 3), G1_TOO_BIG, 0);
    is("the largest object", g1_new_object(&heap, 0, 0, 0, most - 2), G1_NAME, 0);
    is("its last word", g1_write(&heap, 0, 0, last, UINT64_MAX), G1_DONE, 0);
    is("its last word", g1_read(&heap, 0, 0, last), G1_WORD, UINT64_MAX);
    is("one more", g1_read(&heap, 0, 0, last + 1), G1_NO_FIELD, 0);
    is("drop", g1_drop(&heap, 0, 0), G1_DONE, 0);
    is("begin", g1_begin(&heap), G1_DONE, 0);
    is("remark", g1_remark(&heap), G1_MARKED, 0);
    is("cleanup", g1_cleanup(&heap), G1_RECLAIMED, 8);
    is("the largest object", g1_new_object(&heap, 0, 0, most - 2, 0), G1_NAME, 1);
    is("its last pointer", g1_put(&heap, 0, 0, last, 0), G1_DONE, 0);
    is("its last pointer", g1_get(&heap, 0, 1, 0, last), G1_NAME, 1);
    is("one more", g1_put(&heap, 0, 0, last + 1, 0), G1_NO_FIELD, 0);
    is("free regions", g1_free_regions(&heap), G1_NUMBER, 9);
    g1_free(&heap);
}

/* The words of all regions are those of a small object, which has the first region to itself, and of one object for each other region. */
static void fill(uint32_t log)
{
    uint32_t words = (uint32_t)(((uint64_t)1 << log) / REGIONS), data = words - 3;
    g1_sizes sizes = {REGIONS, words, words / 8 - 1, 1, 0, 512, 1, 3};
    g1_heap heap = G1_HEAP_NONE;
    uint32_t code = g1_new(&heap, &sizes);
    if (code != G1_DONE) {
        printf("g1_new: %u\n", code), failed++;
        return;
    }
    is("new", g1_new_object(&heap, 0, 0, 1, 1), G1_NAME, 0);
    for (uint64_t name = 1; name < REGIONS; name++) {
        is("new", g1_new_object(&heap, 0, 1, 1, data), G1_NAME, name);
        is("put", g1_put(&heap, 0, 1, 0, 0), G1_DONE, 0);
        is("put", g1_put(&heap, 0, 0, 0, 1), G1_DONE, 0);
    }
    is("free regions", g1_free_regions(&heap), G1_NUMBER, 0);
    is("new", g1_new_object(&heap, 0, 2, 0, words - 2), G1_FULL, 0);
    is("the last word", g1_read(&heap, 0, 1, data - 1), G1_WORD, 0);
    is("the last word", g1_write(&heap, 0, 1, data - 1, UINT64_MAX), G1_DONE, 0);
    is("one more", g1_write(&heap, 0, 1, data, 1), G1_NO_FIELD, 0);
    /* The last object alone is kept, by the first one, which a pause moves into a region that was freed. */
    is("drop", g1_drop(&heap, 0, 1), G1_DONE, 0);
    is("begin", g1_begin(&heap), G1_DONE, 0);
    is("remark", g1_remark(&heap), G1_MARKED, 2);
    is("cleanup", g1_cleanup(&heap), G1_RECLAIMED, REGIONS - 2);
    is("pause", g1_pause(&heap, 8), G1_MOVED, 4);
    is("get", g1_get(&heap, 0, 1, 0, 0), G1_NAME, REGIONS - 1);
    is("the last word", g1_read(&heap, 0, 1, data - 1), G1_WORD, UINT64_MAX);
    is("get", g1_get(&heap, 0, 2, 1, 0), G1_NAME, 0);
    is("free regions", g1_free_regions(&heap), G1_NUMBER, REGIONS - 2);
    g1_free(&heap);
}

int main(int count, char **words)
{
    static char *usual[] = {"", "24", "31"};
    if (count == 1) count = 3, words = usual;
    largest();
    for (int i = 1; i < count; i++) {
        uint32_t log = (uint32_t)atoi(words[i]);
        if (log < 21 || log > 31) return 2;
        uint64_t needs = ((uint64_t)9 << log), gives = available();
        if (gives < needs) printf("2^%u words: left out, %llu MiB are asked for and %llu are there\n", log,
                                  (unsigned long long)(needs >> 20), (unsigned long long)(gives >> 20));
        else fill(log), printf("2^%u words: filled to the last one\n", log);
    }
    return failed != 0;
}
