/* Room for large objects, by the policy.

     large_room                       both, in small heaps
     large_room table REGIONS WORDS KEEP
                                      a table that doubles: one object, which is copied into one of twice the size, to where none is made;
                                      each KEEP-th key is an object that is kept
     large_room hash REGIONS WORDS KEEP LEAST
                                      a hash table that doubles where three of four slots are taken, of two pointers and two data words each;
                                      each KEEP-th key is an object, none where that is 0, and the others are numbers: so many entries at least
     large_room random REGIONS WORDS MADE [SEED]
                                      objects of 1 to 8 regions that come and go at random, 60 percent of the words live, and small ones
                                      beside them; each small one is kept for a while
     large_room halves HEAPS MADE [SEED]
                                      so many drawn heaps, in which so many objects of 1 to 20 regions are made and each second is dropped:
                                      then one takes all free regions but two

   Prints what came of it: behind the same header two libraries print the same. The status is 1 where there was no room though there should be. */
#include <g1heap.h>
#include <stdio.h>
#include <stdlib.h>
#include <string.h>

enum { SLOTS = 4096, SMALL = 16, TABLE = 0, LARGER = 1, KEY = 2, TO = 3, FIRST = 8, SLOT = 2 };

static g1_heap heap = G1_HEAP_NONE;
static g1_policy policy;
static g1_sizes sizes;
static uint64_t seed = 1;
static uint32_t regions_of[SLOTS];

static uint32_t draw(uint32_t below)
{
    seed ^= seed << 13, seed ^= seed >> 7, seed ^= seed << 17;
    return (uint32_t)((seed >> 20) % below);
}

static int begin(uint32_t regions, uint32_t words)
{
    sizes = (g1_sizes){regions, words, 16, 1, 0, 8, 16, FIRST + SLOTS};
    if (g1_new(&heap, &sizes) != G1_DONE) return printf("no heap of %u regions of %u words\n", regions, words), 0;
    g1_policy_start(&policy, &sizes);
    return 1;
}

/* The table: pointers to keys, each an object of its own, and as many data words. Between them other small objects come and go. */
static uint32_t table(uint32_t keep)
{
    uint32_t size = 8, count = 0;
    if (g1_make(&heap, &policy, 0, TABLE, size, 0, size).code != G1_NAME) return 0;
    for (;;) {
        if (count == size) {
            if (2 * count + 2 > 16777216 / 2) return count;
            if (g1_make(&heap, &policy, 0, LARGER, 2 * size, 0, 2 * size).code != G1_NAME) return count;
            for (uint32_t i = 0; i < count; i++) {
                if (i % keep == 0) {
                    g1_get(&heap, 0, KEY, TABLE, i);
                    g1_put(&heap, 0, LARGER, i, KEY);
                }
                g1_write(&heap, 0, LARGER, i, g1_read(&heap, 0, TABLE, i).first);
            }
            g1_move(&heap, 0, TABLE, LARGER), g1_drop(&heap, 0, LARGER);
            size *= 2;
        }
        if (g1_make(&heap, &policy, 0, TO, 1, 0, 2).code != G1_NAME) return count;
        if (count % keep == 0) g1_put(&heap, 0, TABLE, count, TO);
        g1_write(&heap, 0, TABLE, count, (uint64_t)count * 7);
        if (g1_read(&heap, 0, TABLE, count / 2).first != (uint64_t)(count / 2) * 7) return printf("a key is lost\n"), 0;
        count++;
    }
}

static int table_in(uint32_t regions, uint32_t words, uint32_t keep)
{
    if (!begin(regions, words)) return 1;
    uint32_t count = table(keep);
    uint64_t old = (2 + 2 * (uint64_t)count + words - 1) / words, next = (2 + 4 * (uint64_t)count + words - 1) / words;
    printf("table: %u entries, %u of %u regions free, %u side by side, the next takes %llu; %llu compactions copied %llu words\n", count,
           (unsigned)g1_free_regions(&heap).first, regions, (unsigned)g1_free_run(&heap).first, (unsigned long long)next,
           (unsigned long long)policy.compactions, (unsigned long long)policy.compacted);
    g1_free(&heap);
    /* Where the old and the new array, two regions and the kept keys, twice as many regions as they fill, are more than all. */
    return next <= 16777216 / words && old + next + 4 + 2 * (5 * (uint64_t)count / keep / words + 1) < regions;
}

/* The table of slots: where a key is, by linear steps. Pointer 2 i is the key where it is an object, pointer 2 i + 1 what it leads to; data
   word 2 i is the key plus 1, 0 in a free slot, and the next what it leads to. */
static uint32_t slot_of(uint32_t table, uint32_t slots, uint64_t key)
{
    uint32_t slot = (uint32_t)(key * 0x9e3779b97f4a7c15u >> 40) & (slots - 1);
    for (;; slot = (slot + 1) & (slots - 1)) {
        uint64_t there = g1_read(&heap, 0, table, SLOT * slot).first;
        if (there == 0 || there == key + 1) return slot;
    }
}
static int is_key(uint64_t key, uint32_t keep) { return keep != 0 && key % keep == 0; }

static uint32_t hash(uint32_t keep)
{
    uint32_t slots = 8, count = 0;
    if (g1_make(&heap, &policy, 0, TABLE, SLOT * slots, 0, SLOT * slots).code != G1_NAME) return 0;
    for (;; count++) {
        if (4 * count == 3 * slots) {
            if (g1_make(&heap, &policy, 0, LARGER, 2 * SLOT * slots, 0, 2 * SLOT * slots).code != G1_NAME) break;
            for (uint32_t old = 0; old < slots; old++) {
                uint64_t there = g1_read(&heap, 0, TABLE, SLOT * old).first;
                if (there == 0) continue;
                uint32_t slot = slot_of(LARGER, 2 * slots, there - 1);
                g1_write(&heap, 0, LARGER, SLOT * slot, there);
                g1_write(&heap, 0, LARGER, SLOT * slot + 1, g1_read(&heap, 0, TABLE, SLOT * old + 1).first);
                for (uint32_t field = 0; is_key(there - 1, keep) && field < SLOT; field++) {
                    g1_get(&heap, 0, KEY, TABLE, SLOT * old + field);
                    g1_put(&heap, 0, LARGER, SLOT * slot + field, KEY);
                }
            }
            g1_move(&heap, 0, TABLE, LARGER), g1_drop(&heap, 0, LARGER), g1_drop(&heap, 0, KEY);
            slots *= 2;
        }
        if (is_key(count, keep)) {
            if (g1_make(&heap, &policy, 0, TO, 1, 0, 2).code != G1_NAME) break;
            g1_write(&heap, 0, TO, 0, count);
        }
        uint32_t slot = slot_of(TABLE, slots, count);
        g1_write(&heap, 0, TABLE, SLOT * slot, (uint64_t)count + 1), g1_write(&heap, 0, TABLE, SLOT * slot + 1, (uint64_t)count * 7);
        if (is_key(count, keep)) g1_put(&heap, 0, TABLE, SLOT * slot, TO);
    }
    for (uint32_t key = 0; key < count; key++) {
        uint32_t slot = slot_of(TABLE, slots, key);
        if (g1_read(&heap, 0, TABLE, SLOT * slot + 1).first != (uint64_t)key * 7) return printf("a key is lost\n"), 0;
        if (is_key(key, keep) && (g1_get(&heap, 0, KEY, TABLE, SLOT * slot), g1_read(&heap, 0, KEY, 0).first != key))
            return printf("a key is another\n"), 0;
    }
    return count;
}

static int hash_in(uint32_t regions, uint32_t words, uint32_t keep, uint32_t least)
{
    if (!begin(regions, words)) return 1;
    uint32_t count = hash(keep);
    printf("hash: %u entries, %u of %u regions free, %u side by side; %llu compactions copied %llu words\n", count,
           (unsigned)g1_free_regions(&heap).first, regions, (unsigned)g1_free_run(&heap).first, (unsigned long long)policy.compactions,
           (unsigned long long)policy.compacted);
    g1_free(&heap);
    return count < least;
}

/* Objects of 1 to 20 regions, the smaller more often, of which each second is dropped. */
static int halves_in(uint32_t heaps, uint32_t most)
{
    uint64_t made = 0, asked = 0, moved = 0, bad = 0;
    for (uint32_t i = 0; i < heaps; i++) {
        uint32_t regions = 1024 + draw(3073), words = 32u << draw(2);
        if (!begin(regions, words)) return 1;
        for (uint32_t at = 0; at < most; at++) {
            uint32_t one = 1 + draw(20), other = 1 + draw(20), take = one < other ? one : other, size = take * words - draw(words / 2 - 1);
            if (g1_make(&heap, &policy, 0, FIRST + at, size / 4, 0, size - 2 - size / 4).code != G1_NAME) break;
            made++;
            if (at % 2 == 0) g1_put(&heap, 0, FIRST + at, 0, FIRST + at);
            if (at >= 2) g1_put(&heap, 0, FIRST + at, 1, FIRST + at - at % 2 - 2);
            if (draw(4) == 0) g1_make(&heap, &policy, 0, TO, 0, 0, 1 + draw(words / 2 - 2));
            if (at % 2 != 0 && draw(8) != 0) g1_drop(&heap, 0, FIRST + at);
        }
        for (uint32_t at = 1; at < most; at += 2) g1_drop(&heap, 0, FIRST + at);
        g1_collect_all(&heap, &policy);
        uint32_t free = (uint32_t)g1_free_regions(&heap).first;
        if (free > 2) {
            asked++;
            if (g1_make(&heap, &policy, 0, KEY, 0, 0, (free - 2) * words - 2).code != G1_NAME)
                bad++, printf("heap %u: no room for %u of %u regions\n", i, free - 2, regions);
        }
        moved += policy.compactions;
        g1_free(&heap);
    }
    printf("halves: %u heaps, %llu large objects made, %llu compactions, %llu times all free regions but two were asked for\n", heaps,
           (unsigned long long)made, (unsigned long long)moved, (unsigned long long)asked);
    return bad != 0;
}

/* Objects at random. The words of large ones that live are at most 60 percent. */
static int random_in(uint32_t regions, uint32_t words, uint32_t times)
{
    uint64_t live = 0, made = 0, full = 0;
    /* A tenth of the heap is for small objects. */
    uint64_t smalls = (uint64_t)regions * words / 10 / (3 + SMALL), most = (uint64_t)regions * 3 / 5;
    if (smalls > SLOTS / 2) smalls = SLOTS / 2;
    if (!begin(regions, words)) return 1;
    memset(regions_of, 0, sizeof regions_of);
    for (uint32_t i = 0; i < times; i++) {
        uint32_t slot = draw(SLOTS / 2), small = SLOTS / 2 + draw((uint32_t)smalls), take = 1 + draw(8);
        live -= regions_of[slot], regions_of[slot] = 0;
        g1_drop(&heap, 0, FIRST + slot);
        while (live + take > most) {
            uint32_t other = draw(SLOTS / 2);
            live -= regions_of[other], regions_of[other] = 0;
            g1_drop(&heap, 0, FIRST + other);
        }
        uint32_t size = take * words - draw(words / 2 - 1);
        if (g1_make(&heap, &policy, 0, FIRST + slot, size / 4, 0, size - 2 - size / 4).code == G1_NAME)
            regions_of[slot] = take, live += take, made += size;
        else full++;
        if (g1_make(&heap, &policy, 0, FIRST + small, 1, 0, SMALL).code == G1_NAME) made += 3 + SMALL;
        else full++;
        if (regions_of[slot] != 0) g1_put(&heap, 0, FIRST + slot, 0, FIRST + small);
        g1_drop(&heap, 0, FIRST + SLOTS / 2 + draw((uint32_t)smalls));
    }
    printf("random: %u large objects, %llu words made, %llu full; %llu pauses copied %llu words, %llu compactions %llu: %llu for 1,000 made\n",
           times, (unsigned long long)made, (unsigned long long)full, (unsigned long long)policy.pauses, (unsigned long long)policy.copied,
           (unsigned long long)policy.compactions, (unsigned long long)policy.compacted,
           (unsigned long long)((policy.copied + policy.compacted) * 1000 / (made + 1)));
    g1_free(&heap);
    return full != 0;
}

int main(int count, char **words)
{
    if (count >= 5 && strcmp(words[1], "table") == 0)
        return table_in((uint32_t)atoi(words[2]), (uint32_t)atoi(words[3]), (uint32_t)atoi(words[4]));
    if (count >= 5 && strcmp(words[1], "random") == 0) {
        if (count >= 6) seed = strtoull(words[5], NULL, 10);
        return random_in((uint32_t)atoi(words[2]), (uint32_t)atoi(words[3]), (uint32_t)atoi(words[4]));
    }
    if (count >= 6 && strcmp(words[1], "hash") == 0)
        return hash_in((uint32_t)atoi(words[2]), (uint32_t)atoi(words[3]), (uint32_t)atoi(words[4]), (uint32_t)atoi(words[5]));
    if (count >= 4 && strcmp(words[1], "halves") == 0) {
        if (count >= 5) seed = strtoull(words[4], NULL, 10);
        return halves_in((uint32_t)atoi(words[2]), (uint32_t)atoi(words[3]));
    }
    int bad = 0;
    for (uint32_t regions = 60; regions <= 300; regions += 24)
        for (uint32_t keep = 1; keep <= 64; keep *= 8) bad |= table_in(regions, 256, keep);
    for (uint32_t regions = 256; regions <= 512; regions *= 2) bad |= random_in(regions, 256, 20000);
    return bad;
}
