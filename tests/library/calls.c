/* Each call of g1heap.h once or more, by answers that include/g1heap.h promises. Two heaps are used side by side. */
#include <g1heap.h>
#include <stdio.h>

static int failed;

/* Whether an answer has this code and these numbers. */
static void is(const char *call, g1_answer got, uint32_t code, uint64_t first, uint32_t second)
{
    if (got.code == code && got.first == first && got.second == second) return;
    printf("%s: code %u, first %llu, second %u\n", call, got.code, (unsigned long long)got.first, got.second);
    failed++;
}
static void is_code(const char *call, uint32_t got, uint32_t code)
{
    if (got == code) return;
    printf("%s: code %u, not %u\n", call, got, code);
    failed++;
}

static void refuse_sizes(void)
{
    static const struct { g1_sizes sizes; uint32_t code; } cases[] = {
        {{1, 16, 4, 1, 0, 8, 0, 1}, G1_BAD_REGIONS}, {{16385, 15, 3, 0, 0, 7, 0, 0}, G1_BAD_REGIONS},
        {{2, 15, 4, 1, 0, 8, 0, 1}, G1_BAD_WORDS}, {{2, 48, 4, 1, 0, 8, 0, 1}, G1_BAD_WORDS},
        {{2, 8388608, 4, 1, 0, 8, 0, 1}, G1_BAD_WORDS}, {{513, 4194304, 4, 1, 0, 512, 0, 1}, G1_BAD_WORDS},
        {{4096, 4194304, 4, 1, 0, 512, 0, 1}, G1_BAD_WORDS}, {{2, 1024, 4, 1, 0, 1024, 0, 1}, G1_BAD_CARD},
        {{2, 256, 4, 1, 0, 512, 0, 1}, G1_BAD_CARD}, {{2, 16, 3, 1, 0, 8, 0, 1}, G1_BAD_BUFFER},
        {{2, 16, 9, 1, 0, 8, 0, 1}, G1_BAD_BUFFER}, {{2, 16, 4, 0, 0, 8, 0, 1}, G1_BAD_MUTATORS},
        {{2, 16, 4, 65, 0, 8, 0, 1}, G1_BAD_MUTATORS}, {{2, 16, 4, 1, 0, 12, 0, 1}, G1_BAD_CARD},
        {{2, 16, 4, 1, 0, 32, 0, 1}, G1_BAD_CARD}, {{2, 16, 4, 1, 0, 8, 65537, 1}, G1_BAD_GLOBALS},
        {{2, 16, 4, 1, 0, 8, 0, 0}, G1_BAD_REGISTERS}, {{2, 16, 4, 64, 0, 8, 0, 65536}, G1_BAD_ROOTS},
        {{G1_MAX_REGIONS + 1, 16, 4, 1, 0, 8, 0, 1}, G1_BAD_REGIONS}, {{2, 2 * G1_MAX_REGION_WORDS, 4, 1, 0, 8, 0, 1}, G1_BAD_WORDS},
        {{2, 16, 4, G1_MAX_MUTATORS + 1, 0, 8, 0, 1}, G1_BAD_MUTATORS}, {{2, 4096, 4, 1, 0, 2 * G1_MAX_CARD, 0, 1}, G1_BAD_CARD},
        {{2, 16, 4, 1, 0, 8, G1_MAX_GLOBALS + 1, 1}, G1_BAD_GLOBALS}, {{2, 16, 4, 1, 0, 8, 0, G1_MAX_REGISTERS + 1}, G1_BAD_REGISTERS},
        {{2, 16, 4, 16, 0, 8, 1, G1_MAX_ROOTS / 16}, G1_BAD_ROOTS},
        {{G1_MAX_WORDS / G1_MAX_REGION_WORDS + 1, G1_MAX_REGION_WORDS, 4, 1, 0, 8, 0, 1}, G1_BAD_WORDS},
    };
    g1_heap heap = G1_HEAP_NONE;
    uint64_t cursor = 3;
    g1_object object = {4, 0, 0, 0, 0};
    g1_holder holder = {5, 0, 0, 0, 0};
    for (size_t i = 0; i < sizeof cases / sizeof *cases; i++) is_code("g1_new", g1_new(&heap, &cases[i].sizes), cases[i].code);
    is("no heap", g1_get(&heap, 0, 0, 0, 0), G1_NO_HEAP, 0, 0);
    is("no heap", g1_pause(&heap, 0), G1_NO_HEAP, 0, 0);
    is("no heap", g1_compact(&heap, 0), G1_NO_HEAP, 0, 0);
    is("no heap", g1_pause_within(&heap, 0, 0), G1_NO_HEAP, 0, 0);
    is("no heap", g1_young(&heap, 0, 0), G1_NO_HEAP, 0, 0);
    is("no heap", g1_clear(&heap, 0), G1_NO_HEAP, 0, 0);
    is("no heap", g1_clearing(&heap), G1_NO_HEAP, 0, 0);
    is("no heap", g1_markings(&heap), G1_NO_HEAP, 0, 0);
    is("no heap", g1_free_regions(&heap), G1_NO_HEAP, 0, 0);
    is("no heap", g1_free_run(&heap), G1_NO_HEAP, 0, 0);
    is("no heap", g1_name(&heap, 0, 0), G1_NO_HEAP, 0, 0);
    is("no heap", g1_give_back(&heap), G1_NO_HEAP, 0, 0);
    is("no heap", g1_shrink(&heap, &(g1_policy){0}), G1_NO_HEAP, 0, 0);
    is("no heap", g1_walk(&heap, &cursor, &object, 1), G1_NO_HEAP, 0, 0);
    is("no heap", g1_who(&heap, 0, &cursor, &holder, 1), G1_NO_HEAP, 0, 0);
    is("no heap", g1_path(&heap, 0, &holder, 1), G1_NO_HEAP, 0, 0);
    if (cursor != 3 || object.name != 4 || holder.name != 5) is_code("no heap", 0, 1);
    g1_free(&heap);
}

static void refuse_numbers(g1_heap *h)
{
    is("mutator", g1_new_object(h, 2, 0, 1, 1), G1_NO_STEP, 0, 0);
    is("register", g1_new_object(h, 0, 4, 1, 1), G1_NO_STEP, 0, 0);
    is("weaks", g1_new_weak(h, 0, 0, 1, G1_MAX_WEAKS + 1, 1), G1_NO_STEP, 0, 0);
    is("register", g1_get(h, 0, 4, 0, 0), G1_NO_STEP, 0, 0);
    is("register", g1_get(h, 0, 0, UINT32_MAX, 0), G1_NO_STEP, 0, 0);
    is("register", g1_put(h, 0, 0, 0, 4), G1_NO_STEP, 0, 0);
    is("register", g1_put(h, 0, G1_NIL_REGISTER, 0, 0), G1_NO_STEP, 0, 0);
    is("register", g1_move(h, 0, 0, G1_NIL_REGISTER), G1_NO_STEP, 0, 0);
    is("global", g1_load(h, 0, 0, 3), G1_NO_STEP, 0, 0);
    is("global", g1_save(h, 0, 3, 0), G1_NO_STEP, 0, 0);
    is("register", g1_save(h, 0, 0, G1_NIL_REGISTER), G1_NO_STEP, 0, 0);
    is("register", g1_scope(h, 0, 4), G1_NO_STEP, 0, 0);
    is("register", g1_name(h, 0, 4), G1_NO_STEP, 0, 0);
    is("mutator", g1_name(h, 2, 0), G1_NO_STEP, 0, 0);
    is("too big", g1_new_object(h, 0, 0, UINT32_MAX, UINT32_MAX), G1_TOO_BIG, 0, 0);
    is("too big", g1_new_object(h, 0, 0, 63, 0), G1_TOO_BIG, 0, 0);
}

static void steps(g1_heap *h, uint64_t name)
{
    is("new", g1_new_object(h, 0, 0, 1, 1), G1_NAME, name, 0);
    is("newweak", g1_new_weak(h, 0, 1, 1, 2, 0), G1_NAME, name + 1, 0);
    is("read", g1_read(h, 0, 0, 0), G1_WORD, 0, 0);
    is("write", g1_write(h, 0, 0, 0, UINT64_MAX), G1_DONE, 0, 0);
    is("read", g1_read(h, 0, 0, 0), G1_WORD, UINT64_MAX, 0);
    is("read", g1_read(h, 0, 0, 1), G1_NO_FIELD, 0, 0);
    is("read", g1_read(h, 0, 2, 0), G1_NIL, 0, 0);
    is("get", g1_get(h, 0, 2, 0, 0), G1_NIL_VALUE, 0, 0);
    is("put", g1_put(h, 0, 0, 0, 1), G1_DONE, 0, 0);
    is("get", g1_get(h, 0, 2, 0, 0), G1_NAME, name + 1, 0);
    is("name", g1_name(h, 0, 2), G1_NAME, name + 1, 0);
    is("name", g1_name(h, 0, 3), G1_NIL_VALUE, 0, 0);
    is("putweak", g1_put_weak(h, 0, 1, 1, 0), G1_DONE, 0, 0);
    is("getweak", g1_get_weak(h, 0, 3, 2, 1), G1_NAME, name, 0);
    is("getweak", g1_get_weak(h, 0, 3, 2, 0), G1_NIL_VALUE, 0, 0);
    is("weaks", g1_weaks(h, 0, 1), G1_WORD, 2, 0);
    is("shape", g1_shape(h, 0, 0), G1_SHAPE, 1, 1);
    is("save", g1_save(h, 0, 2, 0), G1_DONE, 0, 0);
    is("load", g1_load(h, 1, 3, 2), G1_NAME, name, 0);
    is("load", g1_load(h, 1, 3, 1), G1_NIL_VALUE, 0, 0);
    is("move", g1_move(h, 0, 3, 1), G1_DONE, 0, 0);
    is("drop", g1_drop(h, 0, 1), G1_DONE, 0, 0);
    is("scope", g1_scope(h, 0, 1), G1_DONE, 0, 0);
    is("name", g1_name(h, 0, 3), G1_NIL_VALUE, 0, 0);
    is("name", g1_name(h, 0, 0), G1_NAME, name, 0);
}

/* A pointer with a data word of what it leads to: an object of 1 pointer and 1 data word leads to itself, to one without words, to nil. */
static void loads(g1_heap *h)
{
    uint64_t name = g1_new_object(h, 1, 0, 1, 1).first;
    g1_new_object(h, 1, 1, 0, 0), g1_write(h, 1, 0, 0, UINT64_MAX);
    is("get_word", g1_get_word(h, 1, 2, 0, 0, 0), G1_NIL_VALUE, 0, 0);
    is("name", g1_name(h, 1, 2), G1_NIL_VALUE, 0, 0);
    g1_put(h, 1, 0, 0, 0);
    is("get_word", g1_get_word(h, 1, 2, 0, 0, 0), G1_WORD, UINT64_MAX, 0);
    is("name", g1_name(h, 1, 2), G1_NAME, name, 0);
    is("get_word", g1_get_word(h, 1, 2, 0, 0, 1), G1_NAME, name, 0);
    is("get_word", g1_get_word(h, 1, 2, 0, 1, 0), G1_NO_FIELD, 0, 0);
    is("get_word", g1_get_word(h, 1, 2, 3, 0, 0), G1_NIL, 0, 0);
    is("name", g1_name(h, 1, 2), G1_NAME, name, 0);
    is("get_word", g1_get_word(h, 1, 4, 0, 0, 0), G1_NO_STEP, 0, 0);
    is("get_word", g1_get_word(h, 1, 0, 4, 0, 0), G1_NO_STEP, 0, 0);
    is("get_word", g1_get_word(h, 2, 2, 0, 0, 0), G1_NO_STEP, 0, 0);
    g1_put(h, 1, 0, 0, 1);
    is("get_word", g1_get_word(h, 1, 0, 0, 0, 0), G1_NAME, name + 1, 0);    /* the register of the object takes what it leads to */
    is("name", g1_name(h, 1, 0), G1_NAME, name + 1, 0);
    g1_scope(h, 1, 0);
}

/* What registers from one on name. */
static void are(const char *call, g1_heap *h, uint32_t first, const g1_answer *names, uint32_t count)
{
    for (uint32_t i = 0; i < count; i++) is(call, g1_name(h, 1, first + i), names[i].code, names[i].first, 0);
}

/* Several fields at once: all or none. Register 0 names an object of 3 pointers and 2 data words. */
static void several(g1_heap *h)
{
    uint64_t name = g1_new_object(h, 1, 0, 3, 2).first;
    g1_answer nil = {G1_NIL_VALUE, 0, 0}, one = {G1_NAME, 0, name + 1}, other = {G1_NAME, 0, name + 2};
    g1_new_object(h, 1, 1, 0, 0), g1_new_object(h, 1, 2, 0, 0);
    is("put_many", g1_put_many(h, 1, 0, 1, 1, 2), G1_DONE, 0, 0);
    is("get_many", g1_get_many(h, 1, 1, 0, 0, 3), G1_DONE, 0, 0);
    are("get_many", h, 1, (g1_answer[]){nil, one, other}, 3);
    is("get_many", g1_get_many(h, 1, 2, 0, 0, 3), G1_NO_STEP, 0, 0);
    is("get_many", g1_get_many(h, 1, 0, 0, 0, 2), G1_NO_STEP, 0, 0);        /* the object's own register, before the last */
    is("get_many", g1_get_many(h, 1, 1, 0, 1, 3), G1_NO_FIELD, 0, 0);
    is("put_many", g1_put_many(h, 1, 0, 1, 1, 3), G1_NO_FIELD, 0, 0);
    is("put_many", g1_put_many(h, 1, 0, 0, 2, 3), G1_NO_STEP, 0, 0);
    is("put_many", g1_put_many(h, 2, 0, 0, 1, 1), G1_NO_STEP, 0, 0);
    are("get_many", h, 1, (g1_answer[]){nil, one, other}, 3);
    is("fill", g1_fill(h, 1, 0, 0, 3, 2), G1_DONE, 0, 0);
    g1_get_many(h, 1, 1, 0, 0, 3), are("fill", h, 1, (g1_answer[]){other, other, other}, 3);
    is("fill", g1_fill(h, 1, 0, 1, G1_NIL_REGISTER, 2), G1_DONE, 0, 0);
    is("fill", g1_fill(h, 1, 0, 1, 1, 3), G1_NO_FIELD, 0, 0);
    is("fill", g1_fill(h, 1, 0, 0, 4, 1), G1_NO_STEP, 0, 0);
    g1_get_many(h, 1, 1, 0, 0, 3), are("fill", h, 1, (g1_answer[]){other, nil, nil}, 3);
    is("fill", g1_fill(h, 1, 2, 0, 1, 1), G1_NIL, 0, 0);
    is("get_many", g1_get_many(h, 1, 1, 2, 0, 1), G1_NIL, 0, 0);
    is("fill_words", g1_fill_words(h, 1, 0, 0, UINT64_MAX, 2), G1_DONE, 0, 0);
    is("fill_words", g1_fill_words(h, 1, 0, 1, 8, 2), G1_NO_FIELD, 0, 0);
    is("fill_words", g1_fill_words(h, 1, 0, UINT32_MAX, 8, 2), G1_NO_FIELD, 0, 0);
    is("fill_words", g1_fill_words(h, 1, 0, 2, 8, 0), G1_DONE, 0, 0);
    is("fill_words", g1_fill_words(h, 1, 0, 3, 8, 0), G1_NO_FIELD, 0, 0);
    is("fill_words", g1_fill_words(h, 1, 3, 0, 8, 0), G1_NIL, 0, 0);
    is("read", g1_read(h, 1, 0, 0), G1_WORD, UINT64_MAX, 0);
    is("read", g1_read(h, 1, 0, 1), G1_WORD, UINT64_MAX, 0);
    is("get_many", g1_get_many(h, 1, 4, 0, 0, 0), G1_NO_STEP, 0, 0);
    g1_begin(h), g1_move(h, 1, 3, 0);
    is("get_many", g1_get_many(h, 1, 2, 3, 0, 2), G1_DONE, 0, 0);           /* the object's own register is the last */
    are("get_many", h, 2, (g1_answer[]){other, nil}, 2);
    is("put_many", g1_put_many(h, 1, 0, 0, 0, 3), G1_DONE, 0, 0);           /* while marking runs */
    is("get", g1_get(h, 1, 3, 0, 0), G1_NAME, name, 0);
    g1_remark(h), g1_scope(h, 1, 0);
}

/* Several data words at once: all or none, and a buffer beside which nothing is read or written. */
static void words(g1_heap *h)
{
    uint64_t in[] = {7, 8, 9, 10}, out[] = {1, 2, 3, 4, 5};
    g1_new_weak(h, 1, 0, 1, 1, 3);
    is("write_words", g1_write_words(h, 1, 0, 0, in, 3), G1_DONE, 0, 0);
    is("read_words", g1_read_words(h, 1, 0, 1, out + 1, 2), G1_DONE, 0, 0);
    is_code("read_words", out[0] == 1 && out[1] == 8 && out[2] == 9 && out[3] == 4, 1);
    is("write_words", g1_write_words(h, 1, 0, 1, in, 3), G1_NO_FIELD, 0, 0);
    is("read", g1_read(h, 1, 0, 1), G1_WORD, 8, 0);
    is("read_words", g1_read_words(h, 1, 0, 0, out, 4), G1_NO_FIELD, 0, 0);
    is("read_words", g1_read_words(h, 1, 0, UINT32_MAX, out, 2), G1_NO_FIELD, 0, 0);
    is_code("read_words", out[0] == 1 && out[1] == 8, 1);
    is("read_words", g1_read_words(h, 1, 0, 3, out, 0), G1_DONE, 0, 0);
    is("write_words", g1_write_words(h, 1, 0, 4, in, 0), G1_NO_FIELD, 0, 0);
    is("read_words", g1_read_words(h, 1, 1, 0, out, 1), G1_NIL, 0, 0);
    is("write_words", g1_write_words(h, 1, 1, 0, in, 1), G1_NIL, 0, 0);
    is("read_words", g1_read_words(h, 1, 4, 0, out, 1), G1_NO_STEP, 0, 0);
    is("write_words", g1_write_words(h, 2, 0, 0, in, 1), G1_NO_STEP, 0, 0);
    g1_drop(h, 1, 0);
}

/* A new object with its fields. */
static void filled(g1_heap *h)
{
    uint32_t from[] = {1, G1_NIL_REGISTER, 1}, itself[] = {1, 0}, none[] = {G1_NIL_REGISTER, 4};
    uint64_t in[] = {7, UINT64_MAX}, name = g1_new_object(h, 1, 1, 0, 0).first;
    is("new_filled", g1_new_filled(h, 1, 0, from, 3, in, 2), G1_NAME, name + 1, 0);
    is("shape", g1_shape(h, 1, 0), G1_SHAPE, 3, 2);
    is("get", g1_get(h, 1, 2, 0, 0), G1_NAME, name, 0);
    is("get", g1_get(h, 1, 2, 0, 1), G1_NIL_VALUE, 0, 0);
    is("get", g1_get(h, 1, 2, 0, 2), G1_NAME, name, 0);
    is("read", g1_read(h, 1, 0, 0), G1_WORD, 7, 0);
    is("read", g1_read(h, 1, 0, 1), G1_WORD, UINT64_MAX, 0);
    is("new_filled", g1_new_filled(h, 1, 0, itself, 2, in, 2), G1_NO_STEP, 0, 0);
    is("new_filled", g1_new_filled(h, 1, 0, none, 2, in, 0), G1_NO_STEP, 0, 0);
    is("new_filled", g1_new_filled(h, 1, 4, from, 1, in, 0), G1_NO_STEP, 0, 0);
    is("new_filled", g1_new_filled(h, 2, 0, from, 1, in, 0), G1_NO_STEP, 0, 0);
    is("name", g1_name(h, 1, 0), G1_NAME, name + 1, 0);
    is("new_filled", g1_new_filled(h, 1, 2, from, 0, in, 0), G1_NAME, name + 2, 0);
    g1_scope(h, 1, 0);
}

/* A filled object with the next name, whose fields are what its sources name and its words. Register 3 is none of the sources. */
static void fills(g1_heap *h, uint32_t to, const uint32_t *from, uint32_t pointers, uint32_t values, uint64_t name)
{
    const uint64_t in[] = {7, UINT64_MAX, 9, 10, 11, 12, 13};
    g1_answer named[4];
    for (uint32_t i = 0; i < pointers; i++)
        named[i] = from[i] == G1_NIL_REGISTER ? (g1_answer){G1_NIL_VALUE, 0, 0} : g1_name(h, 1, from[i]);
    is("new_filled", g1_new_filled(h, 1, to, from, pointers, in, values), G1_NAME, name, 0);
    is("shape", g1_shape(h, 1, to), G1_SHAPE, pointers, values);
    for (uint32_t i = 0; i < pointers; i++) is("get", g1_get(h, 1, 3, to, i), named[i].code, named[i].first, 0);
    for (uint32_t i = 0; i < values; i++) is("read", g1_read(h, 1, to, i), G1_WORD, in[i], 0);
}

/* Filled objects in all places, of all kinds of sources, and while marking runs: a new heap has 4 regions of 16 words and buffers of 8. In
   brackets are the words that are left of the buffer. */
static void filled_everywhere(g1_heap *h)
{
    const uint32_t first[] = {0, G1_NIL_REGISTER}, both[] = {0, 1, 2};
    g1_new_object(h, 1, 0, 0, 0);                               /* [6] */
    fills(h, 1, first, 1, 0, 1);                                /* [3] in the buffer */
    fills(h, 2, first, 1, 0, 2);                                /* [0] its words are all that the buffer has */
    fills(h, 1, first, 2, 2, 3);                                /* [2] a buffer of its own, in the same region */
    fills(h, 2, both, 2, 0, 4);                                 /* [4] in another region than its sources */
    g1_drop(h, 1, 0);
    fills(h, 2, both + 1, 1, 0, 5);                             /* [1] a register that holds nil */
    is("begin", g1_begin(h), G1_DONE, 0, 0);
    fills(h, 0, both + 1, 2, 1, 6);                             /* [3] while marking runs */
    fills(h, 1, first, 1, 7, 7);                                /* larger than half a region */
    g1_scope(h, 1, 0);
}

/* The same by the policy. */
static void made_filled(g1_heap *h, const g1_sizes *sizes)
{
    uint32_t from[] = {1, G1_NIL_REGISTER}, itself[] = {1, 0}, none[] = {4};
    uint64_t in[] = {7, UINT64_MAX}, name = g1_new_object(h, 1, 1, 0, 0).first;
    g1_policy policy;
    g1_policy_start(&policy, sizes);
    is("make_filled", g1_make_filled(h, &policy, 1, 0, from, 2, in, 2), G1_NAME, name + 1, 0);
    is("shape", g1_shape(h, 1, 0), G1_SHAPE, 2, 2);
    is("get", g1_get(h, 1, 2, 0, 0), G1_NAME, name, 0);
    is("get", g1_get(h, 1, 2, 0, 1), G1_NIL_VALUE, 0, 0);
    is("read", g1_read(h, 1, 0, 0), G1_WORD, 7, 0);
    is("read", g1_read(h, 1, 0, 1), G1_WORD, UINT64_MAX, 0);
    is("make_filled", g1_make_filled(h, &policy, 1, 0, itself, 2, in, 2), G1_NO_STEP, 0, 0);
    is("make_filled", g1_make_filled(h, &policy, 1, 0, none, 1, in, 0), G1_NO_STEP, 0, 0);
    is("make_filled", g1_make_filled(h, &policy, 1, 4, from, 1, in, 0), G1_NO_STEP, 0, 0);
    is("make_filled", g1_make_filled(h, &policy, 2, 0, from, 1, in, 0), G1_NO_STEP, 0, 0);
    is("shrink", g1_shrink(h, &policy), G1_DONE, 0, 0);
    is("name", g1_name(h, 1, 0), G1_NAME, name + 1, 0);
    g1_scope(h, 1, 0);
}

/* The heap has 4 regions of 16 words and buffers of 8. Two objects are in it, of 4 and of 5 words: each has a buffer, in one region. */
static void collect(g1_heap *h, uint64_t name)
{
    is("free regions", g1_free_regions(h), G1_NUMBER, 3, 0);
    is("free run", g1_free_run(h), G1_NUMBER, 3, 0);
    is("used words", g1_used_words(h), G1_NUMBER, 16, 0);
    is("live words", g1_live_words(h), G1_NUMBER, 16, 0);
    is("mark", g1_mark(h, 1), G1_NOT_MARKING, 0, 0);
    is("remark", g1_remark(h), G1_NOT_MARKING, 0, 0);
    is("markings", g1_markings(h), G1_NUMBER, 0, 0);
    is("begin", g1_begin(h), G1_DONE, 0, 0);
    is("begin", g1_begin(h), G1_MARK_RUNNING, 0, 0);
    is("cleanup", g1_cleanup(h), G1_MARK_RUNNING, 0, 0);
    is("marking", g1_marking(h), G1_NUMBER, 1, 0);
    is("grey", g1_grey(h), G1_NUMBER, 1, 0);
    is("mark", g1_mark(h, 1), G1_SCANNED, 0, 0); /* a root that waits is a word */
    is("grey", g1_grey(h), G1_NUMBER, 1, 0);
    is("mark", g1_mark(h, 2), G1_SCANNED, 0, 0); /* another root, and an object of one pointer, which is scanned in part */
    is("mark", g1_mark(h, 2), G1_SCANNED, 1, 0); /* its pointer, and the other object of one in part */
    is("grey", g1_grey(h), G1_NUMBER, 1, 0);
    is("mark", g1_mark(h, 99), G1_SCANNED, 1, 0);
    is("grey", g1_grey(h), G1_NUMBER, 0, 0);
    is("markings", g1_markings(h), G1_NUMBER, 0, 0);
    is("remark", g1_remark(h), G1_MARKED, 2, 0);
    is("markings", g1_markings(h), G1_NUMBER, 1, 0);
    is("marking", g1_marking(h), G1_NUMBER, 0, 0);
    is("live words", g1_live_words(h), G1_NUMBER, 9, 0);
    is("cleanup", g1_cleanup(h), G1_RECLAIMED, 0, 0);
    is("queued", g1_queued(h), G1_NUMBER, 0, 0);
    is("give back", g1_give_back(h), G1_DONE, 0, 0);
    is("refine", g1_refine(h, 5), G1_REFINED, 0, 0);
    is("pause", g1_pause(h, 16), G1_MOVED, 9, 1);
    is("free run", g1_free_run(h), G1_NUMBER, 2, 0);
    is("compact", g1_compact(h, 8), G1_MOVED, 0, 0);
    is("compact", g1_compact(h, 16), G1_MOVED, 9, 1);
    is("free run", g1_free_run(h), G1_NUMBER, 3, 0);
    is("compact", g1_compact(h, 16), G1_MOVED, 0, 0);
    is("young", g1_young(h, 16, UINT32_MAX), G1_MOVED, 0, 0);
    is("clear", g1_clear(h, 16), G1_DONE, 0, 0);
    is("clearing", g1_clearing(h), G1_NUMBER, 0, 0);
    is("pausewithin", g1_pause_within(h, 8, UINT32_MAX), G1_MOVED, 0, 0);
    is("pausewithin", g1_pause_within(h, 16, 0), G1_MOVED, 9, 1);
    is("free regions", g1_free_regions(h), G1_NUMBER, 3, 0);
    is("used words", g1_used_words(h), G1_NUMBER, 9, 0);
    is("read", g1_read(h, 0, 0, 0), G1_WORD, UINT64_MAX, 0);
    is("new", g1_new_object(h, 0, 1, 24, 6), G1_NAME, name + 2, 0);
    is("new", g1_new_object(h, 0, 2, 16, 0), G1_FULL, 0, 0);
    is("globals", g1_globals(h), G1_NUMBER, 3, 0);
    is("registers", g1_registers(h), G1_NUMBER, 4, 0);
}

/* Pauses within cards and young ones: a new heap has 4 regions of 16 words and buffers of 8. */
static void within_cards(g1_heap *h)
{
    g1_new_object(h, 0, 0, 1, 5), g1_new_object(h, 0, 1, 1, 5);   /* they fill a region */
    g1_new_object(h, 0, 2, 1, 5);
    g1_put(h, 0, 0, 0, 2);                                        /* a card leads into the other region */
    is("young", g1_young(h, 15, UINT32_MAX), G1_MOVED, 0, 0);     /* the oldest has 16 words */
    is("young", g1_young(h, 16, 0), G1_MOVED, 16, 1);
    is("young", g1_young(h, 16, 0), G1_MOVED, 0, 0);
    is("young", g1_young(h, 16, 1), G1_MOVED, 8, 1);
    is("young", g1_young(h, UINT32_MAX, UINT32_MAX), G1_MOVED, 0, 0);
    is("pausewithin", g1_pause_within(h, UINT32_MAX, 0), G1_MOVED, 0, 0);
    is("pausewithin", g1_pause_within(h, 7, 1), G1_MOVED, 0, 0);
    is("pausewithin", g1_pause_within(h, 8, 1), G1_MOVED, 8, 1);
    is("get", g1_get(h, 0, 3, 0, 0), G1_NAME, g1_name(h, 0, 2).first, 0);
}

int main(void)
{
    is_code("version", g1_version(), G1_VERSION_MAJOR * 65536 + G1_VERSION_MINOR * 256 + G1_VERSION_PATCH);
    g1_sizes sizes = {4, 16, 8, 2, 0, 8, 3, 4};
    g1_heap one = G1_HEAP_NONE, other = G1_HEAP_NONE;
    refuse_sizes();
    is_code("g1_new", g1_new(&one, &sizes), G1_DONE);
    is_code("g1_new", g1_new(&one, &sizes), G1_HEAP_LIVE);
    sizes.first_name = UINT64_MAX - 4;
    is_code("g1_new", g1_new(&other, &sizes), G1_DONE);
    refuse_numbers(&one);
    steps(&one, 0), steps(&other, UINT64_MAX - 4);
    collect(&other, UINT64_MAX - 4), collect(&one, 0);
    is("new", g1_new_object(&other, 1, 0, 0, 0), G1_NAME, UINT64_MAX - 1, 0);
    is("names spent", g1_new_object(&other, 1, 1, 0, 0), G1_NAMES_SPENT, 0, 0);
    g1_free(&one);
    is("no heap", g1_read(&one, 0, 0, 0), G1_NO_HEAP, 0, 0);
    is("no heap", g1_read_words(&one, 0, 0, 0, &sizes.first_name, 1), G1_NO_HEAP, 0, 0);
    is("no heap", g1_new_filled(&one, 0, 0, NULL, 0, NULL, 0), G1_NO_HEAP, 0, 0);
    is("no heap", g1_make_filled(&one, &(g1_policy){0}, 0, 0, NULL, 0, NULL, 0), G1_NO_HEAP, 0, 0);
    is("no heap", g1_write_words(&one, 0, 0, 0, &sizes.first_name, 1), G1_NO_HEAP, 0, 0);
    is("no heap", g1_get_word(&one, 0, 0, 0, 0, 0), G1_NO_HEAP, 0, 0);
    is("no heap", g1_get_many(&one, 0, 0, 0, 0, 1), G1_NO_HEAP, 0, 0);
    is("no heap", g1_put_many(&one, 0, 0, 0, 0, 1), G1_NO_HEAP, 0, 0);
    is("no heap", g1_fill(&one, 0, 0, 0, 0, 1), G1_NO_HEAP, 0, 0);
    is("no heap", g1_fill_words(&one, 0, 0, 0, 0, 1), G1_NO_HEAP, 0, 0);
    is("the other heap", g1_read(&other, 0, 0, 0), G1_WORD, UINT64_MAX, 0);
    is_code("g1_new", g1_new(&one, &sizes), G1_DONE);
    sizes.first_name = 0, g1_free(&one), g1_new(&one, &sizes);
    words(&one), loads(&one), filled(&one), made_filled(&one, &sizes);
    g1_free(&one), g1_new(&one, &sizes), several(&one);
    g1_free(&one), g1_new(&one, &sizes), filled_everywhere(&one);
    g1_free(&one), g1_new(&one, &sizes), within_cards(&one);
    g1_free(&one), g1_free(&one), g1_free(&other);
    if (failed == 0) puts("all calls answered as the header has it");
    return failed != 0;
}
