/* The calls of g1heap.h, each of which also writes its line of a record. recorded_library/build links them with the heap's own calls, which
   are named g1raw_.. there. A g1_heap leads to a box here, with the heap's own g1_heap in it; so heaps don't know of each other. Calls that
   take one step or none are in calls.h, which is made of the header. */
#include <stdatomic.h>
#include <stdio.h>
#include <stdlib.h>
#include <string.h>

#include "g1heap_record.h"

/* A step that a call of the policy took: one of the collector's, counted from 0 in the header's order, with its numbers; or, by the number
   after these, the mutator's own. The library writes as many of the first ones as there is room for, and counts all. */
typedef struct entry {
    uint32_t step, number, second;
    g1_answer answer;
} entry;

typedef struct box {
    g1_heap heap;
    g1_sizes sizes;
    entry *entries; /* for the steps of one call of the policy */
    size_t room;
    g1_line_writer write;
    void *context;
    FILE *file;      /* of the variable, or NULL */
    uint64_t events; /* steps taken */
} box;

enum { LONGEST = 160 };
typedef struct line {
    char bytes[LONGEST];
    size_t length;
} line;

static void put_text(line *to, const char *text)
{
    size_t length = strlen(text);
    memcpy(to->bytes + to->length, text, length);
    to->length += length;
}

static void put_number(line *to, uint64_t number)
{
    char digits[20];
    size_t count = 0;
    do digits[count++] = (char)('0' + number % 10), number /= 10;
    while (number != 0);
    while (count != 0) to->bytes[to->length++] = digits[--count];
}

/* Puts a text, and for each % in it the next of the numbers. */
static void put_form(line *to, const char *form, const uint64_t *numbers)
{
    for (; *form != 0; form++)
        if (*form == '%') put_number(to, *numbers++);
        else to->bytes[to->length++] = *form;
}

/* The reply that an answer stands for. */
static void put_reply(line *to, g1_answer answer)
{
    static const char *const refusals[] = {"1 Nil", "2 NoField", "3 Full", "4 TooBig", "5 NamesSpent", "6 MarkRunning", "7 NotMarking"};
    static const char *const forms[] = {"ok", "nil", "#%", "%", "% %", "marked %", "reclaimed %", "refined %", "moved % %", "ok"};
    uint64_t as_told[] = {answer.first, answer.second}, turned[] = {answer.second, answer.first};
    if (answer.code >= G1_NIL) put_text(to, "refused "), put_text(to, refusals[answer.code - G1_NIL]);
    else put_form(to, forms[answer.code], answer.code == G1_MOVED ? turned : as_told);
}

/* Hands a line over. Where it isn't taken, it is the last. */
static void hand_over(box *in, line *from)
{
    from->bytes[from->length++] = '\n';
    if (in->write(in->context, from->bytes, from->length) != 0) in->write = NULL;
}

static void write_sizes(box *in)
{
    const g1_sizes *of = &in->sizes;
    line sizes = {.length = 0};
    put_form(&sizes, "heap3 % % % % % % % %", (uint64_t[]){of->regions, of->words, of->buffer, of->mutators, of->first_name, of->card,
                                                            of->globals, of->registers});
    hand_over(in, &sizes);
}

static void write_step(box *in, g1_answer answer, const char *form, const uint64_t *numbers)
{
    line step = {.length = 0};
    put_number(&step, in->events);
    put_text(&step, " ");
    put_form(&step, form, numbers);
    put_text(&step, " = ");
    put_reply(&step, answer);
    hand_over(in, &step);
}
/* Counts a step, and writes it with its answer where it is asked for. What named no step is none. */
static inline g1_answer note(box *in, g1_answer answer, const char *form, const uint64_t *numbers)
{
    if (answer.code >= G1_NO_STEP) return answer;
    in->events++;
    if (in->write != NULL) write_step(in, answer, form, numbers);
    return answer;
}

/* Where there is no heap, the heap's own call answers that: it is handed this one. */
static box none;
static box *box_of(const g1_heap *heap) { return heap->live ? (box *)heap->at : &none; }

#include "calls.h"

static int write_file(void *context, const char *bytes, size_t length)
{
    if (fwrite(bytes, 1, length, ((box *)context)->file) == length) return 0;
    fprintf(stderr, "g1heap: a record can't be written\n");
    return 1;
}

/* Opens the file that the variable names, if it names one. */
static void open_file(box *in)
{
    static atomic_uint heaps;
    const char *name = getenv("G1HEAP_RECORD");
    char numbered[4096];
    unsigned number;
    if (name == NULL || *name == 0) return;
    number = atomic_fetch_add(&heaps, 1) + 1;
    snprintf(numbered, sizeof numbered, number == 1 ? "%s" : "%s.%u", name, number);
    in->file = fopen(numbered, "wb");
    if (in->file == NULL) {
        fprintf(stderr, "g1heap: a record can't be written: %s\n", numbered);
        return;
    }
    in->write = write_file, in->context = in;
    write_sizes(in);
}

static void close_file(box *in)
{
    if (in->file != NULL && fclose(in->file) != 0) fprintf(stderr, "g1heap: a record can't be written\n");
    in->file = NULL;
}

uint32_t g1_new(g1_heap *heap, const g1_sizes *sizes)
{
    box *in;
    uint32_t code;
    if (heap->live) return G1_HEAP_LIVE;
    in = (box *)calloc(1, sizeof *in);
    if (in == NULL) return G1_NO_MEMORY;
    code = g1raw_new(&in->heap, sizes);
    if (code != G1_DONE) {
        free(in);
        return code;
    }
    in->room = 5 * (size_t)sizes->regions + 13; /* a call of the policy takes no more steps */
    in->entries = (entry *)calloc(in->room, sizeof *in->entries);
    if (in->entries == NULL) {
        g1raw_free(&in->heap);
        free(in);
        return G1_NO_MEMORY;
    }
    in->sizes = *sizes;
    heap->live = true, heap->at = in;
    open_file(in);
    return G1_DONE;
}

void g1_free(g1_heap *heap)
{
    box *in = (box *)heap->at;
    if (!heap->live) return;
    close_file(in);
    g1raw_free(&in->heap);
    free(in->entries);
    free(in);
    heap->live = false, heap->at = NULL;
}

/* It is no step, so there is no line for it. */
g1_answer g1_give_back(g1_heap *heap)
{
    return g1raw_give_back(&box_of(heap)->heap);
}

uint32_t g1_record(g1_heap *heap, g1_line_writer write, void *context)
{
    box *in = (box *)heap->at;
    if (!heap->live) return G1_NO_HEAP;
    if (in->events != 0 && write != NULL) return G1_NO_STEP;
    close_file(in);
    in->write = write, in->context = context;
    if (write != NULL) write_sizes(in);
    return G1_DONE;
}

/* The steps that fill an object, each of which is done. */
static void note_filling(box *in, uint32_t mutator, uint32_t to, const uint32_t *from, size_t pointers, const uint64_t *words,
                         size_t values)
{
    g1_answer done = {G1_DONE, 0, 0};
    for (size_t i = 0; i < pointers; i++)
        note(in, done, from[i] == G1_NIL_REGISTER ? "% put r% % nil" : "% put r% % r%", (uint64_t[]){mutator, to, i, from[i]});
    for (size_t i = 0; i < values; i++) note(in, done, "% write r% % %", (uint64_t[]){mutator, to, i, words[i]});
}

/* The object's step has the answer. */
g1_answer g1_new_filled(g1_heap *heap, uint32_t mutator, uint32_t to, const uint32_t *from, size_t pointers, const uint64_t *words,
                        size_t values)
{
    box *in = box_of(heap);
    g1_answer made = g1raw_new_filled(&in->heap, mutator, to, from, pointers, words, values);
    note(in, made, "% new r% % %", (uint64_t[]){mutator, to, pointers, values});
    if (made.code == G1_NAME) note_filling(in, mutator, to, from, pointers, words, values);
    return made;
}

/* The object that was loaded is asked for its name, and one without the word refuses to read it. */
g1_answer g1_get_word(g1_heap *heap, uint32_t mutator, uint32_t to, uint32_t object, uint32_t field, uint32_t word)
{
    box *in = box_of(heap);
    g1_answer told = g1raw_get_word(&in->heap, mutator, to, object, field, word), got = told, read = {G1_NO_FIELD, 0, 0};
    if (told.code == G1_WORD) got = g1raw_name(&in->heap, mutator, to), read = told;
    note(in, got, "% get r% r% %", (uint64_t[]){mutator, to, object, field});
    if (got.code == G1_NAME) note(in, read, "% read r% %", (uint64_t[]){mutator, to, word});
    return told;
}

/* The last of so many data words from one on, for whose sake all are refused: no object has more than 32 bits count. */
static uint64_t last_word(uint32_t from, size_t count)
{
    uint64_t last = count == 0 ? 0 : count - 1;
    return last > UINT32_MAX - from ? UINT32_MAX : from + last;
}

/* Each register names what it took: it is asked for its name. */
g1_answer g1_get_many(g1_heap *heap, uint32_t mutator, uint32_t to, uint32_t object, uint32_t field, uint32_t count)
{
    box *in = box_of(heap);
    g1_answer got = g1raw_get_many(&in->heap, mutator, to, object, field, count);
    uint64_t last = count == 0 ? 0 : count - 1;
    if (got.code != G1_DONE) return note(in, got, "% get r% r% %", (uint64_t[]){mutator, to + last, object, last_word(field, count)});
    for (uint32_t i = 0; i < count; i++)
        note(in, g1raw_name(&in->heap, mutator, to + i), "% get r% r% %", (uint64_t[]){mutator, to + i, object, field + i});
    return got;
}

g1_answer g1_put_many(g1_heap *heap, uint32_t mutator, uint32_t object, uint32_t field, uint32_t from, uint32_t count)
{
    box *in = box_of(heap);
    g1_answer put = g1raw_put_many(&in->heap, mutator, object, field, from, count);
    uint64_t last = count == 0 ? 0 : count - 1;
    if (put.code != G1_DONE) return note(in, put, "% put r% % r%", (uint64_t[]){mutator, object, last_word(field, count), from + last});
    for (uint32_t i = 0; i < count; i++) note(in, put, "% put r% % r%", (uint64_t[]){mutator, object, field + i, from + i});
    return put;
}

g1_answer g1_fill(g1_heap *heap, uint32_t mutator, uint32_t object, uint32_t field, uint32_t from, uint32_t count)
{
    box *in = box_of(heap);
    g1_answer put = g1raw_fill(&in->heap, mutator, object, field, from, count);
    const char *form = from == G1_NIL_REGISTER ? "% put r% % nil" : "% put r% % r%";
    if (put.code != G1_DONE) return note(in, put, form, (uint64_t[]){mutator, object, last_word(field, count), from});
    for (uint32_t i = 0; i < count; i++) note(in, put, form, (uint64_t[]){mutator, object, field + i, from});
    return put;
}

g1_answer g1_fill_words(g1_heap *heap, uint32_t mutator, uint32_t object, uint32_t field, uint64_t value, uint32_t count)
{
    box *in = box_of(heap);
    g1_answer wrote = g1raw_fill_words(&in->heap, mutator, object, field, value, count);
    if (wrote.code != G1_DONE) return note(in, wrote, "% write r% % %", (uint64_t[]){mutator, object, last_word(field, count), value});
    for (uint32_t i = 0; i < count; i++) note(in, wrote, "% write r% % %", (uint64_t[]){mutator, object, field + i, value});
    return wrote;
}

g1_answer g1_read_words(g1_heap *heap, uint32_t mutator, uint32_t object, uint32_t from, uint64_t *out, size_t count)
{
    box *in = box_of(heap);
    g1_answer read = g1raw_read_words(&in->heap, mutator, object, from, out, count);
    if (read.code != G1_DONE) return note(in, read, "% read r% %", (uint64_t[]){mutator, object, last_word(from, count)});
    for (size_t i = 0; i < count; i++)
        note(in, (g1_answer){G1_WORD, 0, out[i]}, "% read r% %", (uint64_t[]){mutator, object, from + i});
    return read;
}

g1_answer g1_write_words(g1_heap *heap, uint32_t mutator, uint32_t object, uint32_t from, const uint64_t *words, size_t count)
{
    box *in = box_of(heap);
    g1_answer wrote = g1raw_write_words(&in->heap, mutator, object, from, words, count);
    if (wrote.code != G1_DONE)
        return note(in, wrote, "% write r% % %", (uint64_t[]){mutator, object, last_word(from, count), count == 0 ? 0 : words[count - 1]});
    for (size_t i = 0; i < count; i++) note(in, wrote, "% write r% % %", (uint64_t[]){mutator, object, from + i, words[i]});
    return wrote;
}

/* The number of an entry that is the mutator's own step, which comes after those of the collector's steps. */
enum { OWN_STEP = 10 };
_Static_assert(sizeof collector_forms / sizeof *collector_forms == OWN_STEP, "the heap numbers as many steps of the collector");

/* Notes the steps of the collector that a call of the policy took. Answers whether the mutator's own step was the last. */
static int note_all(box *in, uint32_t count)
{
    for (uint32_t i = 0; i < count && i < in->room; i++) {
        const entry *of = &in->entries[i];
        if (of->step >= OWN_STEP) return 1;
        note(in, of->answer, collector_forms[of->step], (uint64_t[]){of->number, of->second});
    }
    return 0;
}

/* Where an object was refused as Full and the policy says so, its register became nil by a step. */
static g1_answer note_nil(box *in, const g1_policy *policy, g1_answer made, uint32_t mutator, uint32_t to)
{
    g1_answer done = {G1_DONE, 0, 0};
    if (made.code == G1_FULL && policy->nil_on_full != 0) note(in, done, "% drop r%", (uint64_t[]){mutator, to});
    return made;
}

/* An object that is refused as Full without a step of its own has no line. */
g1_answer g1_make(g1_heap *heap, g1_policy *policy, uint32_t mutator, uint32_t to, uint32_t pointers, uint32_t weaks, uint32_t values)
{
    box *in = box_of(heap);
    uint32_t count = 0;
    g1_answer made = g1_make_noted(&in->heap, policy, mutator, to, pointers, weaks, values, in->entries, in->room, &count);
    if (note_all(in, count)) {
        if (weaks == 0) note(in, made, "% new r% % %", (uint64_t[]){mutator, to, pointers, values});
        else note(in, made, "% newweak r% % % %", (uint64_t[]){mutator, to, pointers, weaks, values});
    }
    return note_nil(in, policy, made, mutator, to);
}

g1_answer g1_make_filled(g1_heap *heap, g1_policy *policy, uint32_t mutator, uint32_t to, const uint32_t *from, size_t pointers,
                         const uint64_t *words, size_t values)
{
    box *in = box_of(heap);
    uint32_t count = 0;
    g1_answer made = g1_make_filled_noted(&in->heap, policy, mutator, to, from, pointers, words, values, in->entries, in->room, &count);
    if (note_all(in, count)) note(in, made, "% new r% % %", (uint64_t[]){mutator, to, pointers, values});
    if (made.code == G1_NAME) note_filling(in, mutator, to, from, pointers, words, values);
    return note_nil(in, policy, made, mutator, to);
}

g1_answer g1_collect(g1_heap *heap, g1_policy *policy)
{
    box *in = box_of(heap);
    uint32_t count = 0;
    g1_answer done = g1_collect_noted(&in->heap, policy, in->entries, in->room, &count);
    note_all(in, count);
    return done;
}

g1_answer g1_collect_all(g1_heap *heap, g1_policy *policy)
{
    box *in = box_of(heap);
    uint32_t count = 0;
    g1_answer done = g1_collect_all_noted(&in->heap, policy, in->entries, in->room, &count);
    note_all(in, count);
    return done;
}

g1_answer g1_shrink(g1_heap *heap, g1_policy *policy)
{
    box *in = box_of(heap);
    uint32_t count = 0;
    g1_answer done = g1_shrink_noted(&in->heap, policy, in->entries, in->room, &count);
    note_all(in, count);
    return done;
}
