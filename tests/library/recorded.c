/* g1_record: the lines that a function of the program gets, where they begin and where they end. */
#include <g1heap_record.h>
#include <stdio.h>
#include <string.h>

static char got[4096];
static size_t left_lines;

static int take(void *context, const char *line, size_t bytes)
{
    size_t *length = (size_t *)context;
    if (left_lines-- == 0) return 1;
    memcpy(got + *length, line, bytes);
    *length += bytes;
    got[*length] = 0;
    return 0;
}

static const char wanted[] =
    "heap3 4 16 8 1 7 8 1 2\n"
    "1 0 new r0 1 1 = #7\n"
    "2 0 newweak r1 0 2 0 = #8\n"
    "3 0 put r0 0 r1 = ok\n"
    "4 0 put r0 0 nil = ok\n"
    "5 0 putweak r1 1 r0 = ok\n"
    "6 0 putweak r1 0 nil = ok\n"
    "7 0 getweak r0 r1 1 = #7\n"
    "8 0 weaks r1 = 2\n"
    "9 0 write r0 0 18446744073709551615 = ok\n"
    "10 0 read r0 0 = 18446744073709551615\n"
    "11 0 read r0 1 = refused 2 NoField\n"
    "12 0 shape r0 = 1 1\n"
    "13 0 write r0 0 7 = ok\n"
    "14 0 write r0 2 8 = refused 2 NoField\n"
    "15 0 read r0 0 = 7\n"
    "16 0 read r0 4294967295 = refused 2 NoField\n"
    "17 0 new r1 2 1 = #9\n"
    "18 0 put r1 0 r0 = ok\n"
    "19 0 put r1 1 nil = ok\n"
    "20 0 write r1 0 9 = ok\n"
    "21 0 new r1 1 60 = refused 3 Full\n"
    "22 0 save g0 r0 = ok\n"
    "23 0 move r1 r0 = ok\n"
    "24 0 drop r0 = ok\n"
    "25 0 get r0 r0 0 = refused 1 Nil\n"
    "26 0 scope r0 = ok\n"
    "27 0 load r1 g0 = #7\n"
    "28 0 get r0 r1 0 = nil\n"
    "29 0 new r0 60 3 = refused 4 TooBig\n"
    "30 0 new r0 40 8 = refused 3 Full\n"
    "31 gc mark 3 = refused 7 NotMarking\n"
    "32 gc begin = ok\n"
    "33 gc begin = refused 6 MarkRunning\n"
    "34 gc mark 1 = ok\n"
    "35 gc remark = marked 1\n"
    "36 gc cleanup = reclaimed 0\n"
    "37 gc refine 2 = refined 0\n"
    "38 gc pause 9 = moved 1 4\n"
    "39 gc compact 9 = moved 1 4\n"
    "40 gc young 9 2 = moved 0 0\n"
    "41 gc pausewithin 9 2 = moved 1 4\n";

static void steps(g1_heap *h)
{
    uint64_t read = 0;
    g1_new_object(h, 0, 0, 1, 1), g1_new_weak(h, 0, 1, 0, 2, 0);
    g1_put(h, 0, 0, 0, 1), g1_put(h, 0, 0, 0, G1_NIL_REGISTER);
    g1_put_weak(h, 0, 1, 1, 0), g1_put_weak(h, 0, 1, 0, G1_NIL_REGISTER), g1_get_weak(h, 0, 0, 1, 1), g1_weaks(h, 0, 1);
    g1_write(h, 0, 0, 0, UINT64_MAX), g1_read(h, 0, 0, 0), g1_read(h, 0, 0, 1), g1_shape(h, 0, 0);
    g1_write_words(h, 0, 0, 0, (uint64_t[]){7}, 1), g1_write_words(h, 0, 0, 0, (uint64_t[]){6, 7, 8}, 3);
    g1_read_words(h, 0, 0, 0, &read, 1), g1_read_words(h, 0, 0, 1, &read, 0), g1_read_words(h, 0, 0, UINT32_MAX, &read, 1);
    g1_new_filled(h, 0, 1, (uint32_t[]){0, G1_NIL_REGISTER}, 2, (uint64_t[]){9}, 1);
    g1_new_filled(h, 0, 1, (uint32_t[]){0}, 1, (uint64_t[60]){0}, 60), g1_new_filled(h, 0, 1, (uint32_t[]){1}, 1, NULL, 0);
    g1_read(h, 0, 9, 0), g1_name(h, 0, 0), g1_free_regions(h);      /* no step has these numbers; readers are no steps */
    g1_save(h, 0, 0, 0), g1_move(h, 0, 1, 0), g1_drop(h, 0, 0), g1_get(h, 0, 0, 0, 0), g1_scope(h, 0, 0);
    g1_load(h, 0, 1, 0), g1_get(h, 0, 0, 1, 0), g1_new_object(h, 0, 0, 60, 3), g1_new_object(h, 0, 0, 40, 8);
    g1_mark(h, 3), g1_begin(h), g1_begin(h), g1_mark(h, 1), g1_remark(h), g1_cleanup(h), g1_refine(h, 2), g1_pause(h, 9), g1_compact(h, 9);
    g1_young(h, 9, 2), g1_pause_within(h, 9, 2);
}

/* What is asked of the policy in a heap with room: no step of the collector is due. */
static const char wanted_of_policy[] =
    "heap3 64 64 16 1 0 8 1 3\n"
    "1 0 new r0 0 1 = #0\n"
    "2 0 new r1 2 1 = #1\n"
    "3 0 put r1 0 r0 = ok\n"
    "4 0 put r1 1 nil = ok\n"
    "5 0 write r1 0 9 = ok\n"
    "6 0 new r2 1 0 = #2\n"
    "7 0 put r2 0 r1 = ok\n";

static int ask(void)
{
    g1_sizes sizes = {64, 64, 16, 1, 0, 8, 1, 3};
    g1_heap heap = G1_HEAP_NONE;
    g1_policy policy;
    size_t length = 0;
    if (g1_new(&heap, &sizes) != G1_DONE) return 1;
    g1_policy_start(&policy, &sizes);
    left_lines = 100;
    g1_record(&heap, take, &length);
    g1_make(&heap, &policy, 0, 0, 0, 0, 1);
    g1_make_filled(&heap, &policy, 0, 1, (uint32_t[]){0, G1_NIL_REGISTER}, 2, (uint64_t[]){9}, 1);
    g1_make_filled(&heap, &policy, 0, 2, (uint32_t[]){1}, 1, NULL, 0);
    g1_make_filled(&heap, &policy, 0, 1, (uint32_t[]){1}, 1, NULL, 0);      /* its own register is no source: no step */
    g1_free(&heap);
    if (strcmp(got, wanted_of_policy) == 0) return 0;
    fprintf(stderr, "the record is\n%s", got);
    return 1;
}

/* Calls that stand for several steps. */
static const char wanted_of_loads[] =
    "heap3 4 16 8 1 0 8 0 3\n"
    "1 0 new r0 1 1 = #0\n"
    "2 0 get r1 r0 0 = nil\n"
    "3 0 put r0 0 r0 = ok\n"
    "4 0 get r1 r0 0 = #0\n"
    "5 0 read r1 0 = 0\n"
    "6 0 get r1 r0 0 = #0\n"
    "7 0 read r1 1 = refused 2 NoField\n"
    "8 0 get r1 r0 1 = refused 2 NoField\n"
    "9 0 get r1 r2 0 = refused 1 Nil\n"
    "10 0 new r2 2 2 = #1\n"
    "11 0 put r2 0 r0 = ok\n"
    "12 0 put r2 1 r1 = ok\n"
    "13 0 get r0 r2 0 = #0\n"
    "14 0 get r1 r2 1 = #0\n"
    "15 0 get r1 r2 2 = refused 2 NoField\n"
    "16 0 put r2 0 nil = ok\n"
    "17 0 put r2 1 nil = ok\n"
    "18 0 put r2 0 r0 = ok\n"
    "19 0 put r2 2 r0 = refused 2 NoField\n"
    "20 0 get r1 r2 0 = #0\n"
    "21 0 get r2 r2 1 = nil\n"
    "22 0 write r0 0 9 = ok\n"
    "23 0 write r0 1 9 = refused 2 NoField\n"
    "24 0 put r2 1 r1 = refused 1 Nil\n";

static int load(void)
{
    g1_sizes sizes = {4, 16, 8, 1, 0, 8, 0, 3};
    g1_heap heap = G1_HEAP_NONE;
    size_t length = 0;
    if (g1_new(&heap, &sizes) != G1_DONE) return 1;
    left_lines = 100;
    g1_record(&heap, take, &length);
    g1_new_object(&heap, 0, 0, 1, 1);
    g1_get_word(&heap, 0, 1, 0, 0, 0), g1_put(&heap, 0, 0, 0, 0), g1_get_word(&heap, 0, 1, 0, 0, 0);
    g1_get_word(&heap, 0, 1, 0, 0, 1), g1_get_word(&heap, 0, 1, 0, 1, 0), g1_get_word(&heap, 0, 1, 2, 0, 0);
    g1_get_word(&heap, 0, 3, 0, 0, 0);      /* no step */
    g1_new_object(&heap, 0, 2, 2, 2), g1_put_many(&heap, 0, 2, 0, 0, 2), g1_get_many(&heap, 0, 0, 2, 0, 2);
    g1_get_many(&heap, 0, 0, 2, 1, 2), g1_fill(&heap, 0, 2, 0, G1_NIL_REGISTER, 2), g1_fill(&heap, 0, 2, 0, 0, 1);
    g1_fill(&heap, 0, 2, 2, 0, 1), g1_get_many(&heap, 0, 1, 2, 0, 2), g1_fill_words(&heap, 0, 0, 0, 9, 1);
    g1_fill_words(&heap, 0, 0, 0, 9, 2), g1_put_many(&heap, 0, 2, 0, 0, 2), g1_get_many(&heap, 0, 1, 0, 0, 3);
    g1_free(&heap);
    if (strcmp(got, wanted_of_loads) == 0) return 0;
    fprintf(stderr, "the record is\n%s", got);
    return 1;
}

/* Objects that live, in registers one after another, until one is refused: the step that makes its register nil is the last line, or is
   in none. */
static int fill(uint32_t nil_on_full)
{
    static const char last[] = " 0 drop r9 = ok\n";
    g1_sizes sizes = {4, 16, 8, 1, 0, 8, 0, 10};
    g1_heap heap = G1_HEAP_NONE;
    g1_policy policy;
    g1_answer made = {G1_NAME, 0, 0};
    size_t length = 0;
    if (g1_new(&heap, &sizes) != G1_DONE) return 1;
    g1_policy_start(&policy, &sizes);
    policy.nil_on_full = nil_on_full;
    left_lines = 100;
    g1_record(&heap, take, &length);
    g1_make(&heap, &policy, 0, 9, 0, 0, 1);
    for (uint32_t to = 0; to < 9 && made.code == G1_NAME; to++) made = g1_make(&heap, &policy, 0, to, 0, 0, 6);
    made = g1_make_filled(&heap, &policy, 0, 9, NULL, 0, (uint64_t[6]){0}, 6);
    if (nil_on_full != 0 && (length < sizeof last || strcmp(got + length + 1 - sizeof last, last) != 0)) made.code = G1_DONE;
    if (nil_on_full == 0 && strstr(got, "drop") != NULL) made.code = G1_DONE;
    g1_free(&heap);
    if (made.code == G1_FULL) return 0;
    fprintf(stderr, "the record is\n%s", got);
    return 1;
}

int main(void)
{
    g1_sizes sizes = {4, 16, 8, 1, 7, 8, 1, 2};
    g1_heap heap = G1_HEAP_NONE, other = G1_HEAP_NONE;
    size_t length = 0, before;
    if (g1_record(&heap, take, &length) != G1_NO_HEAP) return 1;
    if (g1_new(&heap, &sizes) != G1_DONE || g1_new(&other, &sizes) != G1_DONE) return 1;
    left_lines = 42;
    if (g1_record(&heap, take, &length) != G1_DONE) return 1;
    steps(&heap), steps(&other);
    if (strcmp(got, wanted) != 0) {
        fprintf(stderr, "the record is\n%s", got);
        return 1;
    }
    before = length;
    g1_drop(&heap, 0, 0);                                           /* isn't taken, and is the last that is offered */
    left_lines = 9;
    g1_drop(&heap, 0, 0);
    if (length != before || g1_record(&heap, take, &length) != G1_NO_STEP || g1_record(&heap, NULL, NULL) != G1_DONE) return 1;
    if (g1_record(&other, take, &length) != G1_NO_STEP) return 1;
    g1_free(&heap), g1_free(&other);
    if (ask() != 0 || load() != 0 || fill(0) != 0 || fill(1) != 0) return 1;
    puts("each line is as it should be");
    return 0;
}
