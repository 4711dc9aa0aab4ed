/* Random calls on heaps of random sizes, one number in sixteen out of any range. Prints a hash of all answers, and how many of each code
   there were: behind the same header two libraries print the same.

     random_calls [HEAPS [CALLS]]      400 heaps and 5,000 calls on each where they are left out */
#include <g1heap.h>
#include <stdio.h>
#include <stdlib.h>

static uint64_t seed = 88172645463325252u, hash = 14695981039346656037u, codes[64];

static uint32_t draw(void)
{
    seed ^= seed << 13, seed ^= seed >> 7, seed ^= seed << 17;
    return (uint32_t)(seed >> 16);
}
/* A number below a bound, or sometimes any. */
static uint32_t below(uint32_t bound) { return draw() % 16 == 0 ? draw() >> draw() % 32 : bound == 0 ? 0 : draw() % bound; }
static uint32_t within(uint32_t bound) { return draw() % bound; }

static void note(uint64_t number) { hash = (hash ^ number) * 1099511628211u; }
static void note_answer(g1_answer answer)
{
    note(answer.code), note(answer.first), note(answer.second);
    codes[answer.code < 64 ? answer.code : 63]++;
}

static g1_policy policy;
static bool by_policy;

/* A policy for a heap, in some heaps with numbers of the client's own. */
static void start_policy(const g1_sizes *s)
{
    g1_policy_start(&policy, s);
    by_policy = draw() % 2 == 0;
    policy.nil_on_full = draw() % 3 == 0 ? within(9) : 0;
    if (draw() % 2 == 0) return;
    policy.reserve = below(4), policy.pause_words = below(600), policy.mark_words = below(30);
    policy.cycle_words = below(3 * s->words), policy.young_words = below(4 * s->words), policy.cards_left = below(40);
    policy.visit_cards = below(60), policy.clear_objects = below(20);
    policy.least = below(20), policy.held = draw() % 2 == 0 ? 0 : s->regions / 2;
}
static void note_policy(void)
{
    note(policy.left), note(policy.begin_at), note(policy.young_at), note(policy.span), note(policy.young), note(policy.gained);
    note(policy.wanted), note(policy.pace), note(policy.paid), note(policy.asked), note(policy.marked), note(policy.cycles);
    note(policy.scanned), note(policy.pauses), note(policy.copied), note(policy.compactions), note(policy.compacted);
    note(policy.packed_free), note(policy.packed_live), note(policy.packed_next);
    note(policy.visits), note(policy.clears), note(policy.cleared), note(policy.last), note(policy.rest);
    note(policy.held), note(policy.most), note(policy.idle);
}

static void differ(const char *call)
{
    printf("%s: not as single calls\n", call);
    exit(1);
}

/* Several data words at once, each as by a call of its own. */
static g1_answer many_words(g1_heap *h, uint32_t m, uint32_t a, uint32_t from)
{
    uint64_t out[40], was[40];
    uint32_t count = draw() % 4 == 0 ? within(40) : within(5);
    bool writes = draw() % 2 == 0;
    for (uint32_t i = 0; i < 40; i++) was[i] = out[i] = draw();
    g1_answer answer = writes ? g1_write_words(h, m, a, from, out, count) : g1_read_words(h, m, a, from, out, count);
    for (uint32_t i = 0; i < 40; i++) {
        note(out[i]);
        if (answer.code == G1_DONE && i < count && g1_read(h, m, a, from + i).first != out[i]) differ("words");
        if ((writes || answer.code != G1_DONE || i >= count) && out[i] != was[i]) differ("buffer");
    }
    if (count != 0 && count - 1 <= UINT32_MAX - from) {
        g1_answer last = g1_read(h, m, a, from + count - 1);
        if (answer.code == G1_DONE ? last.code != G1_WORD : answer.code != last.code) differ("the last word");
    }
    return answer;
}

/* A pointer, with a data word of what it leads to: as by a call each. */
static g1_answer loaded(g1_heap *h, uint32_t m, uint32_t to, uint32_t object, uint32_t field)
{
    uint32_t word = below(4);
    g1_answer told = g1_get_word(h, m, to, object, field, word), name = g1_name(h, m, to), read = g1_read(h, m, to, word);
    if (told.code == G1_WORD && (read.code != G1_WORD || read.first != told.first)) differ("the loaded object's word");
    if (told.code == G1_NAME && (read.code != G1_NO_FIELD || name.first != told.first)) differ("the loaded object");
    if (told.code == G1_NIL_VALUE && name.code != G1_NIL_VALUE) differ("the loaded pointer");
    if (to == object) return told;
    g1_answer got = g1_get(h, m, to, object, field);
    if (told.code == G1_WORD ? got.code != G1_NAME : got.code != told.code) differ("a load");
    if (got.code == G1_NAME && got.first != name.first) differ("a load");
    return told;
}

/* An object that the policy refuses leaves its register as it was, or nil where the policy says so after FULL. */
static g1_answer refused(g1_heap *h, uint32_t m, uint32_t a, g1_answer was, g1_answer answer)
{
    g1_answer is = g1_name(h, m, a);
    bool dropped = answer.code == G1_FULL && policy.nil_on_full != 0;
    if (answer.code == G1_NAME) return answer;
    if (is.code != (dropped ? G1_NIL_VALUE : was.code) || is.first != (dropped ? 0 : was.first)) differ("a refused object's register");
    return answer;
}

static g1_answer asked(g1_heap *h, const g1_sizes *s, uint32_t m, uint32_t a)
{
    g1_answer was = g1_name(h, m, a);
    switch (draw() % 12) {
    case 0: return refused(h, m, a, was, g1_make(h, &policy, m, a, below(2 * s->words), 0, below(9)));
    case 1: return refused(h, m, a, was, g1_make(h, &policy, m, a, below(3), below(4), below(3)));
    default: return refused(h, m, a, was, g1_make(h, &policy, m, a, below(5), 0, below(4)));
    }
}

/* Several fields, and registers one after another: as by a call each, whose answers the other library has to have too. */
static g1_answer several(g1_heap *h, const g1_sizes *s, uint32_t m, uint32_t a, uint32_t b, uint32_t field)
{
    uint32_t count = draw() % 4 == 0 ? below(9) : within(4), kind = draw() % 4;
    g1_answer last = {G1_NO_STEP, 0, 0}, answer, one;
    if (kind == 2 && draw() % 3 == 0) a = G1_NIL_REGISTER;
    uint64_t word = draw();
    /* The last step where it is refused, by a call of its own; it changes nothing then. */
    if (kind == 0) answer = g1_get_many(h, m, a, b, field, count);
    else if (kind == 1) answer = g1_put_many(h, m, b, field, a, count);
    else if (kind == 2) answer = g1_fill(h, m, b, field, a, count);
    else answer = g1_fill_words(h, m, b, field, word, count);
    if (answer.code == G1_NIL || answer.code == G1_NO_FIELD) {
        uint32_t end = field + (count == 0 ? 0 : count - 1), high = a + (count == 0 ? 0 : count - 1);
        if (end < field) return answer;
        last = kind == 0 ? g1_get(h, m, high, b, end) : kind == 1 ? g1_put(h, m, b, end, high)
             : kind == 2 ? g1_put(h, m, b, end, a) : g1_write(h, m, b, end, word);
        if (last.code != answer.code) differ("the last of several");
    }
    if (answer.code != G1_DONE || a >= s->registers) return answer;
    for (uint32_t i = 0; i < count; i++) {
        uint32_t it = kind == 2 ? a : a + i;
        if (kind == 3 && g1_read(h, m, b, field + i).first != word) differ("filled words");
        if (kind == 3 || (kind == 0 && b >= a && b - a < count) || it == b) continue;
        one = g1_name(h, m, it);
        g1_answer got = g1_get(h, m, it, b, field + i);         /* the register holds that already */
        if (got.code != one.code || got.first != one.first) differ("several pointers");
    }
    return answer;
}

/* An object with its fields. */
static g1_answer filled(g1_heap *h, const g1_sizes *s, uint32_t m, uint32_t to)
{
    uint32_t from[8], pointers = within(8) / (1 + within(3)), values = within(6);
    uint64_t words[6];
    for (uint32_t i = 0; i < 8; i++) from[i] = draw() % 4 == 0 ? G1_NIL_REGISTER : below(s->registers);
    for (uint32_t i = 0; i < 6; i++) words[i] = draw();
    if (draw() % 4 != 0)
        for (uint32_t i = 0; i < 8; i++) from[i] = from[i] == to ? G1_NIL_REGISTER : from[i];
    bool by_step = draw() % 2;
    g1_answer was = g1_name(h, m, to), field, answer = by_step ? g1_new_filled(h, m, to, from, pointers, words, values)
                                                               : g1_make_filled(h, &policy, m, to, from, pointers, words, values);
    if (!by_step) refused(h, m, to, was, answer);
    if (answer.code != G1_NAME) return answer;
    for (uint32_t i = 0; i < values; i++)
        if (g1_read(h, m, to, i).first != words[i]) differ("filled");
    if (g1_shape(h, m, to).first != pointers) differ("filled");
    for (uint32_t i = 0; i < pointers; i++) {
        if (from[i] != G1_NIL_REGISTER) field = g1_name(h, m, from[i]);
        else field = (g1_answer){G1_NIL_VALUE, 0, 0};
        note_answer(field);
        for (uint32_t spare = 0; spare < s->registers; spare++) {
            if (spare == to || g1_name(h, m, spare).code != G1_NIL_VALUE) continue;
            g1_answer got = g1_get(h, m, spare, to, i);
            g1_drop(h, m, spare);
            if (got.code != field.code || got.first != field.first) differ("filled");
            break;
        }
    }
    return answer;
}

static g1_answer step_of_mutator(g1_heap *h, const g1_sizes *s)
{
    uint32_t m = below(s->mutators), a = below(s->registers), b = below(s->registers), i = below(4), g = below(s->globals);
    if (by_policy && draw() % 3 == 0) return asked(h, s, m, a);
    switch (draw() % 35) {
    case 31: case 32: case 33: case 34: return several(h, s, m, a, b, i);
    case 28: case 29: case 30: return loaded(h, m, a, b, i);
    case 26: case 27: return filled(h, s, m, a);
    case 24: case 25: return many_words(h, m, a, i);
    case 0: case 1: case 2: case 3: case 4: return g1_new_object(h, m, a, below(5), below(4));
    case 5: return g1_new_object(h, m, a, below(2 * s->words), below(9));
    case 6: return g1_new_weak(h, m, a, below(3), below(4), below(3));
    case 7: case 8: case 9: return g1_get(h, m, a, b, i);
    case 10: case 11: case 12: case 13: return g1_put(h, m, a, i, draw() % 8 == 0 ? G1_NIL_REGISTER : b);
    case 14: return g1_read(h, m, a, i);
    case 15: return g1_write(h, m, a, i, seed);
    case 16: return g1_move(h, m, a, b);
    case 17: return draw() % 4 == 0 ? g1_scope(h, m, a) : g1_drop(h, m, a);
    case 18: return g1_load(h, m, a, g);
    case 19: return g1_save(h, m, g, a);
    case 20: return draw() % 2 == 0 ? g1_shape(h, m, a) : g1_weaks(h, m, a);
    case 21: return g1_get_weak(h, m, a, b, i);
    case 22: return g1_put_weak(h, m, a, i, draw() % 8 == 0 ? G1_NIL_REGISTER : b);
    default: return g1_name(h, m, a);
    }
}

/* Who names an object, told a few at a time. */
static void note_holders(g1_heap *h, uint64_t name)
{
    g1_holder holders[5];
    uint64_t cursor = 0;
    g1_answer told;
    do {
        uint32_t room = 1 + within(4);
        holders[room].name = UINT64_MAX - 1;
        note_answer(told = g1_who(h, name, &cursor, holders, room));
        if (told.first > room || holders[room].name != UINT64_MAX - 1) differ("g1_who");
        for (uint64_t i = 0; i < told.first; i++)
            note(holders[i].name), note(holders[i].kind), note(holders[i].mutator), note(holders[i].place), note(holders[i].fields);
    } while (told.first != 0);
}

/* A shortest way to an object, in a buffer that may be too small. */
static void note_way(g1_heap *h, uint64_t name, uint32_t room)
{
    g1_holder way[9];
    way[room].name = UINT64_MAX - 1;
    g1_answer told = g1_path(h, name, way, room);
    note_answer(told);
    if (told.first > room || way[room].name != UINT64_MAX - 1) differ("g1_path");
    for (uint64_t i = 0; i < told.first; i++)
        note(way[i].name), note(way[i].kind), note(way[i].mutator), note(way[i].place), note(way[i].fields);
}

/* The objects that the heap keeps, told a few at a time: nothing is written past a buffer. */
static void note_objects(g1_heap *h)
{
    g1_object objects[9] = {{0, 0, 0, 0, 0}};
    uint64_t cursor = 0;
    g1_answer told;
    do {
        uint32_t room = 1 + within(8);
        objects[room].name = UINT64_MAX - 1;
        note_answer(told = g1_walk(h, &cursor, objects, room));
        if (told.first > room || objects[room].name != UINT64_MAX - 1) differ("g1_walk");
        for (uint64_t i = 0; i < told.first; i++)
            note(objects[i].name), note(objects[i].word), note(objects[i].pointers), note(objects[i].weaks), note(objects[i].values);
    } while (told.first != 0);
    note_holders(h, objects[0].name);
    for (uint32_t room = 0; room <= 8; room++) note_way(h, objects[room % 3].name, room);
}

static g1_answer step_of_collector(g1_heap *h)
{
    if (by_policy && draw() % 16 == 0) {
        if (draw() % 8 == 0) return g1_shrink(h, &policy);
        return draw() % 4 == 0 ? g1_collect_all(h, &policy) : g1_collect(h, &policy);
    }
    switch (draw() % 12) {
    case 0: return g1_begin(h);
    case 1: return g1_mark(h, below(20));
    case 2: return g1_remark(h);
    case 3: return g1_cleanup(h);
    case 4: return g1_refine(h, below(20));
    case 5: return draw() % 3 == 0 ? g1_compact(h, below(200)) : g1_pause(h, below(200));
    case 6: return draw() % 2 == 0 ? g1_free_regions(h) : g1_free_run(h);
    case 7: return g1_used_words(h);
    case 8: return g1_live_words(h);
    case 9: return draw() % 3 == 0 ? g1_markings(h) : draw() % 2 == 0 ? g1_marking(h) : g1_grey(h);
    case 10: return g1_queued(h);
    default: return draw() % 2 == 0 ? g1_globals(h) : g1_registers(h);
    }
}

int main(int count, char **words)
{
    int heaps = count > 1 ? atoi(words[1]) : 400, calls = count > 2 ? atoi(words[2]) : 5000;
    for (int k = 0; k < heaps; k++) {
        g1_heap heap = G1_HEAP_NONE;
        g1_sizes sizes;
        sizes.regions = 2 + within(30), sizes.words = 16u << within(5), sizes.buffer = 4 + within(sizes.words / 2 - 3);
        sizes.mutators = 1 + within(4), sizes.first_name = draw() % 4 == 0 ? UINT64_MAX - within(500) : 0, sizes.card = 8u << within(2);
        sizes.globals = within(6), sizes.registers = 1 + within(9);
        if (draw() % 8 == 0) sizes.regions = below(1100), sizes.card = below(70), sizes.mutators = below(70);
        note(g1_new(&heap, &sizes));
        start_policy(&sizes);
        for (int i = 0; i < calls; i++) {
            note_answer(draw() % 6 == 0 ? step_of_collector(&heap) : step_of_mutator(&heap, &sizes));
            if (i % 500 == 499) note_answer(g1_give_back(&heap));
            if (i % 500 == 250) note_objects(&heap);
        }
        note_policy();
        g1_free(&heap);
    }
    printf("hash %016llx", (unsigned long long)hash);
    for (int i = 0; i < 64; i++)
        if (codes[i] != 0) printf(", %d: %llu", i, (unsigned long long)codes[i]);
    printf("\n");
    return 0;
}
