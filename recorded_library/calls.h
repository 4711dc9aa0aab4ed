/* Made of include/g1heap.h by tools/write_calls: change the header, and run that. */
uint32_t g1raw_version(void);
uint32_t g1raw_new(g1_heap *heap, const g1_sizes *sizes);
uint64_t g1raw_sizes_bytes(const g1_sizes *sizes);
void g1raw_free(g1_heap *heap);
g1_answer g1raw_new_object(g1_heap *heap, uint32_t mutator, uint32_t to, uint32_t pointers, uint32_t values);
g1_answer g1raw_new_weak(g1_heap *heap, uint32_t mutator, uint32_t to, uint32_t pointers, uint32_t weaks, uint32_t values);
g1_answer g1raw_get(g1_heap *heap, uint32_t mutator, uint32_t to, uint32_t object, uint32_t field);
g1_answer g1raw_put(g1_heap *heap, uint32_t mutator, uint32_t object, uint32_t field, uint32_t from);
g1_answer g1raw_read(g1_heap *heap, uint32_t mutator, uint32_t object, uint32_t field);
g1_answer g1raw_write(g1_heap *heap, uint32_t mutator, uint32_t object, uint32_t field, uint64_t value);
g1_answer g1raw_move(g1_heap *heap, uint32_t mutator, uint32_t to, uint32_t from);
g1_answer g1raw_drop(g1_heap *heap, uint32_t mutator, uint32_t to);
g1_answer g1raw_load(g1_heap *heap, uint32_t mutator, uint32_t to, uint32_t global);
g1_answer g1raw_save(g1_heap *heap, uint32_t mutator, uint32_t global, uint32_t from);
g1_answer g1raw_shape(g1_heap *heap, uint32_t mutator, uint32_t object);
g1_answer g1raw_get_weak(g1_heap *heap, uint32_t mutator, uint32_t to, uint32_t object, uint32_t slot);
g1_answer g1raw_put_weak(g1_heap *heap, uint32_t mutator, uint32_t object, uint32_t slot, uint32_t from);
g1_answer g1raw_weaks(g1_heap *heap, uint32_t mutator, uint32_t object);
g1_answer g1raw_scope(g1_heap *heap, uint32_t mutator, uint32_t first);
g1_answer g1raw_get_word(g1_heap *heap, uint32_t mutator, uint32_t to, uint32_t object, uint32_t field, uint32_t word);
g1_answer g1raw_get_many(g1_heap *heap, uint32_t mutator, uint32_t to, uint32_t object, uint32_t field, uint32_t count);
g1_answer g1raw_put_many(g1_heap *heap, uint32_t mutator, uint32_t object, uint32_t field, uint32_t from, uint32_t count);
g1_answer g1raw_fill(g1_heap *heap, uint32_t mutator, uint32_t object, uint32_t field, uint32_t from, uint32_t count);
g1_answer g1raw_fill_words(g1_heap *heap, uint32_t mutator, uint32_t object, uint32_t field, uint64_t value, uint32_t count);
g1_answer g1raw_read_words(g1_heap *heap, uint32_t mutator, uint32_t object, uint32_t from, uint64_t *out, size_t count);
g1_answer g1raw_write_words(g1_heap *heap, uint32_t mutator, uint32_t object, uint32_t from, const uint64_t *in, size_t count);
g1_answer g1raw_new_filled(g1_heap *heap, uint32_t mutator, uint32_t to, const uint32_t *from, size_t pointers, const uint64_t *words,
                           size_t values);
g1_answer g1raw_begin(g1_heap *heap);
g1_answer g1raw_mark(g1_heap *heap, uint32_t words);
g1_answer g1raw_remark(g1_heap *heap);
g1_answer g1raw_cleanup(g1_heap *heap);
g1_answer g1raw_refine(g1_heap *heap, uint32_t cards);
g1_answer g1raw_pause(g1_heap *heap, uint32_t words);
g1_answer g1raw_compact(g1_heap *heap, uint32_t words);
g1_answer g1raw_pause_within(g1_heap *heap, uint32_t words, uint32_t cards);
g1_answer g1raw_young(g1_heap *heap, uint32_t words, uint32_t cards);
g1_answer g1raw_clear(g1_heap *heap, uint32_t objects);
g1_answer g1raw_free_regions(const g1_heap *heap);
g1_answer g1raw_free_run(const g1_heap *heap);
g1_answer g1raw_used_words(const g1_heap *heap);
g1_answer g1raw_live_words(const g1_heap *heap);
g1_answer g1raw_marking(const g1_heap *heap);
g1_answer g1raw_grey(const g1_heap *heap);
g1_answer g1raw_clearing(const g1_heap *heap);
g1_answer g1raw_markings(const g1_heap *heap);
g1_answer g1raw_queued(const g1_heap *heap);
g1_answer g1raw_globals(const g1_heap *heap);
g1_answer g1raw_registers(const g1_heap *heap);
g1_answer g1raw_name(const g1_heap *heap, uint32_t mutator, uint32_t of);
g1_answer g1raw_walk(const g1_heap *heap, uint64_t *cursor, g1_object *objects, size_t count);
g1_answer g1raw_who(const g1_heap *heap, uint64_t name, uint64_t *cursor, g1_holder *holders, size_t count);
g1_answer g1raw_path(const g1_heap *heap, uint64_t name, g1_holder *way, size_t count);
g1_answer g1raw_give_back(g1_heap *heap);
void g1raw_policy_start(g1_policy *policy, const g1_sizes *sizes);
g1_answer g1_make_noted(g1_heap *heap, g1_policy *policy, uint32_t mutator, uint32_t to, uint32_t pointers, uint32_t weaks, uint32_t values,
                        entry *entries, size_t room, uint32_t *count);
g1_answer g1_make_filled_noted(g1_heap *heap, g1_policy *policy, uint32_t mutator, uint32_t to, const uint32_t *from, size_t pointers,
                               const uint64_t *words, size_t values, entry *entries, size_t room, uint32_t *count);
g1_answer g1_collect_noted(g1_heap *heap, g1_policy *policy, entry *entries, size_t room, uint32_t *count);
g1_answer g1_collect_all_noted(g1_heap *heap, g1_policy *policy, entry *entries, size_t room, uint32_t *count);
g1_answer g1_shrink_noted(g1_heap *heap, g1_policy *policy, entry *entries, size_t room, uint32_t *count);

/* The lines of the collector's steps, by the numbers of entries. */
static const char *const collector_forms[] = {"gc begin", "gc mark %", "gc remark", "gc cleanup", "gc refine %", "gc pause %",
                                              "gc compact %", "gc pausewithin % %", "gc young % %", "gc clear %"};

uint32_t g1_version(void)
{
    return g1raw_version();
}

uint64_t g1_sizes_bytes(const g1_sizes *sizes)
{
    return g1raw_sizes_bytes(sizes);
}

g1_answer g1_new_object(g1_heap *heap, uint32_t mutator, uint32_t to, uint32_t pointers, uint32_t values)
{
    box *in = box_of(heap);
    return note(in, g1raw_new_object(&in->heap, mutator, to, pointers, values), "% new r% % %",
                (uint64_t[]){mutator, to, pointers, values});
}

g1_answer g1_new_weak(g1_heap *heap, uint32_t mutator, uint32_t to, uint32_t pointers, uint32_t weaks, uint32_t values)
{
    box *in = box_of(heap);
    return note(in, g1raw_new_weak(&in->heap, mutator, to, pointers, weaks, values), "% newweak r% % % %",
                (uint64_t[]){mutator, to, pointers, weaks, values});
}

g1_answer g1_get(g1_heap *heap, uint32_t mutator, uint32_t to, uint32_t object, uint32_t field)
{
    box *in = box_of(heap);
    return note(in, g1raw_get(&in->heap, mutator, to, object, field), "% get r% r% %", (uint64_t[]){mutator, to, object, field});
}

g1_answer g1_put(g1_heap *heap, uint32_t mutator, uint32_t object, uint32_t field, uint32_t from)
{
    box *in = box_of(heap);
    return note(in, g1raw_put(&in->heap, mutator, object, field, from), from == G1_NIL_REGISTER ? "% put r% % nil" : "% put r% % r%",
                (uint64_t[]){mutator, object, field, from});
}

g1_answer g1_read(g1_heap *heap, uint32_t mutator, uint32_t object, uint32_t field)
{
    box *in = box_of(heap);
    return note(in, g1raw_read(&in->heap, mutator, object, field), "% read r% %", (uint64_t[]){mutator, object, field});
}

g1_answer g1_write(g1_heap *heap, uint32_t mutator, uint32_t object, uint32_t field, uint64_t value)
{
    box *in = box_of(heap);
    return note(in, g1raw_write(&in->heap, mutator, object, field, value), "% write r% % %", (uint64_t[]){mutator, object, field, value});
}

g1_answer g1_move(g1_heap *heap, uint32_t mutator, uint32_t to, uint32_t from)
{
    box *in = box_of(heap);
    return note(in, g1raw_move(&in->heap, mutator, to, from), "% move r% r%", (uint64_t[]){mutator, to, from});
}

g1_answer g1_drop(g1_heap *heap, uint32_t mutator, uint32_t to)
{
    box *in = box_of(heap);
    return note(in, g1raw_drop(&in->heap, mutator, to), "% drop r%", (uint64_t[]){mutator, to});
}

g1_answer g1_load(g1_heap *heap, uint32_t mutator, uint32_t to, uint32_t global)
{
    box *in = box_of(heap);
    return note(in, g1raw_load(&in->heap, mutator, to, global), "% load r% g%", (uint64_t[]){mutator, to, global});
}

g1_answer g1_save(g1_heap *heap, uint32_t mutator, uint32_t global, uint32_t from)
{
    box *in = box_of(heap);
    return note(in, g1raw_save(&in->heap, mutator, global, from), "% save g% r%", (uint64_t[]){mutator, global, from});
}

g1_answer g1_shape(g1_heap *heap, uint32_t mutator, uint32_t object)
{
    box *in = box_of(heap);
    return note(in, g1raw_shape(&in->heap, mutator, object), "% shape r%", (uint64_t[]){mutator, object});
}

g1_answer g1_get_weak(g1_heap *heap, uint32_t mutator, uint32_t to, uint32_t object, uint32_t slot)
{
    box *in = box_of(heap);
    return note(in, g1raw_get_weak(&in->heap, mutator, to, object, slot), "% getweak r% r% %", (uint64_t[]){mutator, to, object, slot});
}

g1_answer g1_put_weak(g1_heap *heap, uint32_t mutator, uint32_t object, uint32_t slot, uint32_t from)
{
    box *in = box_of(heap);
    return note(in, g1raw_put_weak(&in->heap, mutator, object, slot, from),
                from == G1_NIL_REGISTER ? "% putweak r% % nil" : "% putweak r% % r%", (uint64_t[]){mutator, object, slot, from});
}

g1_answer g1_weaks(g1_heap *heap, uint32_t mutator, uint32_t object)
{
    box *in = box_of(heap);
    return note(in, g1raw_weaks(&in->heap, mutator, object), "% weaks r%", (uint64_t[]){mutator, object});
}

g1_answer g1_scope(g1_heap *heap, uint32_t mutator, uint32_t first)
{
    box *in = box_of(heap);
    return note(in, g1raw_scope(&in->heap, mutator, first), "% scope r%", (uint64_t[]){mutator, first});
}

g1_answer g1_begin(g1_heap *heap)
{
    box *in = box_of(heap);
    return note(in, g1raw_begin(&in->heap), "gc begin", NULL);
}

g1_answer g1_mark(g1_heap *heap, uint32_t words)
{
    box *in = box_of(heap);
    return note(in, g1raw_mark(&in->heap, words), "gc mark %", (uint64_t[]){words});
}

g1_answer g1_remark(g1_heap *heap)
{
    box *in = box_of(heap);
    return note(in, g1raw_remark(&in->heap), "gc remark", NULL);
}

g1_answer g1_cleanup(g1_heap *heap)
{
    box *in = box_of(heap);
    return note(in, g1raw_cleanup(&in->heap), "gc cleanup", NULL);
}

g1_answer g1_refine(g1_heap *heap, uint32_t cards)
{
    box *in = box_of(heap);
    return note(in, g1raw_refine(&in->heap, cards), "gc refine %", (uint64_t[]){cards});
}

g1_answer g1_pause(g1_heap *heap, uint32_t words)
{
    box *in = box_of(heap);
    return note(in, g1raw_pause(&in->heap, words), "gc pause %", (uint64_t[]){words});
}

g1_answer g1_compact(g1_heap *heap, uint32_t words)
{
    box *in = box_of(heap);
    return note(in, g1raw_compact(&in->heap, words), "gc compact %", (uint64_t[]){words});
}

g1_answer g1_pause_within(g1_heap *heap, uint32_t words, uint32_t cards)
{
    box *in = box_of(heap);
    return note(in, g1raw_pause_within(&in->heap, words, cards), "gc pausewithin % %", (uint64_t[]){words, cards});
}

g1_answer g1_young(g1_heap *heap, uint32_t words, uint32_t cards)
{
    box *in = box_of(heap);
    return note(in, g1raw_young(&in->heap, words, cards), "gc young % %", (uint64_t[]){words, cards});
}

g1_answer g1_clear(g1_heap *heap, uint32_t objects)
{
    box *in = box_of(heap);
    return note(in, g1raw_clear(&in->heap, objects), "gc clear %", (uint64_t[]){objects});
}

g1_answer g1_free_regions(const g1_heap *heap)
{
    return g1raw_free_regions(&box_of(heap)->heap);
}

g1_answer g1_free_run(const g1_heap *heap)
{
    return g1raw_free_run(&box_of(heap)->heap);
}

g1_answer g1_used_words(const g1_heap *heap)
{
    return g1raw_used_words(&box_of(heap)->heap);
}

g1_answer g1_live_words(const g1_heap *heap)
{
    return g1raw_live_words(&box_of(heap)->heap);
}

g1_answer g1_marking(const g1_heap *heap)
{
    return g1raw_marking(&box_of(heap)->heap);
}

g1_answer g1_grey(const g1_heap *heap)
{
    return g1raw_grey(&box_of(heap)->heap);
}

g1_answer g1_clearing(const g1_heap *heap)
{
    return g1raw_clearing(&box_of(heap)->heap);
}

g1_answer g1_markings(const g1_heap *heap)
{
    return g1raw_markings(&box_of(heap)->heap);
}

g1_answer g1_queued(const g1_heap *heap)
{
    return g1raw_queued(&box_of(heap)->heap);
}

g1_answer g1_globals(const g1_heap *heap)
{
    return g1raw_globals(&box_of(heap)->heap);
}

g1_answer g1_registers(const g1_heap *heap)
{
    return g1raw_registers(&box_of(heap)->heap);
}

g1_answer g1_name(const g1_heap *heap, uint32_t mutator, uint32_t of)
{
    return g1raw_name(&box_of(heap)->heap, mutator, of);
}

g1_answer g1_walk(const g1_heap *heap, uint64_t *cursor, g1_object *objects, size_t count)
{
    return g1raw_walk(&box_of(heap)->heap, cursor, objects, count);
}

g1_answer g1_who(const g1_heap *heap, uint64_t name, uint64_t *cursor, g1_holder *holders, size_t count)
{
    return g1raw_who(&box_of(heap)->heap, name, cursor, holders, count);
}

g1_answer g1_path(const g1_heap *heap, uint64_t name, g1_holder *way, size_t count)
{
    return g1raw_path(&box_of(heap)->heap, name, way, count);
}

void g1_policy_start(g1_policy *policy, const g1_sizes *sizes)
{
    g1raw_policy_start(policy, sizes);
}
