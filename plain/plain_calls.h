// Made of include/g1heap.h by tools/write_calls: change the header, and run that.

g1_answer g1_new_object(g1_heap* heap, std::uint32_t mutator, std::uint32_t to, std::uint32_t pointers, std::uint32_t values) {
    return mutate(heap, mutator, to, to, [=](Heap& plain) { return plain.new_object(mutator, to, pointers, values); });
}

g1_answer g1_new_weak(g1_heap* heap, std::uint32_t mutator, std::uint32_t to, std::uint32_t pointers, std::uint32_t weaks,
                      std::uint32_t values) {
    if (heap->live && weaks > largest_weaks) return answer(G1_NO_STEP);
    return mutate(heap, mutator, to, to, [=](Heap& plain) { return plain.new_weak(mutator, to, pointers, weaks, values); });
}

g1_answer g1_get(g1_heap* heap, std::uint32_t mutator, std::uint32_t to, std::uint32_t object, std::uint32_t field) {
    return mutate(heap, mutator, to, object, [=](Heap& plain) { return plain.get(mutator, to, object, field); });
}

g1_answer g1_put(g1_heap* heap, std::uint32_t mutator, std::uint32_t object, std::uint32_t field, std::uint32_t from) {
    if (from == G1_NIL_REGISTER)
        return mutate(heap, mutator, object, object, [=](Heap& plain) { return plain.put_nil(mutator, object, field); });
    return mutate(heap, mutator, object, from, [=](Heap& plain) { return plain.put(mutator, object, field, from); });
}

g1_answer g1_read(g1_heap* heap, std::uint32_t mutator, std::uint32_t object, std::uint32_t field) {
    return mutate(heap, mutator, object, object, [=](Heap& plain) { return plain.read(mutator, object, field); });
}

g1_answer g1_write(g1_heap* heap, std::uint32_t mutator, std::uint32_t object, std::uint32_t field, std::uint64_t value) {
    return mutate(heap, mutator, object, object, [=](Heap& plain) { return plain.write(mutator, object, field, value); });
}

g1_answer g1_move(g1_heap* heap, std::uint32_t mutator, std::uint32_t to, std::uint32_t from) {
    return mutate(heap, mutator, to, from, [=](Heap& plain) { return plain.move(mutator, to, from); });
}

g1_answer g1_drop(g1_heap* heap, std::uint32_t mutator, std::uint32_t to) {
    return mutate(heap, mutator, to, to, [=](Heap& plain) { return plain.drop(mutator, to); });
}

g1_answer g1_load(g1_heap* heap, std::uint32_t mutator, std::uint32_t to, std::uint32_t global) {
    if (heap->live && !in(heap).has_global(global)) return answer(G1_NO_STEP);
    return mutate(heap, mutator, to, to, [=](Heap& plain) { return plain.load(mutator, to, global); });
}

g1_answer g1_save(g1_heap* heap, std::uint32_t mutator, std::uint32_t global, std::uint32_t from) {
    if (heap->live && !in(heap).has_global(global)) return answer(G1_NO_STEP);
    return mutate(heap, mutator, from, from, [=](Heap& plain) { return plain.save(mutator, global, from); });
}

g1_answer g1_shape(g1_heap* heap, std::uint32_t mutator, std::uint32_t object) {
    return mutate(heap, mutator, object, object, [=](Heap& plain) { return plain.shape(mutator, object); });
}

g1_answer g1_get_weak(g1_heap* heap, std::uint32_t mutator, std::uint32_t to, std::uint32_t object, std::uint32_t slot) {
    return mutate(heap, mutator, to, object, [=](Heap& plain) { return plain.get_weak(mutator, to, object, slot); });
}

g1_answer g1_put_weak(g1_heap* heap, std::uint32_t mutator, std::uint32_t object, std::uint32_t slot, std::uint32_t from) {
    if (from == G1_NIL_REGISTER)
        return mutate(heap, mutator, object, object, [=](Heap& plain) { return plain.put_weak_nil(mutator, object, slot); });
    return mutate(heap, mutator, object, from, [=](Heap& plain) { return plain.put_weak(mutator, object, slot, from); });
}

g1_answer g1_weaks(g1_heap* heap, std::uint32_t mutator, std::uint32_t object) {
    return mutate(heap, mutator, object, object, [=](Heap& plain) { return plain.weaks(mutator, object); });
}

g1_answer g1_scope(g1_heap* heap, std::uint32_t mutator, std::uint32_t first) {
    return mutate(heap, mutator, first, first, [=](Heap& plain) { return plain.scope(mutator, first); });
}

g1_answer g1_begin(g1_heap* heap) {
    return collect(heap, [](Heap& plain) { return plain.begin(); });
}

g1_answer g1_remark(g1_heap* heap) {
    return collect(heap, [](Heap& plain) { return plain.remark(); });
}

g1_answer g1_cleanup(g1_heap* heap) {
    return collect(heap, [](Heap& plain) { return plain.cleanup(); });
}

g1_answer g1_refine(g1_heap* heap, std::uint32_t cards) {
    return collect(heap, [=](Heap& plain) { return plain.refine(cards); });
}

g1_answer g1_pause(g1_heap* heap, std::uint32_t words) {
    return collect(heap, [=](Heap& plain) { return plain.pause(words); });
}

g1_answer g1_compact(g1_heap* heap, std::uint32_t words) {
    return collect(heap, [=](Heap& plain) { return plain.compact(words); });
}

g1_answer g1_pause_within(g1_heap* heap, std::uint32_t words, std::uint32_t cards) {
    return collect(heap, [=](Heap& plain) { return plain.pause_within(words, cards); });
}

g1_answer g1_young(g1_heap* heap, std::uint32_t words, std::uint32_t cards) {
    return collect(heap, [=](Heap& plain) { return plain.young(words, cards); });
}

g1_answer g1_clear(g1_heap* heap, std::uint32_t objects) {
    return collect(heap, [=](Heap& plain) { return plain.clear(objects); });
}

g1_answer g1_free_regions(const g1_heap* heap) {
    return number(heap, [](Heap& plain) { return plain.free_regions(); });
}

g1_answer g1_free_run(const g1_heap* heap) {
    return number(heap, [](Heap& plain) { return plain.free_run(); });
}

g1_answer g1_used_words(const g1_heap* heap) {
    return number(heap, [](Heap& plain) { return plain.used_words(); });
}

g1_answer g1_live_words(const g1_heap* heap) {
    return number(heap, [](Heap& plain) { return plain.live_words(); });
}

g1_answer g1_marking(const g1_heap* heap) {
    return number(heap, [](Heap& plain) { return plain.marking(); });
}

g1_answer g1_grey(const g1_heap* heap) {
    return number(heap, [](Heap& plain) { return plain.grey(); });
}

g1_answer g1_clearing(const g1_heap* heap) {
    return number(heap, [](Heap& plain) { return plain.clearing(); });
}

g1_answer g1_markings(const g1_heap* heap) {
    return number(heap, [](Heap& plain) { return plain.markings(); });
}

g1_answer g1_queued(const g1_heap* heap) {
    return number(heap, [](Heap& plain) { return plain.queued(); });
}

g1_answer g1_globals(const g1_heap* heap) {
    return number(heap, [](Heap& plain) { return plain.globals(); });
}

g1_answer g1_registers(const g1_heap* heap) {
    return number(heap, [](Heap& plain) { return plain.registers(); });
}
