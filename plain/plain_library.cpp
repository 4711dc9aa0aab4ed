// Every call of include/g1heap.h over the plain heap; those that do a step or tell a number are in plain_calls.h, which is made of that
// header. It stands in for lib/libg1heap.a where the two are compared, and where the proved one isn't built yet.
//
//   g++ -O2 -std=c++17 -Iinclude -c plain/plain_library.cpp -o plain_library.o
//   cc -Iinclude clients/hello.c plain_library.o -lstdc++

#include <cstddef>
#include <cstdint>
#include <new>
#include <set>
#include <vector>

#include "../include/g1heap.h"
#include "plain_heap.h"
#include "plain_policy.h"

namespace {

using plain::Number;
using plain::Word;

constexpr Number largest_weaks = 255;

// The plain heap with what a policy of collection reads.
class Heap : public plain::Heap {
public:
    using plain::Heap::Heap;

    bool has_mutator(Number mutator) const { return mutator < sizes_.mutators; }
    bool has_register(Number number) const { return number < sizes_.registers; }
    bool has_global(Number number) const { return number < sizes_.globals; }
    Number globals() const { return sizes_.globals; }
    Number registers() const { return sizes_.registers; }
    Number free_regions() const { return free_count_; }
    bool marking() const { return marking_; }
    bool grey() const { return marking_ && (held_ != plain::nowhere || !waiting_.empty()); }
    bool clearing() const { return uncleared_ != plain::nowhere; }
    Word markings() const { return markings_; }
    plain::Reply remark() {
        plain::Reply done = plain::Heap::remark();
        markings_ += done.form == plain::Form::Marked;
        return done;
    }
    Number queued() const { return queue_count_; }
    plain::Reply name(Number mutator, Number number) const { return named(root(mutator, number)); }
    plain::Reply new_object(Number mutator, Number to, Number pointers, Number values) { return make(mutator, to, pointers, 0, values); }
    plain::Reply new_weak(Number mutator, Number to, Number pointers, Number weaks, Number values) {
        return make(mutator, to, pointers, weaks, values);
    }
    const plain::Sizes& sizes() const { return sizes_; }
    bool has_name() const { return next_name_ != ~Word(0); }

    // Whether an object of at most half a region needs no free region.
    bool fits_open(Number mutator, Number size) const {
        if (size <= buffers_[mutator].end - buffers_[mutator].next) return true;
        Number cut = size <= sizes_.buffer ? sizes_.buffer : size;
        return current_ != plain::no_region && regions_[current_].top + cut <= bottom(current_) + sizes_.words;
    }

    // Whether so many adjacent regions are free.
    bool has_run(Number count) const {
        for (Number region = 0, length = 0; region < sizes_.regions; ++region) {
            length = free_regions_.has(region) ? length + 1 : 0;
            if (length == count) return true;
        }
        return false;
    }

    // How many free regions are side by side, at most.
    Number free_run() const {
        Number most = 0;
        for (Number region = 0, length = 0; region < sizes_.regions; ++region) {
            length = free_regions_.has(region) ? length + 1 : 0;
            if (length > most) most = length;
        }
        return most;
    }

    Word used_words() const {
        Word sum = 0;
        for (Number region = 0; region < sizes_.regions; ++region) sum += regions_[region].top - bottom(region);
        return sum;
    }

    Word live_words() const {
        Word sum = 0;
        for (const plain::Region& region : regions_) sum += live_bound(region);
        return sum;
    }

    // Gives the kept objects from an address on to `visit`, by rising address, until that says no. Returns where it stopped.
    template <class Visit>
    Word walk(Word from, Visit visit) const {
        if (from >= heap_words_) return from;
        for (Number region = region_of(plain::Address(from)); region < sizes_.regions; ++region) {
            plain::Kind kind = regions_[region].kind;
            if (kind != plain::Kind::Ordinary && kind != plain::Kind::First) continue;
            for (plain::Address at = bottom(region); at < regions_[region].top; at += plain::tile_size(words_[at]))
                if (at >= from && plain::is_object(words_[at]) && is_kept(at) && !visit(at)) return at;
        }
        return heap_words_;
    }

    // What is told of an object.
    g1_object object(plain::Address at) const {
        Word header = words_[at];
        Number fields = plain::field_count(header), values = plain::data_count(header);
        return {words_[at + 1], values == 0 ? 0 : words_[at + 2 + fields], plain::pointer_count(header), plain::weak_count(header), values};
    }

    Word place_count() const { return sizes_.globals + Word(sizes_.registers) * sizes_.mutators; }
    Word word_count() const { return heap_words_; }

    // Whether a word leads to the object of a name.
    bool leads_to(Word word, Word name) const { return word != 0 && words_[word] == name; }

    // What names an object: at a root place, or the object at an address; `fields` is 0 where it doesn't.
    g1_holder root_holder(Number place, Word name) const {
        bool is_global = place < sizes_.globals;
        Number reg = place - sizes_.globals, mutator = is_global ? 0 : reg / sizes_.registers;
        Number number = is_global ? place : reg % sizes_.registers;
        Word word = is_global ? roots_.global(number) : roots_.reg(mutator, number);
        return {0, is_global ? G1_GLOBAL : G1_REGISTER, mutator, number, leads_to(word, name) ? 1u : 0u};
    }
    g1_holder holder(plain::Address at, Word name) const {
        Number pointers = plain::pointer_count(words_[at]), fields = plain::field_count(words_[at]);
        g1_holder found{words_[at + 1], G1_POINTER, 0, 0, 0};
        for (Number field = 0; field < fields; ++field) {
            if (!leads_to(words_[at + 2 + field], name)) continue;
            if (found.fields++ != 0) continue;
            found.kind = field < pointers ? G1_POINTER : G1_WEAK_SLOT, found.place = field < pointers ? field : field - pointers;
        }
        return found;
    }

    Word next_name() const { return next_name_; }

    // How many regions are ordinary; their live bounds are added up.
    Number ordinary(Word& bounds) const {
        Number count = 0;
        for (const plain::Region& region : regions_)
            if (region.kind == plain::Kind::Ordinary) ++count, bounds += live_bound(region);
        return count;
    }

    // The number above the highest ordinary region, 0 where there is none.
    Number ordinary_end() const {
        auto end = static_cast<Number>(regions_.size());
        while (end > 0 && regions_[end - 1].kind != plain::Kind::Ordinary) --end;
        return end;
    }

private:
    Word markings_ = 0;
};

Heap& in(const g1_heap* heap) { return *static_cast<Heap*>(heap->at); }

g1_answer answer(std::uint32_t code, Word first = 0) { return {code, 0, first}; }

// The forms of replies are numbered as the codes of answers are, and refusals in their order from G1_NIL on.
g1_answer told(const plain::Reply& reply) {
    if (reply.form == plain::Form::Refused) return answer(G1_NIL - 1 + std::uint32_t(reply.refusal));
    if (reply.form == plain::Form::Moved) return {G1_MOVED, std::uint32_t(reply.first), reply.second};
    return {std::uint32_t(reply.form), std::uint32_t(reply.second), reply.first};
}

// Does a step of a mutator, where there is a heap that has the mutator and both registers.
template <class Step>
g1_answer mutate(g1_heap* heap, Number mutator, Number one, Number other, Step step) {
    if (!heap->live) return answer(G1_NO_HEAP);
    Heap& plain = in(heap);
    if (!plain.has_mutator(mutator) || !plain.has_register(one) || !plain.has_register(other)) return answer(G1_NO_STEP);
    return told(step(plain));
}

// Does a step of the collector, where there is a heap.
template <class Step>
g1_answer collect(g1_heap* heap, Step step) {
    return heap->live ? told(step(in(heap))) : answer(G1_NO_HEAP);
}

// Tells a number of a heap, where there is one.
template <class Reader>
g1_answer number(const g1_heap* heap, Reader reader) {
    return heap->live ? answer(G1_NUMBER, reader(in(heap))) : answer(G1_NO_HEAP);
}

// The first size that doesn't suit, G1_DONE where all do.
std::uint32_t size_fault(const g1_sizes& sizes) {
    if (sizes.regions < 2 || sizes.regions > 16384) return G1_BAD_REGIONS;
    if (sizes.words < 16 || sizes.words > 4194304 || (sizes.words & (sizes.words - 1)) != 0) return G1_BAD_WORDS;
    if (Word(sizes.regions) * sizes.words > 2147483648) return G1_BAD_WORDS;
    if (sizes.buffer < 4 || sizes.buffer > sizes.words / 2) return G1_BAD_BUFFER;
    if (sizes.mutators < 1 || sizes.mutators > 64) return G1_BAD_MUTATORS;
    if (sizes.card < 8 || sizes.card > 512 || (sizes.card & (sizes.card - 1)) != 0 || sizes.card > sizes.words) return G1_BAD_CARD;
    if (sizes.globals > 65536) return G1_BAD_GLOBALS;
    if (sizes.registers < 1 || sizes.registers > 65536) return G1_BAD_REGISTERS;
    if (sizes.globals + sizes.registers * sizes.mutators > 1048576) return G1_BAD_ROOTS;
    return G1_DONE;
}

// How many parts of so much a count has, the last one not whole.
Word parts(Word count, Word size) { return (count + size - 1) / size; }

// The bytes of a set of numbers below a count, as the proved heap keeps it.
Word set_bytes(Word count) { return 8 * parts(count, 64) + 4 * parts(count, 64 * 512); }

// The bytes that the proved heap asks for.
Word bytes_of(const g1_sizes& sizes) {
    Word words = Word(sizes.regions) * sizes.words, cards = words / sizes.card, in_region = sizes.words / sizes.card;
    Word roots = sizes.globals + Word(sizes.registers) * sizes.mutators;
    Word rows = in_region % 64 == 0 ? 21 * sizes.card / 32 : 0;
    Word bytes = 8 * words + 4 * set_bytes(words);
    for (Word size : {64 * 64, 64 * 64 * 64, 64 * 64 * 64 * 64}) bytes += 8 * parts(words, size);
    bytes += 9 * cards + 3 * set_bytes(cards) + parts(sizes.regions, 4) * (80 + set_bytes(4 * 3 * rows * in_region));
    return bytes + sizes.regions * (181 + set_bytes(sizes.regions)) + set_bytes(sizes.regions) + 72 * sizes.mutators + 12 * roots + 2072;
}

g1_sizes sizes_of(const Heap& heap) {
    const plain::Sizes& of = heap.sizes();
    return {of.regions, of.words, of.buffer, of.mutators, of.first_name, of.card, of.globals, of.registers};
}

int fits_open(g1_heap* heap, std::uint32_t mutator, std::uint32_t size) { return in(heap).fits_open(mutator, size); }
int has_run(g1_heap* heap, std::uint32_t count) { return in(heap).has_run(count); }

int has_name(g1_heap* heap) { return in(heap).has_name(); }

std::uint64_t next_name(g1_heap* heap) { return in(heap).next_name(); }

std::uint32_t ordinary(g1_heap* heap, std::uint64_t* bounds) { return in(heap).ordinary(*bounds); }

std::uint32_t ordinary_end(g1_heap* heap) { return in(heap).ordinary_end(); }

policy_of policy_for(g1_heap* heap, g1_policy* policy, const g1_sizes& sizes) {
    return {heap, policy, &sizes, fits_open, has_run, has_name, next_name, ordinary, ordinary_end};
}

}  // namespace

extern "C" {

#include "plain_calls.h"

std::uint32_t g1_new(g1_heap* heap, const g1_sizes* sizes) {
    if (heap->live) return G1_HEAP_LIVE;
    if (std::uint32_t fault = size_fault(*sizes)) return fault;
    plain::Sizes plain{sizes->regions, sizes->words, sizes->buffer, sizes->mutators, sizes->first_name, sizes->card, sizes->globals,
                       sizes->registers, 3};
    try {
        heap->at = new Heap(plain);
    } catch (const std::bad_alloc&) {
        return G1_NO_MEMORY;
    }
    heap->live = true;
    return G1_DONE;
}

void g1_free(g1_heap* heap) {
    if (heap->live) delete &in(heap);
    *heap = G1_HEAP_NONE;
}

// The plain heap keeps what it has.
g1_answer g1_give_back(g1_heap* heap) { return answer(heap->live ? G1_DONE : G1_NO_HEAP); }

g1_answer g1_get_word(g1_heap* heap, std::uint32_t mutator, std::uint32_t to, std::uint32_t object, std::uint32_t field,
                      std::uint32_t word) {
    g1_answer got = g1_get(heap, mutator, to, object, field);
    if (got.code != G1_NAME) return got;
    g1_answer read = g1_read(heap, mutator, to, word);
    return read.code == G1_WORD ? read : got;
}

// Whether an object has so many fields from one on, data words or else pointers: G1_DONE, or why it hasn't.
static g1_answer has_fields(g1_heap* heap, std::uint32_t mutator, std::uint32_t object, std::uint32_t field, std::uint32_t count,
                            bool words) {
    g1_answer shape = g1_shape(heap, mutator, object);
    if (shape.code != G1_SHAPE) return shape;
    return answer(Word(field) + count <= (words ? shape.second : shape.first) ? G1_DONE : G1_NO_FIELD);
}

// Whether a heap has so many registers from one on, and that one in any case.
static bool has_row(const g1_heap* heap, std::uint32_t first, std::uint32_t count) {
    return !heap->live || (in(heap).has_register(first) && Word(first) + count <= in(heap).registers());
}

g1_answer g1_get_many(g1_heap* heap, std::uint32_t mutator, std::uint32_t to, std::uint32_t object, std::uint32_t field,
                      std::uint32_t count) {
    bool apart = object < to || count == 0 || object - to >= count - 1;
    if (!has_row(heap, to, count) || (heap->live && !apart)) return answer(G1_NO_STEP);
    g1_answer has = has_fields(heap, mutator, object, field, count, false);
    for (Number i = 0; has.code == G1_DONE && i < count; ++i) g1_get(heap, mutator, to + i, object, field + i);
    return has;
}

g1_answer g1_put_many(g1_heap* heap, std::uint32_t mutator, std::uint32_t object, std::uint32_t field, std::uint32_t from,
                      std::uint32_t count) {
    if (!has_row(heap, from, count)) return answer(G1_NO_STEP);
    g1_answer has = has_fields(heap, mutator, object, field, count, false);
    for (Number i = 0; has.code == G1_DONE && i < count; ++i) g1_put(heap, mutator, object, field + i, from + i);
    return has;
}

g1_answer g1_fill(g1_heap* heap, std::uint32_t mutator, std::uint32_t object, std::uint32_t field, std::uint32_t from,
                  std::uint32_t count) {
    if (from != G1_NIL_REGISTER && !has_row(heap, from, 0)) return answer(G1_NO_STEP);
    g1_answer has = has_fields(heap, mutator, object, field, count, false);
    for (Number i = 0; has.code == G1_DONE && i < count; ++i) g1_put(heap, mutator, object, field + i, from);
    return has;
}

g1_answer g1_fill_words(g1_heap* heap, std::uint32_t mutator, std::uint32_t object, std::uint32_t field, std::uint64_t value,
                        std::uint32_t count) {
    g1_answer has = has_fields(heap, mutator, object, field, count, true);
    for (Number i = 0; has.code == G1_DONE && i < count; ++i) g1_write(heap, mutator, object, field + i, value);
    return has;
}

// Whether an object has so many data words from one on: G1_DONE, or why it hasn't.
static g1_answer has_words(g1_heap* heap, std::uint32_t mutator, std::uint32_t object, std::uint32_t from, std::size_t count) {
    g1_answer shape = g1_shape(heap, mutator, object);
    if (shape.code != G1_SHAPE) return shape;
    return answer(from <= shape.second && count <= shape.second - from ? G1_DONE : G1_NO_FIELD);
}

g1_answer g1_read_words(g1_heap* heap, std::uint32_t mutator, std::uint32_t object, std::uint32_t from, std::uint64_t* out,
                        std::size_t count) {
    g1_answer has = has_words(heap, mutator, object, from, count);
    for (std::size_t i = 0; has.code == G1_DONE && i < count; ++i) out[i] = g1_read(heap, mutator, object, from + Number(i)).first;
    return has;
}

g1_answer g1_write_words(g1_heap* heap, std::uint32_t mutator, std::uint32_t object, std::uint32_t from, const std::uint64_t* in,
                         std::size_t count) {
    g1_answer has = has_words(heap, mutator, object, from, count);
    for (std::size_t i = 0; has.code == G1_DONE && i < count; ++i) g1_write(heap, mutator, object, from + Number(i), in[i]);
    return has;
}

/* Whether each source of a filled object is nil or a register, and another one than the object's. */
static bool has_sources(g1_heap* heap, std::uint32_t to, const std::uint32_t* from, std::size_t pointers, std::size_t values) {
    if (pointers > UINT32_MAX || values > UINT32_MAX) return false;
    for (std::size_t i = 0; i < pointers; ++i)
        if (from[i] == to || (from[i] != G1_NIL_REGISTER && !in(heap).has_register(from[i]))) return false;
    return true;
}

static g1_answer filled(g1_answer made, g1_heap* heap, std::uint32_t mutator, std::uint32_t to, const std::uint32_t* from,
                        std::size_t pointers, const std::uint64_t* words, std::size_t values) {
    if (made.code != G1_NAME) return made;
    for (std::size_t i = 0; i < pointers; ++i) g1_put(heap, mutator, to, Number(i), from[i]);
    for (std::size_t i = 0; i < values; ++i) g1_write(heap, mutator, to, Number(i), words[i]);
    return made;
}

g1_answer g1_new_filled(g1_heap* heap, std::uint32_t mutator, std::uint32_t to, const std::uint32_t* from, std::size_t pointers,
                        const std::uint64_t* words, std::size_t values) {
    if (!heap->live) return answer(G1_NO_HEAP);
    if (!has_sources(heap, to, from, pointers, values)) return answer(G1_NO_STEP);
    return filled(g1_new_object(heap, mutator, to, Number(pointers), Number(values)), heap, mutator, to, from, pointers, words, values);
}

g1_answer g1_mark(g1_heap* heap, std::uint32_t words) {
    g1_answer marked = collect(heap, [=](Heap& plain) { return plain.mark(words); });
    if (marked.code == G1_DONE) marked.code = G1_SCANNED;
    return marked;
}

g1_answer g1_name(const g1_heap* heap, std::uint32_t mutator, std::uint32_t of) {
    if (!heap->live) return answer(G1_NO_HEAP);
    if (!in(heap).has_mutator(mutator) || !in(heap).has_register(of)) return answer(G1_NO_STEP);
    return told(in(heap).name(mutator, of));
}

g1_answer g1_walk(const g1_heap* heap, std::uint64_t* cursor, g1_object* objects, std::size_t count) {
    if (!heap->live) return answer(G1_NO_HEAP);
    Word told = 0;
    *cursor = in(heap).walk(*cursor, [&](plain::Address at) {
        if (told == count) return false;
        objects[told++] = in(heap).object(at);
        return true;
    });
    return answer(G1_NUMBER, told);
}

g1_answer g1_who(const g1_heap* heap, std::uint64_t name, std::uint64_t* cursor, g1_holder* holders, std::size_t count) {
    if (!heap->live) return answer(G1_NO_HEAP);
    Heap& plain = in(heap);
    Word told = 0, places = plain.place_count();
    auto tell = [&](const g1_holder& holder) {
        if (holder.fields == 0) return true;
        if (told == count) return false;
        holders[told++] = holder;
        return true;
    };
    for (; *cursor < places; ++*cursor)
        if (!tell(plain.root_holder(Number(*cursor), name))) return answer(G1_NUMBER, told);
    if (*cursor < places + plain.word_count())
        *cursor = places + plain.walk(*cursor - places, [&](plain::Address at) { return tell(plain.holder(at, name)); });
    return answer(G1_NUMBER, told);
}

namespace {

// What holds the object of an earlier step, by that one's number.
struct Step { g1_holder by; std::size_t to; };

// The place of the first root that holds the object of a name, or how many there are.
Word root_place(const Heap& heap, Word name) {
    Word place = 0;
    while (place < heap.place_count() && heap.root_holder(Number(place), name).fields == 0) ++place;
    return place;
}

// The entries of a way: a root's, and those of the steps from one on.
Word write_way(const Heap& heap, const std::vector<Step>& steps, std::size_t at, Word place, g1_holder* way) {
    Word told = 0;
    way[told++] = heap.root_holder(Number(place), steps[at].by.name);
    for (; at != 0; at = steps[at].to) way[told++] = steps[at].by;
    return told;
}

// Adds a step for each object of which a pointer leads to one of the last distance, from `first` to below `last`. False: there is no room.
bool add_steps(Heap& heap, std::vector<Step>& steps, std::set<Word>& found, std::size_t first, std::size_t last, std::size_t room) {
    bool fits = true;
    heap.walk(0, [&](plain::Address at) {
        for (std::size_t to = last; to-- > first;) {
            g1_holder by = heap.holder(at, steps[to].by.name);
            if (by.fields == 0 || by.kind != G1_POINTER) continue;
            if (found.count(by.name) != 0) break;
            if (steps.size() + 1 == room) return fits = false;
            found.insert(by.name);
            steps.push_back({by, to});
            break;
        }
        return true;
    });
    return fits;
}

} // namespace

g1_answer g1_path(const g1_heap* heap, std::uint64_t name, g1_holder* way, std::size_t count) {
    if (!heap->live) return answer(G1_NO_HEAP);
    std::size_t room = count < UINT32_MAX ? count : UINT32_MAX;
    if (room < 2) return answer(G1_FULL);
    Heap& plain = in(heap);
    std::vector<Step> steps{{{name, G1_POINTER, 0, 0, 0}, 0}};
    std::set<Word> found{name};
    for (std::size_t first = 0, last = 1; first < last;) {
        for (std::size_t at = last; at-- > first;) {
            Word place = root_place(plain, steps[at].by.name);
            if (place < plain.place_count()) return answer(G1_NUMBER, write_way(plain, steps, at, place, way));
        }
        if (!add_steps(plain, steps, found, first, last, room)) return answer(G1_FULL);
        first = last, last = steps.size();
    }
    return answer(G1_NUMBER, 0);
}

std::uint32_t g1_version() { return G1_VERSION_MAJOR * 65536 + G1_VERSION_MINOR * 256 + G1_VERSION_PATCH; }

std::uint64_t g1_sizes_bytes(const g1_sizes* sizes) { return size_fault(*sizes) == G1_DONE ? bytes_of(*sizes) : 0; }

void g1_policy_start(g1_policy* policy, const g1_sizes* sizes) { policy_start(policy, sizes); }

static g1_answer asked(g1_heap* heap, g1_policy* policy, std::uint32_t mutator, std::uint32_t to, std::uint32_t pointers,
                       std::uint32_t weaks, std::uint32_t values) {
    if (!heap->live) return answer(G1_NO_HEAP);
    if (weaks > largest_weaks || !in(heap).has_mutator(mutator) || !in(heap).has_register(to)) return answer(G1_NO_STEP);
    g1_sizes sizes = sizes_of(in(heap));
    policy_of of = policy_for(heap, policy, sizes);
    Word size = Word(2) + pointers + weaks + values;
    if (!policy_room(&of, mutator, size)) return answer(G1_FULL);
    return weaks == 0 ? g1_new_object(heap, mutator, to, pointers, values) : g1_new_weak(heap, mutator, to, pointers, weaks, values);
}

g1_answer g1_make(g1_heap* heap, g1_policy* policy, std::uint32_t mutator, std::uint32_t to, std::uint32_t pointers, std::uint32_t weaks,
                  std::uint32_t values) {
    g1_answer made = asked(heap, policy, mutator, to, pointers, weaks, values);
    if (made.code == G1_FULL && policy->nil_on_full != 0) g1_drop(heap, mutator, to);
    return made;
}

g1_answer g1_make_filled(g1_heap* heap, g1_policy* policy, std::uint32_t mutator, std::uint32_t to, const std::uint32_t* from,
                         std::size_t pointers, const std::uint64_t* words, std::size_t values) {
    if (!heap->live) return answer(G1_NO_HEAP);
    if (!has_sources(heap, to, from, pointers, values)) return answer(G1_NO_STEP);
    g1_answer made = g1_make(heap, policy, mutator, to, Number(pointers), 0, Number(values));
    return filled(made, heap, mutator, to, from, pointers, words, values);
}

g1_answer g1_collect(g1_heap* heap, g1_policy* policy) {
    if (!heap->live) return answer(G1_NO_HEAP);
    g1_sizes sizes = sizes_of(in(heap));
    policy_of of = policy_for(heap, policy, sizes);
    policy_due(&of);
    return answer(G1_DONE);
}

g1_answer g1_collect_all(g1_heap* heap, g1_policy* policy) {
    if (!heap->live) return answer(G1_NO_HEAP);
    g1_sizes sizes = sizes_of(in(heap));
    policy_of of = policy_for(heap, policy, sizes);
    policy_whole(&of);
    return answer(G1_DONE);
}

#ifdef PLAIN_COUNTS
// How much work of a kind the heap did, as plain_heap.h numbers them.
std::uint64_t plain_work(const g1_heap* heap, std::uint32_t kind) { return in(heap).work(static_cast<plain::Work>(kind)); }
#endif

g1_answer g1_shrink(g1_heap* heap, g1_policy* policy) {
    if (!heap->live) return answer(G1_NO_HEAP);
    g1_sizes sizes = sizes_of(in(heap));
    policy_of of = policy_for(heap, policy, sizes);
    policy_down(&of);
    return g1_give_back(heap);
}

}  // extern "C"
