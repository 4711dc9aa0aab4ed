// A Garbage-First heap, written plainly and not verified: an oracle and a baseline of cost for g1heap.
//
// The heap is one array of words with real headers in it, cut into equal regions. An address is a word's
// place in that array. A pointer word is 0 for nil, else the address of its object plus 1; so is a weak slot, which
// marking doesn't follow. An object is its header, its name, its pointers, its weak slots and its data words.
#pragma once

#include <algorithm>
#include <cstdint>
#include <cstring>
#include <functional>
#include <memory>
#include <utility>
#include <vector>

#include "plain_roots.h"
#include "plain_sets.h"

namespace plain {

constexpr Number card_log_length = 4;
constexpr Number deletion_log_length = 8;
constexpr Number inline_cards = 16;
constexpr Number largest_object = 16777216;
constexpr Number no_region = ~Number(0);

// What a heap line tells: regions, words a region, words a buffer, mutators, the first name; from the second format on words
// a card; in the third format globals, and registers of each mutator. Each format has limits of its own.
struct Sizes {
    Number regions, words, buffer, mutators;
    Word first_name;
    Number card = 8, globals = 16, registers = 8;
    Number format = 1;
};

enum class Refusal : std::uint8_t { Nil = 1, NoField, Full, TooBig, NamesSpent, MarkRunning, NotMarking };

enum class Form : std::uint8_t { Ok, Nil, Name, Value, Shape, Marked, Reclaimed, Refined, Moved, Refused };

struct Reply {
    Form form;
    Refusal refusal;
    Word first, second;
};

inline Reply reply(Form form, Word first = 0, Word second = 0) { return {form, Refusal::Nil, first, second}; }
inline Reply refused(Refusal refusal) { return {Form::Refused, refusal, 0, 0}; }

// Headers. The two lowest bits tell the kind: 0 an object, 1 a filler, 2 an object that was moved.
inline Word object_header(Word pointers, Word weaks, Word data) { return pointers << 8 | data << 32 | weaks << 56; }
inline Word filler_header(Word size) { return 1 | size << 8; }
inline Word moved_header(Address to) { return 2 | Word(to) << 8; }
inline bool is_object(Word header) { return (header & 3) == 0; }
inline bool is_moved(Word header) { return (header & 3) == 2; }
inline Number pointer_count(Word header) { return header >> 8 & 0xffffff; }
inline Number data_count(Word header) { return header >> 32 & 0xffffff; }
inline Number weak_count(Word header) { return Number(header >> 56); }
// Fields: pointers and, after them, weak slots.
inline Number field_count(Word header) { return pointer_count(header) + weak_count(header); }
inline Number filler_size(Word header) { return header >> 8 & 0xffffff; }
inline Address moved_to(Word header) { return Address(header >> 8); }
inline Number object_size(Word header) { return 2 + field_count(header) + data_count(header); }
inline Number tile_size(Word header) { return is_object(header) ? object_size(header) : filler_size(header); }

// The cards that may hold a pointer into one region: some by number, then whole regions of cards. The marks of
// the source regions of all sets are in one bitmap of the heap.
struct RememberedSet {
    Number count = 0;
    bool has_sources = false;
    Number cards[inline_cards];
};

enum class Kind : std::uint8_t { Free, Ordinary, First, Rest };

// What a pause does with a region.
enum class Role : std::uint8_t { None, Chosen, Destination };

struct Region {
    Kind kind;
    Role role;
    Address top;
    // The region's top when the last finished marking began, and when the running one began.
    Address previous_start, next_start;
    // Words of marked objects, of the last finished marking and of the running one.
    Number previous_live, next_live;
    // As many regions had objects made in them up to it; 0 where none are.
    Word age;
};

struct Buffer {
    Address next, end;
};

// What a step does, by counts: words copied, cards visited by pauses, cards refined, words that marking looks at, objects whose weak slots
// are cleared, words of flags that tell which cards lead into a region. Where PLAIN_COUNTS is defined they are counted.
enum Work : std::uint8_t { Copied, Visited, Refined, Looked, Cleared, Flagged, works };

class Heap {
public:
    explicit Heap(const Sizes& sizes)
        : sizes_(sizes), region_shift_(Number(__builtin_ctz(sizes.words))),
          heap_words_(sizes.regions * sizes.words), half_region_(sizes.words / 2),
          card_words_(sizes.card), card_shift_(Number(__builtin_ctz(sizes.card))),
          region_cards_(sizes.words / card_words_), next_name_(sizes.first_name), words_(new Word[heap_words_]),
          roots_(sizes.globals, sizes.mutators, sizes.registers), regions_(sizes.regions), free_regions_(sizes.regions),
          free_count_(sizes.regions), buffers_(sizes.mutators, Buffer{0, 0}), first_tile_(heap_words_ / card_words_),
          dirty_(heap_words_ / card_words_), card_logs_(sizes.mutators * card_log_length),
          card_log_counts_(sizes.mutators), queue_(heap_words_ / card_words_), remembered_(sizes.regions),
          sources_(std::size_t(sizes.regions) * source_stride(sizes.regions)), previous_marks_(heap_words_),
          next_marks_(heap_words_), grey_(heap_words_), finger_(heap_words_),
          stack_room_(sizes.format == 3 ? 64 : 0),
          deletion_logs_(sizes.mutators * deletion_log_length), deletion_log_counts_(sizes.mutators),
          weak_regions_(sizes.regions), covered_(heap_words_ / card_words_), noted_(heap_words_ / card_words_),
          entered_(heap_words_ / card_words_),
          filter_rows_(sizes.format == 3 && region_cards_ % 64 == 0 ? 21 * card_words_ / 32 : 0),
          filters_(std::size_t(sizes.regions) * filter_words()) {
        for (Number region = 0; region < sizes.regions; ++region) {
            make_free(region);
            free_regions_.add(region);
        }
        rows_.reserve(sizes.regions);
        chosen_.reserve(sizes.regions);
        destinations_.reserve(sizes.regions);
    }

    // The steps of mutators.

    Reply make(Number mutator, Number target, Word pointers, Word weaks, Word data) {
        Word size = 2 + pointers + weaks + data;
        if (size > std::min<Word>(heap_words_, largest_object)) return refused(Refusal::TooBig);
        if (next_name_ == ~Word(0)) return refused(Refusal::NamesSpent);
        Address at = place(mutator, Number(size));
        if (at == nowhere) return refused(Refusal::Full);
        words_[at] = object_header(pointers, weaks, data);
        words_[at + 1] = next_name_;
        std::fill_n(&words_[at] + 2, size - 2, 0);
        if (weaks != 0) weak_regions_.add(region_of(at));
        roots_.set_reg(mutator, target, Word(at) + 1);
        return reply(Form::Name, next_name_++);
    }

    Reply get(Number mutator, Number target, Number source, Number index) {
        Word object = root(mutator, source);
        if (object == 0) return refused(Refusal::Nil);
        Address at = Address(object - 1);
        if (index >= pointer_count(words_[at])) return refused(Refusal::NoField);
        Word value = words_[at + 2 + index];
        roots_.set_reg(mutator, target, value);
        return named(value);
    }

    Reply put(Number mutator, Number target, Number index, Number source) {
        return put_pointer(mutator, target, index, root(mutator, source));
    }

    Reply put_nil(Number mutator, Number target, Number index) { return put_pointer(mutator, target, index, 0); }

    // While marking runs, what a weak slot gives is logged like a deleted pointer: it may be held by it alone.
    Reply get_weak(Number mutator, Number target, Number source, Number index) {
        Word object = root(mutator, source);
        if (object == 0) return refused(Refusal::Nil);
        Address at = Address(object - 1);
        if (index >= weak_count(words_[at])) return refused(Refusal::NoField);
        Word value = words_[at + 2 + pointer_count(words_[at]) + index];
        if (marking_) log_address(mutator, value);
        roots_.set_reg(mutator, target, value);
        return named(value);
    }

    Reply put_weak(Number mutator, Number target, Number index, Number source) {
        return put_slot(mutator, target, index, root(mutator, source));
    }

    Reply put_weak_nil(Number mutator, Number target, Number index) { return put_slot(mutator, target, index, 0); }

    Reply weaks(Number mutator, Number source) {
        Word object = root(mutator, source);
        if (object == 0) return refused(Refusal::Nil);
        return reply(Form::Value, weak_count(words_[object - 1]));
    }

    Reply read(Number mutator, Number source, Number index) {
        Word object = root(mutator, source);
        if (object == 0) return refused(Refusal::Nil);
        Address at = Address(object - 1);
        Word header = words_[at];
        if (index >= data_count(header)) return refused(Refusal::NoField);
        return reply(Form::Value, words_[at + 2 + field_count(header) + index]);
    }

    Reply write(Number mutator, Number target, Number index, Word value) {
        Word object = root(mutator, target);
        if (object == 0) return refused(Refusal::Nil);
        Address at = Address(object - 1);
        Word header = words_[at];
        if (index >= data_count(header)) return refused(Refusal::NoField);
        words_[at + 2 + field_count(header) + index] = value;
        return reply(Form::Ok);
    }

    Reply move(Number mutator, Number target, Number source) {
        roots_.set_reg(mutator, target, root(mutator, source));
        return reply(Form::Ok);
    }

    Reply drop(Number mutator, Number target) {
        roots_.set_reg(mutator, target, 0);
        return reply(Form::Ok);
    }

    Reply load(Number mutator, Number target, Number global) {
        Word value = roots_.global(global);
        roots_.set_reg(mutator, target, value);
        return named(value);
    }

    Reply save(Number mutator, Number global, Number source) {
        roots_.set_global(global, root(mutator, source));
        return reply(Form::Ok);
    }

    // A frame is left. Nothing is logged for it: marking goes by the registers of when it began.
    Reply scope(Number mutator, Number from) {
        roots_.leave(mutator, from);
        return reply(Form::Ok);
    }

    Reply shape(Number mutator, Number source) {
        Word object = root(mutator, source);
        if (object == 0) return refused(Refusal::Nil);
        Word header = words_[object - 1];
        return reply(Form::Shape, pointer_count(header), data_count(header));
    }

    // The steps of the collector.

    Reply begin() {
        if (marking_) return refused(Refusal::MarkRunning);
        end_clearing();
        retire_buffers();
        next_marks_.clear();
        for (Region& region : regions_) {
            region.next_start = region.top;
            region.next_live = 0;
        }
        marked_ = 0;
        marking_ = true;
        old_ = ages_;
        roots_.each([&](Word pointer) {
            if (sizes_.format == 3) waiting_.push_back(Address(pointer - 1));
            else mark_object(Address(pointer - 1));
        });
        return reply(Form::Ok);
    }

    Reply mark(Number units) {
        if (!marking_) return refused(Refusal::NotMarking);
        return reply(Form::Ok, sizes_.format == 3 ? scan_words(units) : scan(units));
    }

    Reply remark() {
        if (!marking_) return refused(Refusal::NotMarking);
        for (Number mutator = 0; mutator < sizes_.mutators; ++mutator) take_deletion_log(mutator);
        while (!waiting_.empty()) take_root();
        scan(~Number(0));
        clear_weak_slots();
        uncleared_ = sizes_.format == 3 ? 0 : nowhere;
        previous_marks_.swap(next_marks_);
        for (Region& region : regions_) {
            std::swap(region.previous_start, region.next_start);
            std::swap(region.previous_live, region.next_live);
        }
        marking_ = false;
        return reply(Form::Marked, marked_);
    }

    Reply cleanup() {
        if (marking_) return refused(Refusal::MarkRunning);
        end_clearing();
        Number reclaimed = 0;
        for (Number region = 0; region < sizes_.regions; ++region) {
            if (regions_[region].kind == Kind::Ordinary) {
                if (region != current_ && live_bound(regions_[region]) == 0) {
                    release(region);
                    ++reclaimed;
                }
            } else if (regions_[region].kind == Kind::First && !is_kept(bottom(region))) {
                Number end = region + regions_for(object_size(words_[bottom(region)]));
                for (Number part = region; part < end; ++part) release(part);
                reclaimed += end - region;
            }
        }
        return reply(Form::Reclaimed, reclaimed);
    }

    Reply refine(Number cards) {
        Number count = std::min(cards, queue_count_);
        for (Number done = 0; done < count; ++done) refine_first();
        return reply(Form::Refined, count);
    }

    Reply pause(Number budget) {
        make_ready();
        choose(budget);
        if (chosen_.empty()) return reply(Form::Moved);
        return evacuate();
    }

    Reply compact(Number budget) {
        make_ready();
        choose_highest(budget);
        if (!chosen_.empty()) return evacuate();
        Number run = marking_ ? no_region : run_to_move(budget);
        return run == no_region ? reply(Form::Moved) : move_run(run);
    }

    Reply pause_within(Number budget, Number cards) {
        make_ready();
        choose(budget);
        keep_within(cards);
        if (chosen_.empty()) return reply(Form::Moved);
        return evacuate();
    }

    // Weak slots are cleared by remark. Here it is counted how far a heap would be that clears them little by little.
    Reply clear(Number units) {
        if (uncleared_ == nowhere) return reply(Form::Ok);
        Address at = uncleared_ == 0 ? with_weaks(0, 0) : uncleared_;
        for (; at != nowhere && units != 0; --units, count(Cleared, 1)) at = with_weaks(region_of(at), at + tile_size(words_[at]));
        uncleared_ = at;
        return reply(Form::Ok);
    }

    Reply young(Number budget, Number cards) {
        make_ready();
        choose_young(budget);
        keep_within(cards);
        if (chosen_.empty()) return reply(Form::Moved);
        return evacuate();
    }

#ifdef PLAIN_COUNTS
    Word work(Work kind) const { return work_[kind]; }
#endif

protected:
#ifdef PLAIN_COUNTS
    void count(Work kind, Word number) { work_[kind] += number; }
    void end_clearing() { clear(~Number(0)); }
#else
    void count(Work, Word) {}
    void end_clearing() { uncleared_ = nowhere; }
#endif

    // What the words of the tiles that start in a region are: of objects that the last finished marking marked, of objects that it didn't,
    // of objects made since it began, of fillers.
    struct Shares {
        Number marked, dead, fresh, filler;
    };

    // The share that the tile at an address counts to.
    Number& share_of(Address at, Shares& shares) const {
        if (!is_object(words_[at])) return shares.filler;
        if (at >= regions_[region_of(at)].previous_start) return shares.fresh;
        return previous_marks_.has(at) ? shares.marked : shares.dead;
    }

    Word root(Number mutator, Number number) const { return roots_.reg(mutator, number); }

    Reply named(Word pointer) const {
        return pointer == 0 ? reply(Form::Nil) : reply(Form::Name, words_[Address(pointer - 1) + 1]);
    }

    // Regions.

    Number region_of(Address at) const { return at >> region_shift_; }
    Address bottom(Number region) const { return region << region_shift_; }
    Number regions_for(Number size) const { return (size + sizes_.words - 1) >> region_shift_; }

    static std::size_t source_stride(Number regions) { return (regions + 63) / 64; }

    void make_free(Number number) {
        Address start = bottom(number);
        regions_[number] = Region{Kind::Free, Role::None, start, start, start, 0, 0, 0};
    }

    void release(Number number) {
        make_free(number);
        previous_marks_.fill_block(bottom(number), sizes_.words, false);
        next_marks_.fill_block(bottom(number), sizes_.words, false);
        RememberedSet& set = remembered_[number];
        set.count = 0;
        if (set.has_sources) {
            std::size_t stride = source_stride(sizes_.regions);
            std::fill_n(sources_.begin() + number * stride, stride, 0);
            set.has_sources = false;
        }
        entered_.fill_block(number * region_cards_, region_cards_, false);
        std::fill_n(filters_.begin() + number * filter_words(), filter_words(), 0);
        weak_regions_.remove(number);
        free_regions_.add(number);
        ++free_count_;
    }

    void take(Number number, Kind kind) {
        regions_[number].kind = kind;
        free_regions_.remove(number);
        --free_count_;
    }

    // Notes that a tile starts at `start`: the cards whose first word is in it lead to it.
    void note_tile(Address start, Number size) {
        Number end = (start + size - 1) >> card_shift_;
        for (Number card = (start + card_words_ - 1) >> card_shift_; card <= end; ++card) first_tile_[card] = start;
    }

    // Placement.

    Address place(Number mutator, Number size) {
        if (size > half_region_) return place_large(size);
        Buffer& buffer = buffers_[mutator];
        if (size <= buffer.end - buffer.next) {
            Address at = buffer.next;
            note_tile(at, size);
            buffer.next += size;
            leave_filler(buffer);
            return at;
        }
        if (size > sizes_.buffer) return cut(size);
        Address at = cut(sizes_.buffer);
        if (at != nowhere) {
            buffer = Buffer{at + size, at + sizes_.buffer};
            leave_filler(buffer);
        }
        return at;
    }

    // Cuts words from the top of the current region, which becomes the lowest free one where they don't fit.
    Address cut(Number size) {
        if (current_ == no_region || bottom(current_) + sizes_.words - regions_[current_].top < size) {
            Number lowest = free_regions_.next(0);
            if (lowest == nowhere) return nowhere;
            take(lowest, Kind::Ordinary);
            regions_[lowest].age = ++ages_;
            current_ = lowest;
        }
        Address at = regions_[current_].top;
        regions_[current_].top += size;
        note_tile(at, size);
        return at;
    }

    // The rest of a buffer is one filler. The buffer's last card is the only one of it that may also hold what
    // follows the buffer, so it alone must lead to the filler; the others may lead to an earlier tile.
    void leave_filler(const Buffer& buffer) {
        if (buffer.next == buffer.end) return;
        words_[buffer.next] = filler_header(buffer.end - buffer.next);
        Number last = (buffer.end - 1) >> card_shift_;
        if (last << card_shift_ >= buffer.next) first_tile_[last] = buffer.next;
    }

    void retire_buffers() { std::fill(buffers_.begin(), buffers_.end(), Buffer{0, 0}); }

    // Takes the lowest run of adjacent free regions that is long enough.
    Address place_large(Number size) {
        Number length = regions_for(size);
        if (length > free_count_) return nowhere;
        Number first = free_regions_.next(0), end = first;
        while (end - first < length) {
            if (end == sizes_.regions) return nowhere;
            if (free_regions_.has(end)) {
                ++end;
            } else {
                first = end = free_regions_.next(end);
                if (first == nowhere) return nowhere;
            }
        }
        take_run(first, size);
        return bottom(first);
    }

    // The regions from `first` on hold one object.
    void take_run(Number first, Number size) {
        Address at = bottom(first);
        for (Number region = first; region < first + regions_for(size); ++region) {
            take(region, region == first ? Kind::First : Kind::Rest);
            regions_[region].top = std::min(bottom(region) + sizes_.words, at + size);
        }
        note_tile(at, size);
    }

    // Stores, cards, remembered sets.

    Reply put_pointer(Number mutator, Number target, Number index, Word value) {
        Word object = root(mutator, target);
        if (object == 0) return refused(Refusal::Nil);
        Address at = Address(object - 1);
        if (index >= pointer_count(words_[at])) return refused(Refusal::NoField);
        Address field = at + 2 + index;
        if (marking_) log_address(mutator, words_[field]);
        return store(mutator, field, value);
    }

    Reply put_slot(Number mutator, Number target, Number index, Word value) {
        Word object = root(mutator, target);
        if (object == 0) return refused(Refusal::Nil);
        Address at = Address(object - 1);
        if (index >= weak_count(words_[at])) return refused(Refusal::NoField);
        return store(mutator, at + 2 + pointer_count(words_[at]) + index, value);
    }

    // Stores a field, and notes its card where the value leads into another region.
    Reply store(Number mutator, Address field, Word value) {
        words_[field] = value;
        if (value != 0 && region_of(Address(value - 1)) != region_of(field)) {
            Number card = field >> card_shift_;
            if (!dirty_[card]) {
                dirty_[card] = 1;
                card_logs_[mutator * card_log_length + card_log_counts_[mutator]++] = card;
                if (card_log_counts_[mutator] == card_log_length) flush_card_log(mutator);
            }
        }
        return reply(Form::Ok);
    }

    void flush_card_log(Number mutator) {
        for (Number place = 0; place < card_log_counts_[mutator]; ++place)
            enqueue(card_logs_[mutator * card_log_length + place]);
        card_log_counts_[mutator] = 0;
    }

    // The queue is a ring with room for every card, since a card is in it at most once.
    void enqueue(Number card) {
        Number place = queue_first_ + queue_count_++;
        if (place >= queue_.size()) place -= Number(queue_.size());
        queue_[place] = card;
    }

    // Cleans the queue's first card and remembers the pointers in it that lead into other regions.
    void refine_first() {
        Number card = queue_[queue_first_];
        if (++queue_first_ == queue_.size()) queue_first_ = 0;
        --queue_count_;
        count(Refined, 1);
        dirty_[card] = 0;
        Number source = region_of(card << card_shift_);
        visit_fields(card, [&](Word& field) {
            Number region = region_of(Address(field - 1));
            if (region != source) remember(region, card, source);
        });
    }

    // Gives each field of a card that isn't nil and belongs to a kept object to `visit`.
    template <class Visit>
    void visit_fields(Number card, Visit visit) {
        Address start = card << card_shift_;
        Address end = std::min(start + card_words_, regions_[region_of(start)].top);
        if (start >= end) return;
        for (Address at = first_tile_[card]; at < end;) {
            Word header = words_[at];
            if (is_object(header)) {
                Address from = std::max(at + 2, start), to = std::min(at + 2 + field_count(header), end);
                if (from < to && is_kept(at))
                    for (; from < to; ++from)
                        if (words_[from] != 0) visit(words_[from]);
            }
            at += tile_size(header);
        }
    }

    void remember(Number region, Number card, Number source) {
        entered_.add(card);
        enter_filter(region, card, source);
        RememberedSet& set = remembered_[region];
        Word& sources = sources_[region * source_stride(sizes_.regions) + (source >> 6)];
        Word mark = Word(1) << (source & 63);
        if (sources & mark) return;
        for (Number place = 0; place < set.count; ++place)
            if (set.cards[place] == card) return;
        if (set.count < inline_cards) {
            set.cards[set.count++] = card;
        } else {
            sources |= mark;
            set.has_sources = true;
        }
    }

    // In a large heap each set has a filter: rows of a flag for each card of a region, which several regions share. A card has a place in
    // a row of the first kind, of which there are twice as many, and in one of the second.
    std::size_t filter_words() const { return std::size_t(3) * filter_rows_ * region_cards_ / 64; }

    std::size_t filter_place(Number row, Number card) const { return std::size_t(row) * region_cards_ + (card & (region_cards_ - 1)); }

    std::size_t first_place(Number card, Number source) const { return filter_place(source % (2 * filter_rows_), card); }

    std::size_t second_place(Number card, Number source) const {
        return filter_place(2 * filter_rows_ + (source + source / (2 * filter_rows_)) % filter_rows_, card);
    }

    // The words of the row of a region's first card.
    const Word* filter_row(Number region, Number card, bool is_first) const {
        Number source = region_of(card << card_shift_);
        return &filters_[region * filter_words() + (is_first ? first_place(card, source) : second_place(card, source)) / 64];
    }

    void enter_filter(Number region, Number card, Number source) {
        if (filter_rows_ == 0) return;
        Word* filter = &filters_[region * filter_words()];
        for (std::size_t place : {first_place(card, source), second_place(card, source)}) filter[place / 64] |= Word(1) << (place & 63);
    }

    bool lets_through(Number region, Number card) const {
        if (filter_rows_ == 0) return true;
        const Word* filter = &filters_[region * filter_words()];
        Number source = region_of(card << card_shift_);
        std::size_t first = first_place(card, source), second = second_place(card, source);
        return (filter[first / 64] >> (first & 63) & 1) != 0 && (filter[second / 64] >> (second & 63) & 1) != 0;
    }

    // Adds the cards that may lead into a region to covered_: those that its set covers and its filter lets through, and that entered a set.
    void find_leading(Number region) {
        const RememberedSet& set = remembered_[region];
        auto look = [&](Number card) {
            if (entered_.has(card) && lets_through(region, card)) covered_.add(card);
        };
        for (Number place = 0; place < set.count; ++place) look(set.cards[place]);
        if (!set.has_sources) return;
        std::size_t stride = source_stride(sizes_.regions);
        for (std::size_t index = 0; index < stride; ++index) {
            for (Word bits = sources_[region * stride + index]; bits != 0; bits &= bits - 1) {
                count(Flagged, region_cards_ / 64 + 1);
                Number first = (Number(index << 6) + Number(__builtin_ctzll(bits))) * region_cards_;
                if (filter_rows_ == 0) covered_.add_members(first, region_cards_, entered_);
                else covered_.add_members(first, region_cards_, entered_, filter_row(region, first, true), filter_row(region, first, false));
            }
        }
    }

    // Marking.

    // Kept: made since the last finished marking began, or marked by it.
    bool is_kept(Address at) const { return at >= regions_[region_of(at)].previous_start || previous_marks_.has(at); }

    Number live_bound(const Region& region) const { return region.previous_live + (region.top - region.previous_start); }

    // Marks an object and makes it grey, where it was there when marking began and isn't marked.
    void mark_object(Address at) {
        Region& region = regions_[region_of(at)];
        if (at >= region.next_start || next_marks_.has(at)) return;
        next_marks_.add(at);
        grey_.add(at);
        finger_ = std::min(finger_, at);
        hold(at);
        region.next_live += object_size(words_[at]);
        ++marked_;
    }

    // The object that is scanned next is held. In the third format it is the one that was found last, and those that were held before are
    // on a stack while there is room. Else it is the lower of the two. Where its scan has begun, it stays held, and the other one is put on
    // the stack, or where there is no room waits among the grey ones.
    void hold(Address at) {
        if (held_ == nowhere) held_ = at;
        else if (looked_ != 0) {
            if (stacked_ < stack_room_) stack_[stacked_++] = at;
        } else if (stacked_ < stack_room_) stack_[stacked_++] = std::exchange(held_, at);
        else held_ = std::min(held_, at);
    }

    // The held object isn't grey any more. The last one of the stack is held, or else the lowest grey one. None starts below the finger.
    void drop_held() {
        grey_.remove(held_);
        looked_ = 0;
        if (stacked_ > 0) {
            held_ = stack_[--stacked_];
        } else {
            held_ = grey_.lowest(finger_);
            finger_ = held_ == nowhere ? heap_words_ : held_;
        }
    }

    // Scans so many grey objects, or all there are; of none it looks at the weak slots.
    Number scan(Number units) {
        for (Number scanned = 0; scanned != units; ++scanned) {
            if (held_ == nowhere) return scanned;
            scan_held();
        }
        return units;
    }

    // Where the pointers of the held object begin that were not looked at.
    Address first_left() const { return held_ + 2 + (looked_ == 0 ? 0 : looked_ - 1); }

    // Scans what is left of the held object, which isn't grey any more before what it names is.
    void scan_held() {
        Address field = first_left(), end = held_ + 2 + pointer_count(words_[held_]);
        drop_held();
        mark_targets(field, end);
    }

    // Looks at so many words more of the held object, and not at all that are left: it is the first one, and then its pointers are.
    void look_at_held(Number words) {
        Address field = first_left();
        looked_ += words;
        mark_targets(field, held_ + 1 + looked_);
    }

    void mark_targets(Address field, Address end) {
        count(Looked, Word(1) + end - field);
        for (; field < end; ++field)
            if (words_[field] != 0) mark_object(Address(words_[field] - 1));
    }

    // In the third format: takes roots that wait, and then scans grey objects, until so many words are looked at. A root is one, an object
    // is one, and each of its pointers is. An object of more words than are left is scanned in part. How many objects were scanned.
    Number scan_words(Number words) {
        Number scanned = 0;
        for (; words != 0 && !waiting_.empty(); --words) take_root();
        while (words != 0 && held_ != nowhere) {
            Word left = Word(1) + pointer_count(words_[held_]) - looked_;
            if (left > words) {
                look_at_held(words);
                break;
            }
            words -= Number(left);
            scan_held();
            ++scanned;
        }
        return scanned;
    }

    // The last of the roots that wait: what it named when marking began is marked.
    void take_root() {
        mark_object(waiting_.back());
        waiting_.pop_back();
    }

    // Notes an object that a pointer or a weak slot named, if it was there when marking began.
    void log_address(Number mutator, Word pointer) {
        if (pointer == 0) return;
        Address at = Address(pointer - 1);
        if (at >= regions_[region_of(at)].next_start) return;
        deletion_logs_[mutator * deletion_log_length + deletion_log_counts_[mutator]++] = at;
        if (deletion_log_counts_[mutator] == deletion_log_length) take_deletion_log(mutator);
    }

    [[gnu::noinline]] void take_deletion_log(Number mutator) {
        for (Number place = 0; place < deletion_log_counts_[mutator]; ++place)
            mark_object(deletion_logs_[mutator * deletion_log_length + place]);
        deletion_log_counts_[mutator] = 0;
    }

    // Marked by the running marking, or made since it began.
    bool is_reached(Address at) const { return at >= regions_[region_of(at)].next_start || next_marks_.has(at); }

    // At the end of marking: weak slots of reached objects become nil where what they name isn't reached.
    void clear_weak_slots() {
        for (Number region = weak_regions_.next(0); region != nowhere; region = weak_regions_.next(region + 1)) {
            for (Address at = bottom(region); at < regions_[region].top; at += tile_size(words_[at]))
                if (is_object(words_[at]) && weak_count(words_[at]) != 0 && is_reached(at)) clear_slots_of(at);
        }
    }

    // The first object with weak slots from a tile of a region on.
    Address with_weaks(Number region, Address tile) const {
        while (region != nowhere) {
            for (; tile < regions_[region].top; tile += tile_size(words_[tile]))
                if (is_object(words_[tile]) && weak_count(words_[tile]) != 0) return tile;
            region = weak_regions_.next(region + 1);
            if (region != nowhere) tile = bottom(region);
        }
        return nowhere;
    }

    void clear_slots_of(Address at) {
        Address first = at + 2 + pointer_count(words_[at]), end = first + weak_count(words_[at]);
        for (Address slot = first; slot < end; ++slot)
            if (words_[slot] != 0 && !is_reached(Address(words_[slot] - 1))) words_[slot] = 0;
    }

    // The pause, and the compaction.

    void make_ready() {
        end_clearing();
        retire_buffers();
        current_ = no_region;
        for (Number mutator = 0; mutator < sizes_.mutators; ++mutator) flush_card_log(mutator);
        while (queue_count_ != 0) refine_first();
    }

    // Leaves the collection set in chosen_: the least live regions first, by number where they are alike, within the
    // copy limit. A row is a live bound and a region in one word.
    void choose(Number budget) {
        Word limit = std::min(Word(budget), Word(free_count_) * sizes_.words / 2);
        rows_.clear();
        for (Number number = 0; number < sizes_.regions; ++number) {
            const Region& region = regions_[number];
            if (region.kind != Kind::Ordinary || (marking_ && region.next_start != bottom(number))) continue;
            Number bound = live_bound(region);
            // A region that by itself is over the limit is never taken.
            if (bound < sizes_.words && bound <= limit) rows_.push_back(Word(bound) << 32 | number);
        }
        // Mostly a few of many rows are taken, so that a heap of rows is cheaper than sorting them all.
        std::make_heap(rows_.begin(), rows_.end(), std::greater<Word>());
        chosen_.clear();
        Word sum = 0;
        while (!rows_.empty() && sum + (rows_.front() >> 32) <= limit) {
            sum += rows_.front() >> 32;
            std::pop_heap(rows_.begin(), rows_.end(), std::greater<Word>());
            chosen_.push_back(Number(rows_.back()));
            rows_.pop_back();
        }
    }

    // Leaves the highest ordinary regions in chosen_, none while marking runs: the longest front of them, from the highest down, whose live
    // bounds are within the copy limit and of which the last, the k-th, is above the free region of which 2 k - 2 are lower.
    void choose_highest(Number budget) {
        Word limit = std::min(Word(budget), Word(free_count_) * sizes_.words / 2);
        chosen_.clear();
        if (marking_) return;
        rows_.clear();
        for (Number number = 0; number < sizes_.regions; ++number)
            if (regions_[number].kind == Kind::Free) rows_.push_back(number);
        Word sum = 0;
        for (Number number = sizes_.regions; number-- != 0;) {
            if (regions_[number].kind != Kind::Ordinary) continue;
            sum += live_bound(regions_[number]);
            std::size_t place = 2 * chosen_.size();
            if (sum > limit || place >= rows_.size() || rows_[place] > number) return;
            chosen_.push_back(number);
        }
    }

    // Leaves in chosen_ the ordinary regions that objects were made in since marking began last, the oldest first, within the copy limit.
    void choose_young(Number budget) {
        Word limit = std::min(Word(budget), Word(free_count_) * sizes_.words / 2), sum = 0;
        chosen_.clear();
        for (Number number = 0; number < sizes_.regions; ++number) {
            const Region& region = regions_[number];
            bool is_new = !marking_ || region.next_start == bottom(number);
            if (region.kind == Kind::Ordinary && region.age > old_ && is_new) chosen_.push_back(number);
        }
        std::sort(chosen_.begin(), chosen_.end(), [&](Number one, Number other) { return regions_[one].age < regions_[other].age; });
        std::size_t count = 0;
        while (count < chosen_.size() && (sum += live_bound(regions_[chosen_[count]])) <= limit) ++count;
        chosen_.resize(count);
    }

    // Of the chosen regions those stay that at most so many cards may lead into, as long as these are at most so many together.
    void keep_within(Number cards) {
        std::size_t kept = 0;
        Word sum = 0;
        for (Number number : chosen_) {
            Number count = 0;
            find_leading(number);
            covered_.drain([&](Number) { ++count; });
            if (count > cards) continue;
            if ((sum += count) > cards) break;
            chosen_[kept++] = number;
        }
        chosen_.resize(kept);
    }

    Reply evacuate() {
        copied_ = 0;
        destinations_.clear();
        for (Number number : chosen_) {
            regions_[number].role = Role::Chosen;
            find_leading(number);
        }
        roots_.each([&](Word& pointer) { pointer = moved(pointer); });
        covered_.drain([&](Number card) {
            // A card of a chosen region isn't outside; nor is one of a region that was free when the pause began.
            if (regions_[region_of(card << card_shift_)].role != Role::None) return;
            count(Visited, 1);
            visit_fields(card, [&](Word& field) {
                if (regions_[region_of(Address(field - 1))].role != Role::Chosen) return;
                field = moved(field);
                note(card, Address(field - 1));
            });
        });
        // Copies are in the order in which they were made, so that a walk over the destinations goes breadth first.
        for (std::size_t place = 0; place < destinations_.size(); ++place) {
            Number number = destinations_[place];
            for (Address at = bottom(number); at < regions_[number].top; at += object_size(words_[at]))
                settle_fields(at, number);
        }
        for (Number number : chosen_) release(number);
        for (Number number : destinations_) regions_[number].role = Role::None;
        dirty_noted();
        return reply(Form::Moved, chosen_.size(), copied_);
    }

    void dirty_noted() {
        noted_.drain([&](Number card) {
            dirty_[card] = 1;
            enqueue(card);
        });
    }

    // The lowest run with a free region directly below it whose object is kept and has at most so many words.
    Number run_to_move(Number words) const {
        for (Number number = 1; number < sizes_.regions; ++number) {
            bool is_above_free = regions_[number].kind == Kind::First && regions_[number - 1].kind == Kind::Free;
            if (is_above_free && is_kept(bottom(number)) && object_size(words_[bottom(number)]) <= words) return number;
        }
        return no_region;
    }

    // Moves a run to the lowest of the free regions directly below it, over its own words where it is longer than the way.
    Reply move_run(Number first) {
        Number place = first;
        while (place != 0 && regions_[place - 1].kind == Kind::Free) --place;
        Address from = bottom(first), to = bottom(place);
        Number size = object_size(words_[from]), end = first + regions_for(size);
        find_leading(first);
        std::memmove(&words_[to], &words_[from], size * sizeof(Word));
        for (Number region = first; region < end; ++region) release(region);
        take_run(place, size);
        if (weak_count(words_[to]) != 0) weak_regions_.add(place);
        auto redirect = [&](Word& pointer) { return pointer == Word(from) + 1 ? (pointer = Word(to) + 1, true) : false; };
        roots_.each(redirect);
        covered_.drain([&](Number card) {
            // The run's own fields aren't outside. What is at their old place now is free, or the object itself.
            Number region = region_of(card << card_shift_);
            if (first <= region && region < end) return;
            count(Visited, 1);
            visit_fields(card, [&](Word& field) { if (redirect(field)) noted_.add(card); });
        });
        for (Address field = to + 2; field < to + 2 + field_count(words_[to]); ++field) {
            redirect(words_[field]);
            if (words_[field] != 0 && region_of(Address(words_[field] - 1)) != region_of(field)) noted_.add(field >> card_shift_);
        }
        dirty_noted();
        return reply(Form::Moved, end - first, size);
    }

    // Leads the fields of a copy to the new places of what they name.
    void settle_fields(Address at, Number number) {
        Address end = at + 2 + field_count(words_[at]);
        for (Address field = at + 2; field < end; ++field) {
            if (words_[field] == 0) continue;
            words_[field] = moved(words_[field]);
            if (region_of(Address(words_[field] - 1)) != number) note(field >> card_shift_, Address(words_[field] - 1));
        }
    }

    // A field in a card leads to the target. In the third format that is noted at once in the set of the target's region; else the card is
    // dirty after the pause.
    void note(Number card, Address target) {
        Number home = region_of(card << card_shift_), region = region_of(target);
        if (region == home) return;
        if (sizes_.format == 3) remember(region, card, home);
        else noted_.add(card);
    }

    // The pointer to an object's place after the pause; an object of the set is copied the first time.
    Word moved(Word pointer) {
        Address at = Address(pointer - 1);
        if (regions_[region_of(at)].role != Role::Chosen) return pointer;
        Word header = words_[at];
        return Word(is_moved(header) ? moved_to(header) : copy(at, object_size(header))) + 1;
    }

    Address copy(Address from, Number size) {
        if (destinations_.empty() || bottom(destinations_.back()) + sizes_.words - regions_[destinations_.back()].top < size) {
            Number lowest = free_regions_.next(0);
            take(lowest, Kind::Ordinary);
            regions_[lowest].role = Role::Destination;
            destinations_.push_back(lowest);
        }
        Region& region = regions_[destinations_.back()];
        Address to = region.top;
        region.top += size;
        std::memcpy(&words_[to], &words_[from], size * sizeof(Word));
        words_[from] = moved_header(to);
        note_tile(to, size);
        if (weak_count(words_[to]) != 0) weak_regions_.add(destinations_.back());
        copied_ += size;
        count(Copied, size);
        return to;
    }

    const Sizes sizes_;
    const Number region_shift_, heap_words_, half_region_, card_words_, card_shift_, region_cards_;

    Word next_name_;
    // Not cleared at first: a word is written before it is read.
    std::unique_ptr<Word[]> words_;
    Roots roots_;

    std::vector<Region> regions_;
    Bitmap free_regions_;
    Number free_count_;
    Number current_ = no_region;
    std::vector<Buffer> buffers_;
    // For each card whose first word is below its region's top, a tile at or before that word from which a walk
    // reaches it; for all cards but those inside a filler it is the tile that holds that word.
    std::vector<Address> first_tile_;

    std::vector<std::uint8_t> dirty_;
    std::vector<Number> card_logs_;
    std::vector<Number> card_log_counts_;
    std::vector<Number> queue_;
    Number queue_first_ = 0, queue_count_ = 0;
    std::vector<RememberedSet> remembered_;
    std::vector<Word> sources_;

    Bitmap previous_marks_, next_marks_;
    GreySet grey_;
    Address finger_, held_ = nowhere, stack_[64];
    Number stack_room_, stacked_ = 0;
    // How many words of the held object were looked at, where its scan has begun.
    Number looked_ = 0;
    bool marking_ = false;
    Number marked_ = 0;
    // From where on objects with weak slots would still be cleared, and nowhere once that is over.
    Address uncleared_ = nowhere;
    // What roots named when marking began, and is still to be marked: in the third format.
    std::vector<Address> waiting_;
    std::vector<Address> deletion_logs_;
    std::vector<Number> deletion_log_counts_;
    // The regions in which objects with weak slots were placed since they were taken; a run's first alone.
    Bitmap weak_regions_;

    CardSet covered_, noted_;
    // The cards that entered a set since that of their own region was emptied last.
    Bitmap entered_;
    const Number filter_rows_;
    std::vector<Word> filters_;
    // How many regions had objects made in them; and how many when marking began last.
    Word ages_ = 0, old_ = 0;
    std::vector<Word> rows_;
    std::vector<Number> chosen_;
    std::vector<Number> destinations_;
    Word copied_ = 0;
#ifdef PLAIN_COUNTS
    Word work_[works] = {};
#endif
};

}  // namespace plain
