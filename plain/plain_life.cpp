// plain_life: does the lines of a heap script in order on the plain heap, and prints all of the heap before the first and after each.
//
//   g++ -O2 -std=c++17 -o plain_life plain/plain_life.cpp
//   plain_life FILE [EVENT ..]      after these events alone, where some are named
//
// The lines are those that crates/page_parts/page/README.md describes, from `m` to `x`, with each region after each event, and with nothing
// left out: all cards of the queue, all roots, all tiles, all fields. Beside that `d MUTATOR ADDRESS ..` is a deletion log, `t REGION
// PREVIOUS NEXT` are the tops at mark start of a region in use, by address, and a field that leads to no object is `?` and its address. The
// text with a fault ends it with status 1, and sizes aren't tested. It is what tools/check_page and tools/check_views compare with.

#include <cstdio>
#include <fstream>
#include <set>
#include <sstream>
#include <string>
#include <vector>

#include "plain_script.h"

namespace {

using namespace plain;

// A heap that is told as lines.
class Told : public Heap {
public:
    explicit Told(const Sizes& sizes) : Heap(sizes) {}

    void tell(unsigned long event, Word copied) const {
        std::vector<bool> starts = object_starts();
        tell_numbers(event, copied);
        for (Number mutator = 0; mutator < sizes_.mutators; ++mutator)
            if (const Buffer& buffer = buffers_[mutator]; buffer.next < buffer.end)
                std::printf("b %u %u %u\n", mutator, buffer.next, buffer.end - buffer.next);
        tell_cards();
        tell_roots();
        for (Number region = 0; region < sizes_.regions; ++region)
            if (regions_[region].kind != Kind::Free)
                std::printf("t %u %u %u\n", region, regions_[region].previous_start, regions_[region].next_start);
        for (Number region = 0; region < sizes_.regions; ++region) tell_region(region, starts);
    }

private:
    bool is_in_use(Number region) const { return regions_[region].kind == Kind::Ordinary || regions_[region].kind == Kind::First; }

    // The bottom of what comes after the tiles that start in a region: a run's object ends in a later one.
    Address end_of(Number region) const {
        return regions_[region].kind == Kind::First ? bottom(region) + object_size(words_[bottom(region)]) : regions_[region].top;
    }

    template <class Visit>
    void each_tile(Number region, Visit visit) const {
        if (!is_in_use(region)) return;
        for (Address at = bottom(region); at < end_of(region); at += tile_size(words_[at])) visit(at);
    }

    std::vector<bool> object_starts() const {
        std::vector<bool> starts(heap_words_);
        for (Number region = 0; region < sizes_.regions; ++region)
            each_tile(region, [&](Address at) { starts[at] = is_object(words_[at]); });
        return starts;
    }

    Number live_words(Number region) const {
        if (regions_[region].kind == Kind::Ordinary) return live_bound(regions_[region]);
        return regions_[region].kind == Kind::First && is_kept(bottom(region)) ? object_size(words_[bottom(region)]) : 0;
    }

    Number grey_count(Number region) const {
        Number count = 0;
        each_tile(region, [&](Address at) { count += grey_.has(at); });
        return count;
    }

    void tell_numbers(unsigned long event, Word copied) const {
        Word used = 0, live = 0, dirty = queue_count_, grey = 0;
        for (Number region = 0; region < sizes_.regions; ++region) {
            used += regions_[region].top - bottom(region);
            live += live_words(region);
            grey += grey_count(region);
        }
        for (Number count : card_log_counts_) dirty += count;
        std::printf("m %lu %lu %lu %u %u %lu %lu %d %lu %lu ", event, used, live, free_count_, queue_count_, dirty, copied, marking_,
                    marked_ - grey, next_name_);
        if (current_ == no_region) std::printf("-\n");
        else std::printf("%u\n", current_);
    }

    void tell_cards() const {
        if (queue_count_ != 0) std::printf("q");
        for (Number place = 0; place < queue_count_; ++place) std::printf(" %u", queue_[(queue_first_ + place) % queue_.size()]);
        if (queue_count_ != 0) std::printf("\n");
        for (Number mutator = 0; mutator < sizes_.mutators; ++mutator)
            tell_log("l", mutator, &card_logs_[mutator * card_log_length], card_log_counts_[mutator]);
        for (Number mutator = 0; mutator < sizes_.mutators; ++mutator)
            tell_log("d", mutator, &deletion_logs_[mutator * deletion_log_length], deletion_log_counts_[mutator]);
    }

    void tell_log(const char* letter, Number mutator, const Number* log, Number count) const {
        if (count == 0) return;
        std::printf("%s %u", letter, mutator);
        for (Number place = 0; place < count; ++place) std::printf(" %u", log[place]);
        std::printf("\n");
    }

    void tell_roots() const {
        Number place = 0;
        auto tell_root = [&](Word pointer) {
            if (pointer != 0) std::printf(" %u %lu", place, pointer - 1);
            ++place;
        };
        std::printf("n");
        for (Number number = 0; number < sizes_.globals; ++number) tell_root(roots_.global(number));
        for (Number mutator = 0; mutator < sizes_.mutators; ++mutator)
            for (Number number = 0; number < sizes_.registers; ++number) tell_root(roots_.reg(mutator, number));
        std::printf("\n");
    }

    void tell_region(Number number, const std::vector<bool>& starts) const {
        const Region& region = regions_[number];
        std::printf("r %u ", number);
        if (region.kind == Kind::Free) std::printf("f\n");
        else if (region.kind == Kind::Rest) std::printf("t %u\n", region.top - bottom(number));
        else tell_shares(number);
        tell_set(number);
        each_tile(number, [&](Address at) { tell_tile(at, at - bottom(number), starts); });
    }

    void tell_shares(Number number) const {
        const Region& region = regions_[number];
        Shares shares{};
        each_tile(number, [&](Address at) { share_of(at, shares) += tile_size(words_[at]); });
        std::printf("%c %u %u %u %u %u %u %u", region.kind == Kind::First ? 'h' : 'o', region.top - bottom(number), shares.marked,
                    shares.dead, shares.fresh, shares.filler, live_words(number), region.previous_start - bottom(number));
        if (marking_) std::printf(" %u %u", region.next_start - bottom(number), grey_count(number));
        std::printf("\n");
    }

    void tell_set(Number number) const {
        const RememberedSet& set = remembered_[number];
        if (set.count == 0) return;
        std::printf("s");
        for (Number place = 0; place < set.count; ++place) std::printf(" %u", set.cards[place]);
        std::printf(" ;");
        for (Number source = 0; source < sizes_.regions; ++source)
            if (sources_[number * source_stride(sizes_.regions) + (source >> 6)] >> (source & 63) & 1) std::printf(" %u", source);
        std::printf("\n");
    }

    void tell_tile(Address at, Number offset, const std::vector<bool>& starts) const {
        Word header = words_[at];
        if (!is_object(header)) {
            std::printf("x %u %u\n", offset, tile_size(header));
            return;
        }
        Shares shares{};
        share_of(at, shares) = 1;
        std::printf("o %u %lu %s%s", offset, words_[at + 1], shares.marked ? "m" : shares.dead ? "d" : "n", progress(at));
        Address field = at + 2, weaks = field + pointer_count(header), data = weaks + weak_count(header), end = at + object_size(header);
        for (; field < weaks; ++field) tell_field(words_[field], starts);
        std::printf(" ;");
        for (; field < data; ++field) tell_field(words_[field], starts);
        std::printf(" ;");
        for (; field < end; ++field) std::printf(" %lu", words_[field]);
        std::printf("\n");
    }

    const char* progress(Address at) const {
        if (!marking_) return "";
        if (at >= regions_[region_of(at)].next_start) return "n";
        return !next_marks_.has(at) ? "u" : grey_.has(at) ? "g" : "s";
    }

    void tell_field(Word pointer, const std::vector<bool>& starts) const {
        if (pointer == 0) std::printf(" -");
        else if (starts[pointer - 1]) std::printf(" %lu", words_[pointer]);
        else std::printf(" ?%lu", pointer - 1);
    }
};

}  // namespace

int main(int count, char** arguments) {
    if (count < 2) return 2;
    std::set<unsigned long> asked;
    for (int place = 2; place < count; ++place) asked.insert(std::stoul(arguments[place]));
    std::ifstream file(arguments[1]);
    std::stringstream text;
    text << file.rdbuf();
    Script script;
    if (read_script(text.str(), script).line != 0) return 1;
    Told heap(script.sizes);
    Word copied = 0;
    auto tell = [&](unsigned long event) {
        if (asked.empty() || asked.count(event) != 0) heap.tell(event, copied);
    };
    tell(0);
    unsigned long event = 0;
    for (const Step& step : script.steps) {
        Reply reply = do_step(heap, step);
        if (reply.form == Form::Moved) copied += reply.second;
        tell(++event);
    }
}
