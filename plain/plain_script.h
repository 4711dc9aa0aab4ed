// Scripts: how their lines are read, and their steps done on the plain heap.
#pragma once

#include <cstdint>
#include <cstdlib>
#include <cstring>
#include <string>
#include <vector>

#include "plain_heap.h"

namespace plain {

constexpr Word largest_number = 4294967295;
constexpr Word largest_word = ~Word(0);
constexpr Number largest_weaks = 255;
constexpr std::size_t longest_line = 120;

enum class Verb : std::uint8_t {
    New, Get, Put, PutNil, Read, Write, Move, Drop, Load, Save, Scope, Shape,
    NewWeak, GetWeak, PutWeak, PutWeakNil, Weaks,
    Begin, Mark, Remark, Cleanup, Refine, Pause, Compact, PauseWithin, Young, Clear
};

// A line's step. `first` and `second` are registers or globals in the line's order, `number` is an index, a count
// or the pointers of a new object, `value` a data word or the data words of a new object, whose weak slots are `second`. A collector's
// second number is `second`.
struct Step {
    Word value;
    Number number, first, second;
    Verb verb;
    std::uint8_t mutator, length;
};

// Reads words and numbers from one line, after which a line feed comes, of a text whose heap has these sizes. Each call answers
// whether the text goes on so, and goes past it.
class Cursor {
public:
    Cursor(const char* at, const char* end, const Sizes& sizes) : at_(at), end_(end), sizes_(sizes) {}

    bool at_end() const { return at_ == end_; }
    bool at_word_end() const { return at_ == end_ || *at_ == ' '; }
    char peek() const { return at_ == end_ ? '\n' : *at_; }

    template <std::size_t Size>
    bool text(const char (&expected)[Size]) {
        if (std::size_t(end_ - at_) < Size - 1 || std::memcmp(at_, expected, Size - 1) != 0) return false;
        at_ += Size - 1;
        return true;
    }

    bool space() { return text(" "); }

    // A decimal number without leading zeros, at most `limit`.
    bool number(Word limit, Word& value) {
        if (at_ == end_ || *at_ < '0' || *at_ > '9') return false;
        value = Word(*at_++ - '0');
        if (value == 0) return true;
        for (; at_ != end_ && *at_ >= '0' && *at_ <= '9'; ++at_) {
            Word digit = Word(*at_ - '0');
            if (value > (largest_word - digit) / 10) return false;
            value = value * 10 + digit;
        }
        return value <= limit;
    }

    bool number(Number& value) {
        Word wide;
        if (!number(largest_number, wide)) return false;
        value = Number(wide);
        return true;
    }

    // Mostly a register has one digit, with a space or the line feed after it.
    bool reg(Number& value) {
        if (*at_ != 'r') return false;
        ++at_;
        value = Number(*at_ - '0');
        if (value <= 9 && at_[1] <= ' ') ++at_;
        else if (!number(value)) return false;
        return value < sizes_.registers;
    }
    bool global(Number& value) { return text("g") && number(value) && value < sizes_.globals; }
    bool scope() { return sizes_.format == 3 && text("scope "); }
    bool compact() { return sizes_.format == 3 && text("compact "); }
    bool pause_within() { return sizes_.format == 3 && text("pausewithin "); }
    bool clear() { return sizes_.format == 3 && text("clear "); }
    bool young() { return sizes_.format == 3 && text("young "); }
    bool limits(Number& words, Number& cards) { return number(words) && space() && number(cards); }

private:
    const char *at_, *end_;
    const Sizes& sizes_;
};

static bool read_sizes(Cursor line, Sizes& sizes) {
    sizes.format = line.text("heap3 ") ? 3 : line.text("heap2 ") ? 2 : 1;
    return (sizes.format != 1 || line.text("heap ")) && line.number(sizes.regions) && line.space() &&
           line.number(sizes.words) && line.space() && line.number(sizes.buffer) && line.space() &&
           line.number(sizes.mutators) && line.space() && line.number(largest_word, sizes.first_name) &&
           (sizes.format == 1 || (line.space() && line.number(sizes.card))) &&
           (sizes.format != 3 || (line.space() && line.number(sizes.globals) && line.space() &&
                                  line.number(sizes.registers))) &&
           line.at_end();
}

// How many weak slots an object is to have.
static bool read_weaks(Cursor& line, Number& weaks) { return line.number(weaks) && weaks <= largest_weaks; }

static bool read_mutator_step(Cursor& line, Step& step) {
    switch (line.peek()) {
    case 'n':
        step.verb = line.text("newweak ") ? Verb::NewWeak : Verb::New;
        return (step.verb == Verb::NewWeak || line.text("new ")) && line.reg(step.first) && line.space() &&
               line.number(step.number) && line.space() &&
               (step.verb == Verb::New || (read_weaks(line, step.second) && line.space())) &&
               line.number(largest_number, step.value);
    case 'g':
        step.verb = line.text("getweak ") ? Verb::GetWeak : Verb::Get;
        return (step.verb == Verb::GetWeak || line.text("get ")) && line.reg(step.first) && line.space() &&
               line.reg(step.second) && line.space() && line.number(step.number);
    case 'p': {
        bool is_weak = line.text("putweak ");
        if ((!is_weak && !line.text("put ")) || !line.reg(step.first) || !line.space() || !line.number(step.number) ||
            !line.space())
            return false;
        bool is_nil = line.peek() == 'n';
        step.verb = is_weak ? (is_nil ? Verb::PutWeakNil : Verb::PutWeak) : (is_nil ? Verb::PutNil : Verb::Put);
        return is_nil ? line.text("nil") : line.reg(step.second);
    }
    case 'r':
        step.verb = Verb::Read;
        return line.text("read ") && line.reg(step.first) && line.space() && line.number(step.number);
    case 'w':
        if (line.text("weaks ")) {
            step.verb = Verb::Weaks;
            return line.reg(step.first);
        }
        step.verb = Verb::Write;
        return line.text("write ") && line.reg(step.first) && line.space() && line.number(step.number) &&
               line.space() && line.number(largest_word, step.value);
    case 'm':
        step.verb = Verb::Move;
        return line.text("move ") && line.reg(step.first) && line.space() && line.reg(step.second);
    case 'd':
        step.verb = Verb::Drop;
        return line.text("drop ") && line.reg(step.first);
    case 'l':
        step.verb = Verb::Load;
        return line.text("load ") && line.reg(step.first) && line.space() && line.global(step.second);
    case 's':
        if (line.text("save ")) {
            step.verb = Verb::Save;
            return line.global(step.first) && line.space() && line.reg(step.second);
        }
        if (line.scope()) {
            step.verb = Verb::Scope;
            return line.reg(step.first);
        }
        step.verb = Verb::Shape;
        return line.text("shape ") && line.reg(step.first);
    default:
        return false;
    }
}

static bool read_collector_step(Cursor& line, Step& step) {
    switch (line.peek()) {
    case 'b':
        step.verb = Verb::Begin;
        return line.text("begin");
    case 'm':
        step.verb = Verb::Mark;
        return line.text("mark ") && line.number(step.number);
    case 'r':
        if (line.text("refine ")) {
            step.verb = Verb::Refine;
            return line.number(step.number);
        }
        step.verb = Verb::Remark;
        return line.text("remark");
    case 'c':
        if (line.compact()) {
            step.verb = Verb::Compact;
            return line.number(step.number);
        }
        if (line.clear()) {
            step.verb = Verb::Clear;
            return line.number(step.number);
        }
        step.verb = Verb::Cleanup;
        return line.text("cleanup");
    case 'p':
        if (line.pause_within()) {
            step.verb = Verb::PauseWithin;
            return line.limits(step.number, step.second);
        }
        step.verb = Verb::Pause;
        return line.text("pause ") && line.number(step.number);
    case 'y':
        step.verb = Verb::Young;
        return line.young() && line.limits(step.number, step.second);
    default:
        return false;
    }
}

struct Script {
    Sizes sizes;
    std::size_t heap_line;
    std::vector<Step> steps;
};

struct LineFault {
    std::size_t line;
    const char* name;
};

// Reads a whole script; the first fault of the text if it has one, else a fault of line 0.
static LineFault read_script(const std::string& text, Script& script) {
    const char *at = text.data(), *end = at + text.size();
    if (at == end) return {1, "3 BadHeap"};
    script.steps.reserve(text.size() / 12);
    for (std::size_t number = 1; at != end; ++number) {
        const char* feed = static_cast<const char*>(std::memchr(at, '\n', std::size_t(end - at)));
        if (feed == nullptr) return {number, "1 Cut"};
        std::size_t length = std::size_t(feed - at);
        if (length > longest_line) return {number, "2 LongLine"};
        Cursor line(at, feed, script.sizes);
        at = feed + 1;
        if (number == 1) {
            if (!read_sizes(line, script.sizes)) return {number, "3 BadHeap"};
            script.heap_line = length;
            continue;
        }
        Step step{};
        step.length = std::uint8_t(length);
        bool is_step;
        if (line.text("gc")) {
            if (!line.at_word_end()) return {number, "4 BadActor"};
            is_step = line.space() && read_collector_step(line, step);
        } else {
            Word actor;
            if (!line.number(largest_number, actor) || !line.at_word_end() || actor >= script.sizes.mutators)
                return {number, "4 BadActor"};
            step.mutator = std::uint8_t(actor);
            is_step = line.space() && read_mutator_step(line, step);
        }
        if (!is_step || !line.at_end()) return {number, "5 BadStep"};
        script.steps.push_back(step);
    }
    return {0, nullptr};
}

static Reply do_step(Heap& heap, const Step& step) {
    switch (step.verb) {
    case Verb::New: return heap.make(step.mutator, step.first, step.number, 0, step.value);
    case Verb::Get: return heap.get(step.mutator, step.first, step.second, step.number);
    case Verb::Put: return heap.put(step.mutator, step.first, step.number, step.second);
    case Verb::PutNil: return heap.put_nil(step.mutator, step.first, step.number);
    case Verb::Read: return heap.read(step.mutator, step.first, step.number);
    case Verb::Write: return heap.write(step.mutator, step.first, step.number, step.value);
    case Verb::Move: return heap.move(step.mutator, step.first, step.second);
    case Verb::Drop: return heap.drop(step.mutator, step.first);
    case Verb::Load: return heap.load(step.mutator, step.first, step.second);
    case Verb::Save: return heap.save(step.mutator, step.first, step.second);
    case Verb::Scope: return heap.scope(step.mutator, step.first);
    case Verb::Shape: return heap.shape(step.mutator, step.first);
    case Verb::NewWeak: return heap.make(step.mutator, step.first, step.number, step.second, step.value);
    case Verb::GetWeak: return heap.get_weak(step.mutator, step.first, step.second, step.number);
    case Verb::PutWeak: return heap.put_weak(step.mutator, step.first, step.number, step.second);
    case Verb::PutWeakNil: return heap.put_weak_nil(step.mutator, step.first, step.number);
    case Verb::Weaks: return heap.weaks(step.mutator, step.first);
    case Verb::Begin: return heap.begin();
    case Verb::Mark: return heap.mark(step.number);
    case Verb::Remark: return heap.remark();
    case Verb::Cleanup: return heap.cleanup();
    case Verb::Refine: return heap.refine(step.number);
    case Verb::Pause: return heap.pause(step.number);
    case Verb::Compact: return heap.compact(step.number);
    case Verb::PauseWithin: return heap.pause_within(step.number, step.second);
    case Verb::Young: return heap.young(step.number, step.second);
    case Verb::Clear: return heap.clear(step.number);
    }
    std::abort();
}

}  // namespace plain
