// Sets of the plain heap: marks, grey objects, gathered cards.
#pragma once

#include <algorithm>
#include <cstddef>
#include <cstdint>
#include <utility>
#include <vector>

#include "plain_roots.h"

namespace plain {

using Address = std::uint32_t;

constexpr Address nowhere = ~Address(0);

// A set of numbers below a bound.
class Bitmap {
public:
    explicit Bitmap(std::size_t bound) : words_((bound + 63) / 64) {}
    bool has(Number member) const { return words_[member >> 6] >> (member & 63) & 1; }
    void add(Number member) { words_[member >> 6] |= Word(1) << (member & 63); }
    void remove(Number member) { words_[member >> 6] &= ~(Word(1) << (member & 63)); }
    void clear() { std::fill(words_.begin(), words_.end(), 0); }
    // Sets or clears the members from `first` on, `count` of them; count is a power of two that divides first.
    void fill_block(Number first, Number count, bool value) {
        if (count >= 64) {
            std::fill_n(words_.begin() + (first >> 6), count >> 6, value ? ~Word(0) : Word(0));
        } else {
            Word mask = ((Word(1) << count) - 1) << (first & 63);
            if (value) words_[first >> 6] |= mask;
            else words_[first >> 6] &= ~mask;
        }
    }
    Word word(Number index) const { return words_[index]; }
    // The lowest member from `from` on; nowhere if there is none.
    Number next(Number from) const {
        std::size_t index = from >> 6;
        if (index >= words_.size()) return nowhere;
        Word bits = words_[index] & ~Word(0) << (from & 63);
        while (bits == 0) {
            if (++index == words_.size()) return nowhere;
            bits = words_[index];
        }
        return Number(index << 6) + Number(__builtin_ctzll(bits));
    }
    void swap(Bitmap& other) { words_.swap(other.words_); }

private:
    std::vector<Word> words_;
};

// The grey objects. The lowest one is found soon, however far away: where a word of a level has a bit, the level above has a bit for that
// word, and it may have one where it had.
class GreySet {
public:
    // Some words more than its members need, so that a search may begin at the bound.
    explicit GreySet(std::size_t bound) {
        for (std::vector<Word>& level : levels_) level.resize((bound /= 64) + near + 1);
    }
    bool has(Number member) const { return levels_[0][member >> 6] >> (member & 63) & 1; }
    void add(Number member) {
        Number index = member >> 6;
        if (levels_[0][index] == 0) {
            if (levels_[1][index >> 6] == 0) add_above(index >> 6);
            levels_[1][index >> 6] |= Word(1) << (index & 63);
        }
        levels_[0][index] |= Word(1) << (member & 63);
    }
    // The lowest member, where none is below `from`; nowhere if there is none. Mostly it is near.
    Number lowest(Number from) {
        Number index = from >> 6, last = index + near;
        while (levels_[0][index] == 0)
            if (index++ == last && (index = used_above(last)) == nowhere) return nowhere;
        return Number(index << 6) + Number(__builtin_ctzll(levels_[0][index]));
    }
    void remove(Number member) { levels_[0][member >> 6] &= ~(Word(1) << (member & 63)); }

private:
    static constexpr int top = 3;
    static constexpr Number near = 7;

    [[gnu::noinline]] void add_above(Number index) {
        for (int level = 2; level <= top; ++level, index >>= 6) levels_[level][index >> 6] |= Word(1) << (index & 63);
    }

    // The lowest word of the first level that has a bit and is above one that has none. On the way bits go that lead to none.
    [[gnu::noinline]] Number used_above(Number index) {
        for (int level = 0;;) {
            Word& word = levels_[level + 1][index >> 6];
            if (levels_[level][index] == 0) word &= ~(Word(1) << (index & 63));
            Word bits = word & ~Word(1) << (index & 63);
            index >>= 6;
            for (++level; level == top && bits == 0; bits = levels_[top][index])
                if (++index == levels_[top].size()) return nowhere;
            while (bits != 0) {
                index = Number(index << 6) + Number(__builtin_ctzll(bits));
                bits = levels_[--level][index];
                if (level == 0 && bits != 0) return index;
            }
        }
    }

    std::vector<Word> levels_[top + 1];
};

// Cards gathered during a pause, to be given out by rising number.
class CardSet {
public:
    explicit CardSet(std::size_t cards) : words_((cards + 63) / 64), low_(words_.size()), high_(0) {}
    void add(Number card) {
        Number index = card >> 6;
        words_[index] |= Word(1) << (card & 63);
        widen(index, index + 1);
    }
    // Adds those of the cards from `first` on, `count` of them, that others have; count is a power of two that divides first.
    void add_members(Number first, Number count, const Bitmap& others) {
        Number index = first >> 6, end = index + (count + 63) / 64;
        Word mask = count >= 64 ? ~Word(0) : ((Word(1) << count) - 1) << (first & 63);
        for (Number place = index; place < end; ++place) words_[place] |= others.word(place) & mask;
        widen(index, end);
    }
    // The same of those that two rows of as many flags have, too.
    void add_members(Number first, Number count, const Bitmap& others, const Word* one, const Word* two) {
        Number index = first >> 6, end = index + count / 64;
        for (Number place = index; place < end; ++place) words_[place] |= others.word(place) & one[place - index] & two[place - index];
        widen(index, end);
    }
    // Gives each card to `visit`, by rising number, and leaves the set empty.
    template <class Visit>
    void drain(Visit visit) {
        for (std::size_t index = low_; index < high_; ++index) {
            Word bits = std::exchange(words_[index], 0);
            for (; bits != 0; bits &= bits - 1) visit(Number(index << 6) + Number(__builtin_ctzll(bits)));
        }
        low_ = words_.size();
        high_ = 0;
    }

private:
    void widen(std::size_t low, std::size_t high) {
        low_ = std::min(low_, low);
        high_ = std::max(high_, high);
    }
    std::vector<Word> words_;
    std::size_t low_, high_;
};

}  // namespace plain
