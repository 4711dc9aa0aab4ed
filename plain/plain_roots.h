// Where the roots of the plain heap stand, and which of them may be in use.
#pragma once

#include <algorithm>
#include <cstddef>
#include <cstdint>
#include <vector>

namespace plain {

using Word = std::uint64_t;
using Number = std::uint32_t;

// The globals are a row of roots, and so are each mutator's registers; all are nil at first. Each row has a bound above which all its
// roots are nil: a store above it raises it, a frame that is left lowers it. So a look at all roots costs those below the bounds.
class Roots {
public:
    Roots(Number globals, Number mutators, Number registers)
        : words_(globals + std::size_t(registers) * mutators), rows_(std::size_t(mutators) + 1) {
        Word* first = words_.data();
        for (std::size_t row = 0; row < rows_.size(); ++row) {
            rows_[row] = Row{first, 0};
            first += row == 0 ? globals : registers;
        }
    }
    Roots(const Roots&) = delete;
    Roots& operator=(const Roots&) = delete;

    Word global(Number number) const { return rows_[0].first[number]; }
    Word reg(Number mutator, Number number) const { return rows_[mutator + 1].first[number]; }
    void set_global(Number number, Word value) { set(rows_[0], number, value); }
    void set_reg(Number mutator, Number number, Word value) { set(rows_[mutator + 1], number, value); }

    // Makes a mutator's registers nil, from one on.
    void leave(Number mutator, Number from) {
        Row& row = rows_[mutator + 1];
        if (row.used <= from) return;
        std::fill(row.first + from, row.first + row.used, 0);
        row.used = from;
    }

    // Gives each root that isn't nil to `visit`: the globals by number, then the registers by mutator and number.
    template <class Visit>
    void each(Visit visit) {
        for (const Row& row : rows_)
            for (Word *root = row.first, *end = root + row.used; root != end; ++root)
                if (*root != 0) visit(*root);
    }

private:
    struct Row {
        Word* first;
        Number used;
    };

    static void set(Row& row, Number number, Word value) {
        row.first[number] = value;
        if (row.used <= number) row.used = number + 1;
    }

    std::vector<Word> words_;
    std::vector<Row> rows_;
};

}  // namespace plain
