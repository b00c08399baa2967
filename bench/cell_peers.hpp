// The check, the query and the overview in plain C++, with the answers and refusals of document 01 and of C-14.
#pragma once

#include <cstddef>
#include <cstdint>
#include <vector>

#include "peers.hpp"

// An answer: 0, or the number of a refusal; 3 comes with the shape and its least index j.
struct Answer {
    uint32_t refusal = 0, m = 0, a = 0, j = 0, index = 0;
    bool operator==(const Answer&) const = default;
};

// What a query asks beside its cell: the cells of one shape, and a block that has one point in each.
struct Grid {
    Shift shift;
    uint32_t level, m, a, block;
};

struct Query : Grid {
    uint32_t column, row;
};

// Many cells of one grid: cell i is (columns[i], rows[i]).
struct Overview : Grid {
    std::vector<uint32_t> columns, rows;
    bool fits(const std::vector<uint32_t>& answers) const { return columns.size() == rows.size() && rows.size() == answers.size(); }
    Query query(size_t i) const { return {*this, columns[i], rows[i]}; }
    // Of no cells the query of cell (0, 0), which every shape has.
    Query first() const { return columns.empty() ? Query{*this, 0, 0} : query(0); }
};

// The cell of a point in the shape (m, a), as one number: its column above its row.
inline uint32_t cell(uint32_t x, uint32_t y, uint32_t m, uint32_t a) {
    const uint64_t column = uint64_t{x} >> (32 - a), row = uint64_t{y} >> (32 - (m - a));
    return static_cast<uint32_t>(column << (m - a) | row);
}

// An exclusive-or basis of cells by leading bit; beside each cell stands the index that it belongs to.
class Basis {
public:
    // Takes a cell with its index. 0, or the index whose cell is 0: the least one above 0, if 1, 2, 4, .. have been taken in this order.
    uint32_t take(uint32_t cell, uint32_t index) {
        while (cell != 0) {
            const int top = 31 - __builtin_clz(cell);
            if (cells_[top] == 0) {
                cells_[top] = cell;
                indexes_[top] = index;
                return 0;
            }
            cell ^= cells_[top];
            index ^= indexes_[top];
        }
        return index;
    }
    // The index of a cell, once the basis is whole.
    uint32_t index_of(uint32_t cell) const {
        uint32_t index = 0;
        while (cell != 0) {
            const int top = 31 - __builtin_clz(cell);
            cell ^= cells_[top];
            index ^= indexes_[top];
        }
        return index;
    }

private:
    uint32_t cells_[32] = {}, indexes_[32] = {};
};

// The basis of a shape; returns 0, or the shape's least index j.
inline uint32_t eliminate(const Pair& pair, uint32_t m, uint32_t a, Basis& basis) {
    for (uint32_t c = 0; c < m; ++c) {
        const uint32_t j = basis.take(cell(pair.x()[c], pair.y()[c], m, a), 1u << c);
        if (j != 0) return j;
    }
    return 0;
}

Answer cpp_check(const Pair& pair, uint32_t level);
Answer cpp_check_minors(const Pair& pair, uint32_t level);
Answer cpp_query(const Pair& pair, const Query& query);
// Writes the index of each cell to its place in the answers, unless it refuses.
Answer cpp_overview(const Pair& pair, const Overview& of, std::vector<uint32_t>& answers);
