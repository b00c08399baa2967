// The check, the query and the overview in plain C++: see cell_peers.hpp. Compiled apart, as the library is.
#include "cell_peers.hpp"

// Every shape in order, one basis each.
Answer cpp_check(const Pair& pair, uint32_t level) {
    if (level < 1 || level > 32) return {2};
    for (uint32_t m = 1; m <= level; ++m)
        for (uint32_t a = 0; a <= m; ++a) {
            Basis basis;
            const uint32_t j = eliminate(pair, m, a, basis);
            if (j != 0) return {3, m, a, j};
        }
    return {};
}

namespace {

// Row r of a matrix as a word: bit c is its entry in column c.
void rows_of(const uint32_t* columns, uint32_t* rows) {
    for (uint32_t r = 0; r < 32; ++r) {
        rows[r] = 0;
        for (uint32_t c = 0; c < 32; ++c) rows[r] |= ((columns[c] >> (31 - r)) & 1) << c;
    }
}

Answer bad_shape(const Pair& pair, uint32_t m, uint32_t a) {
    Basis basis;
    return {3, m, a, eliminate(pair, m, a, basis)};
}

}  // namespace

// A better algorithm. For one a, the shapes (m, a) are the leading minors of one matrix, the first a rows of X above those of Y, so each shape
// costs one row: reduced by the rows before it, it must have a one in column m-1. Rows of X serve every a.
Answer cpp_check_minors(const Pair& pair, uint32_t level) {
    if (level < 1 || level > 32) return {2};
    uint32_t x[32], y[32], reduced[33][32];
    rows_of(pair.x(), x);
    rows_of(pair.y(), y);
    for (uint32_t m = 1; m <= level; ++m)
        for (uint32_t a = 0; a <= m; ++a) {
            uint32_t row = a < m ? y[m - a - 1] : x[m - 1];
            for (uint32_t c = 0; c + 1 < m; ++c) row ^= reduced[a][c] & (0u - ((row >> c) & 1));
            if (((row >> (m - 1)) & 1) == 0) return bad_shape(pair, m, a);
            for (uint32_t other = a; other <= (a < m ? a : level); ++other) reduced[other][m - 1] = row;
        }
    return {};
}

// Its tests are written out: where they stand in a function of their own, g++ 12 makes the whole query slower.
Answer cpp_query(const Pair& pair, const Query& query) {
    const uint32_t m = query.m, a = query.a;
    if (query.level < 1 || query.level > 32) return {2};
    if (m > query.level) return {4};
    if (a > m) return {5};
    if (uint64_t{query.column} >> a != 0 || uint64_t{query.row} >> (m - a) != 0) return {6};
    if (uint64_t{query.block} >> (32 - m) != 0) return {7};
    Basis basis;
    const uint32_t j = eliminate(pair, m, a, basis);
    if (j != 0) return {3, m, a, j};
    const uint32_t first = static_cast<uint32_t>(uint64_t{query.block} << m);
    const Point start = set_bits_point(pair, query.shift, first);
    const uint32_t wanted = static_cast<uint32_t>(uint64_t{query.column} << (m - a) | query.row);
    return {0, 0, 0, 0, first | basis.index_of(wanted ^ cell(start.x, start.y, m, a))};
}

namespace {

bool outside(const Grid& grid, uint32_t column, uint32_t row) {
    return uint64_t{column} >> grid.a != 0 || uint64_t{row} >> (grid.m - grid.a) != 0;
}

// 0, or what refuses the query of the first cell for its numbers.
uint32_t judge(const Query& query) {
    if (query.level < 1 || query.level > 32) return 2;
    if (query.m > query.level) return 4;
    if (query.a > query.m) return 5;
    if (outside(query, query.column, query.row)) return 6;
    return uint64_t{query.block} >> (32 - query.m) != 0 ? 7 : 0;
}

}  // namespace

Answer cpp_overview(const Pair& pair, const Overview& of, std::vector<uint32_t>& answers) {
    if (!of.fits(answers)) return {8};
    const uint32_t m = of.m, a = of.a, refusal = judge(of.first());
    if (refusal != 0) return {refusal};
    Basis basis;
    const uint32_t j = eliminate(pair, m, a, basis);
    if (j != 0) return {3, m, a, j};
    // A bit that lies outside the shape in any cell is also in the union of all, which g++ takes four cells at a time.
    uint32_t columns = 0, rows = 0;
    for (size_t i = 0; i < answers.size(); ++i) columns |= of.columns[i], rows |= of.rows[i];
    if (outside(of, columns, rows)) return {6};
    const uint32_t first = static_cast<uint32_t>(uint64_t{of.block} << m);
    const Point start = set_bits_point(pair, of.shift, first);
    const uint32_t at = cell(start.x, start.y, m, a);
    for (size_t i = 0; i < answers.size(); ++i) {
        const uint32_t wanted = static_cast<uint32_t>(uint64_t{of.columns[i]} << (m - a) | of.rows[i]);
        answers[i] = first | basis.index_of(wanted ^ at);
    }
    return {};
}
