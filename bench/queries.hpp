// Our query, what its answer under flips must be, and the pairs, queries and overviews that are asked for, from fixed seeds.
#pragma once

#include <cstddef>
#include <cstdint>
#include <random>
#include <vector>

#include "../include/vektrid.h"
#include "cell_peers.hpp"
#include "flip_peers.hpp"

// What stands where a call may write, so that it shows whether it did.
constexpr uint32_t kUntouched = 0xDEADBEEF;

inline Answer our_query_under(const Flips& flips, const Pair& pair, const Query& q) {
    uint32_t index = 0, j = 0;
    const uint32_t refusal = vektrid_query(pair.data(), 64, q.shift.x, q.shift.y, flips.x.data(), flips.x.size(), flips.y.data(),
                                           flips.y.size(), q.level, q.m, q.a, q.column, q.row, q.block, &index, &j);
    return {refusal, refusal == 3 ? q.m : 0, refusal == 3 ? q.a : 0, j, index};
}

inline Answer our_query(const Pair& pair, const Query& query) { return our_query_under(kNoFlips, pair, query); }

// Whether an index answers a query that is not refused: it lies in the block, and its point, by the definition of flips, in the cell. Of a
// shape that is a net there is only one such index.
inline bool lies_in_cell(const Flips& flips, const Pair& pair, const Query& q, uint32_t index) {
    const Point point = defined_point(pair, q.shift, flips, index);
    const uint32_t wanted = static_cast<uint32_t>(uint64_t{q.column} << (q.m - q.a) | q.row);
    return uint64_t{index} >> q.m == q.block && cell(point.x, point.y, q.m, q.a) == wanted;
}

// The refusal under flips, from that without them: flip bit 255 is refused after 8 and 2, and all the others are as they were.
inline uint32_t refusal_under(const Flips& flips, uint32_t plain) {
    if (plain == 8 || plain == 2) return plain;
    return flip_bit(flips.x, 255) || flip_bit(flips.y, 255) ? 18 : plain;
}

// Any flips, now and then with the bit that is refused.
inline Flips any_query_flips(std::mt19937& random) {
    Flips flips = any_flips(random);
    if (random() % 24 == 0) (random() % 2 == 0 ? flips.x : flips.y)[31] |= 0x80;
    return flips;
}

inline uint32_t below_power(uint32_t word, uint32_t bits) { return static_cast<uint32_t>(word & ((uint64_t{1} << bits) - 1)); }

// A query that is not refused for its numbers: a random cell and block of the shape.
inline Query fitting_query(std::mt19937& random, uint32_t m, uint32_t a) {
    const auto word = [&] { return static_cast<uint32_t>(random()); };
    const Shift shift{word(), word()};
    const uint32_t column = below_power(word(), a), row = below_power(word(), m - a), block = below_power(word(), 32 - m);
    return {{shift, 32, m, a, word() % 2 == 0 ? 0 : block}, column, row};
}

// Any query: mostly fitting, now and then with a number one too large, or with two, so that it shows which refusal goes first.
inline Query any_query(std::mt19937& random) {
    const uint32_t m = static_cast<uint32_t>(random()) % 33, a = static_cast<uint32_t>(random()) % (m + 1);
    Query query = fitting_query(random, m, a);
    for (int times = 0; times < 2; ++times) {
        switch (random() % 24) {
        case 0: query.level = static_cast<uint32_t>(random()) % 35; break;
        case 1: query.a = m + 1; break;
        case 2: query.column = static_cast<uint32_t>(uint64_t{1} << a); break;
        case 3: query.row = static_cast<uint32_t>(uint64_t{1} << (m - a)); break;
        case 4: query.block = static_cast<uint32_t>(uint64_t{1} << (32 - m)); break;
        case 5: query.level = 33; break;
        default: break;
        }
    }
    return query;
}

// The cells of 64 x 64 squares, row by row, as many as are asked for: after the last square the first one comes again.
inline Overview squares(size_t count) {
    Overview of{{kShift, 32, 12, 6, 0}, {}, {}};
    for (size_t i = 0; i < count; ++i) {
        of.columns.push_back(i % 64);
        of.rows.push_back(i / 64 % 64);
    }
    return of;
}

// A pair that passes, a few bits of it changed (none in one of four), so that the first bad shape lies anywhere; now and then 64 random words.
inline Pair any_pair(std::mt19937& random) {
    Pair pair = scrambled_pair(static_cast<uint32_t>(random()));
    for (uint32_t flips = random() % 4; flips > 0; --flips) pair.words[random() % 64] ^= 1u << (random() % 32);
    if (random() % 16 == 0)
        for (uint32_t& word : pair.words) word = static_cast<uint32_t>(random());
    return pair;
}

inline std::vector<Pair> passing_pairs() {
    std::vector<Pair> pairs;
    for (uint32_t seed = 1; seed <= 8; ++seed) pairs.push_back(scrambled_pair(seed));
    return pairs;
}
