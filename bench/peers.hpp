// Points in plain C++: what Vektrid's points and fills are held against.
#pragma once

#include <cstddef>
#include <cstdint>

#include "pairs.hpp"

// PBRT's form of the product of a matrix with the bits of an index.
inline uint32_t pbrt_product(const uint32_t* columns, uint32_t index) {
    uint32_t sum = 0;
    for (int i = 0; index != 0; index >>= 1, ++i)
        if (index & 1) sum ^= columns[i];
    return sum;
}

struct Point {
    uint32_t x, y;
};

// Both coordinates in one loop over the set bits of the index: the fastest plain C++ that we found (a loop of 32 steps without branches takes
// twice the time).
inline Point set_bits_point(const Pair& pair, Shift shift, uint32_t index) {
    Point point{shift.x, shift.y};
    for (; index != 0; index &= index - 1) {
        const int i = __builtin_ctz(index);
        point.x ^= pair.x()[i];
        point.y ^= pair.y()[i];
    }
    return point;
}

template <int width, uint32_t mask>
inline uint32_t swap_bits(uint32_t v) {
    return ((v >> width) & mask) | ((v & mask) << width);
}

// Halves first and bytes last: side by side g++ would make them one byte swap, which SSE2 does not have, and the loop around would stay
// scalar, 2.5 times slower.
inline uint32_t reversed(uint32_t v) {
    v = (v >> 16) | (v << 16);
    v = swap_bits<1, 0x55555555>(v);
    v = swap_bits<2, 0x33333333>(v);
    v = swap_bits<4, 0x0F0F0F0F>(v);
    return swap_bits<8, 0x00FF00FF>(v);
}

// Document 004, listing 19: Y of the standard pair from the reversed index.
inline uint32_t pascal(uint32_t v) {
    v ^= v << 16;
    v ^= (v & 0x00FF00FF) << 8;
    v ^= (v & 0x0F0F0F0F) << 4;
    v ^= (v & 0x33333333) << 2;
    v ^= (v & 0x55555555) << 1;
    return v;
}

// prefix[t] is the exclusive or of columns 0 to t: what a coordinate gains on the way from an index with t trailing ones to the next.
struct Prefixes {
    uint32_t x[33] = {}, y[33] = {};  // nothing comes after the last index, with 32 trailing ones
    explicit Prefixes(const Pair& pair) {
        uint32_t sum_x = 0, sum_y = 0;
        for (int t = 0; t < 32; ++t) {
            x[t] = sum_x ^= pair.x()[t];
            y[t] = sum_y ^= pair.y()[t];
        }
    }
};

inline int trailing_ones(uint32_t index) { return __builtin_ctzll(~static_cast<uint64_t>(index)); }

// One call for each way to fill two buffers of n words with the points from `start` on.
struct Target {
    uint32_t* xs;
    uint32_t* ys;
    size_t n;
};

void fill_pbrt(const Pair& pair, Shift shift, uint32_t start, Target to);
void fill_prefix(const Pair& pair, Shift shift, uint32_t start, Target to);
void fill_groups(const Pair& pair, Shift shift, uint32_t start, Target to);
void fill_listing19(Shift shift, uint32_t start, Target to);
void store_only(uint32_t start, Target to);
