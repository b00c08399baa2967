// Fills in plain C++: see peers.hpp. Compiled apart, as the library is, so that no call is seen through.
#include "peers.hpp"

void fill_pbrt(const Pair& pair, Shift shift, uint32_t start, Target to) {
    for (size_t k = 0; k < to.n; ++k) {
        const uint32_t index = start + static_cast<uint32_t>(k);
        to.xs[k] = pbrt_product(pair.x(), index) ^ shift.x;
        to.ys[k] = pbrt_product(pair.y(), index) ^ shift.y;
    }
}

void fill_prefix(const Pair& pair, Shift shift, uint32_t start, Target to) {
    const Prefixes prefix(pair);
    uint32_t x = pbrt_product(pair.x(), start) ^ shift.x;
    uint32_t y = pbrt_product(pair.y(), start) ^ shift.y;
    uint32_t index = start;
    for (size_t k = 0; k < to.n; ++k, ++index) {
        to.xs[k] = x;
        to.ys[k] = y;
        const int t = trailing_ones(index);
        x ^= prefix.x[t];
        y ^= prefix.y[t];
    }
}

// Aligned groups of 64: the points of 0 to 63 once in a table, and one word an axis for each group.
void fill_groups(const Pair& pair, Shift shift, uint32_t start, Target to) {
    constexpr uint32_t group = 64;
    const size_t head = (group - start % group) % group;
    if (to.n < head + group) return fill_prefix(pair, shift, start, to);
    fill_prefix(pair, shift, start, {to.xs, to.ys, head});
    uint32_t table_x[group], table_y[group];
    fill_prefix(pair, kNoShift, 0, {table_x, table_y, group});
    const Prefixes prefix(pair);
    uint32_t index = start + static_cast<uint32_t>(head);
    uint32_t x = pbrt_product(pair.x(), index) ^ shift.x;
    uint32_t y = pbrt_product(pair.y(), index) ^ shift.y;
    size_t k = head;
    for (; k + group <= to.n; k += group, index += group) {
        for (uint32_t i = 0; i < group; ++i) to.xs[k + i] = x ^ table_x[i];
        for (uint32_t i = 0; i < group; ++i) to.ys[k + i] = y ^ table_y[i];
        const int t = trailing_ones(index + group - 1);
        x ^= table_x[group - 1] ^ prefix.x[t];
        y ^= table_y[group - 1] ^ prefix.y[t];
    }
    fill_prefix(pair, shift, index, {to.xs + k, to.ys + k, to.n - k});
}

void fill_listing19(Shift shift, uint32_t start, Target to) {
    uint32_t* __restrict xs = to.xs;
    uint32_t* __restrict ys = to.ys;
    uint32_t index = start;
    for (size_t k = 0; k < to.n; ++k, ++index) {
        const uint32_t x = reversed(index);
        xs[k] = x ^ shift.x;
        ys[k] = pascal(x) ^ shift.y;
    }
}

void store_only(uint32_t start, Target to) {
    uint32_t* __restrict xs = to.xs;
    uint32_t* __restrict ys = to.ys;
    uint32_t index = start;
    for (size_t k = 0; k < to.n; ++k, ++index) {
        xs[k] = index;
        ys[k] = ~index;
    }
}
