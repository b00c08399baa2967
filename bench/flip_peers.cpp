// Fills under flips in plain C++: see flip_peers.hpp. Compiled apart, as the library is, so that no call is seen through.
#include "flip_peers.hpp"

#include <algorithm>

namespace {

constexpr uint32_t kGroup = 64;

// What flips and then the shift add to a product, by its top byte.
struct Masks {
    uint32_t x[256], y[256];
    Masks(const Flips& flips, Shift shift) {
        for (uint32_t byte = 0; byte < 256; ++byte) {
            const uint32_t product = byte << 24;
            x[byte] = flipped(flips.x, product) ^ product ^ shift.x;
            y[byte] = flipped(flips.y, product) ^ product ^ shift.y;
        }
    }
};

// The products of the indexes 0 to 63.
struct Low {
    uint32_t x[kGroup], y[kGroup];
    explicit Low(const Pair& pair) { fill_prefix(pair, kNoShift, 0, {x, y, kGroup}); }
};

// Fewer than 64 points: products, and then the masks in their place.
void fill_few(const Pair& pair, const Masks& masks, uint32_t start, Target to) {
    fill_prefix(pair, kNoShift, start, to);
    for (size_t k = 0; k < to.n; ++k) {
        to.xs[k] ^= masks.x[to.xs[k] >> 24];
        to.ys[k] ^= masks.y[to.ys[k] >> 24];
    }
}

// As fill_groups; `put` writes a group from the products of its first index.
template <class Put>
void in_groups(const Pair& pair, const Masks& masks, const Low& low, uint32_t start, Target to, Put put) {
    const size_t head = std::min<size_t>(to.n, (kGroup - start % kGroup) % kGroup);
    fill_few(pair, masks, start, {to.xs, to.ys, head});
    const Prefixes prefix(pair);
    uint32_t index = start + static_cast<uint32_t>(head);
    uint32_t x = pbrt_product(pair.x(), index), y = pbrt_product(pair.y(), index);
    size_t k = head;
    for (; k + kGroup <= to.n; k += kGroup, index += kGroup) {
        put(x, y, to.xs + k, to.ys + k);
        const int t = trailing_ones(index + kGroup - 1);
        x ^= low.x[kGroup - 1] ^ prefix.x[t];
        y ^= low.y[kGroup - 1] ^ prefix.y[t];
    }
    fill_few(pair, masks, index, {to.xs + k, to.ys + k, to.n - k});
}

// One axis of a group, behind a call: g++ would see through it that nothing overlaps, and take four words at a time, which is slower here.
[[gnu::noinline]] void put_unrolled(uint32_t first, const uint32_t* low, const uint32_t* masks, uint32_t* out) {
#pragma GCC unroll 8
    for (uint32_t i = 0; i < kGroup; ++i) {
        const uint32_t product = first ^ low[i];
        out[i] = product ^ masks[product >> 24];
    }
}

}  // namespace

void fill_defined(const Pair& pair, Shift shift, const Flips& flips, uint32_t start, Target to) {
    for (size_t k = 0; k < to.n; ++k) {
        const Point point = defined_point(pair, shift, flips, start + static_cast<uint32_t>(k));
        to.xs[k] = point.x;
        to.ys[k] = point.y;
    }
}

void fill_masks(const Pair& pair, Shift shift, const Flips& flips, uint32_t start, Target to) {
    const Masks masks(flips, shift);
    const Low low(pair);
    in_groups(pair, masks, low, start, to, [&](uint32_t first_x, uint32_t first_y, uint32_t* __restrict xs, uint32_t* __restrict ys) {
        for (uint32_t i = 0; i < kGroup; ++i) {
            const uint32_t x = first_x ^ low.x[i], y = first_y ^ low.y[i];
            xs[i] = x ^ masks.x[x >> 24];
            ys[i] = y ^ masks.y[y >> 24];
        }
    });
}

void fill_masks_unrolled(const Pair& pair, Shift shift, const Flips& flips, uint32_t start, Target to) {
    const Masks masks(flips, shift);
    const Low low(pair);
    in_groups(pair, masks, low, start, to, [&](uint32_t first_x, uint32_t first_y, uint32_t* xs, uint32_t* ys) {
        put_unrolled(first_x, low.x, masks.x, xs);
        put_unrolled(first_y, low.y, masks.y, ys);
    });
}

void fill_mask_tables(const Pair& pair, Shift shift, const Flips& flips, uint32_t start, Target to) {
    const Masks masks(flips, shift);
    const Low low(pair);
    uint32_t tables_x[256][kGroup], tables_y[256][kGroup];
    for (uint32_t byte = 0; byte < 256; ++byte)
        for (uint32_t i = 0; i < kGroup; ++i) {
            tables_x[byte][i] = low.x[i] ^ masks.x[byte ^ low.x[i] >> 24];
            tables_y[byte][i] = low.y[i] ^ masks.y[byte ^ low.y[i] >> 24];
        }
    in_groups(pair, masks, low, start, to, [&](uint32_t first_x, uint32_t first_y, uint32_t* __restrict xs, uint32_t* __restrict ys) {
        const uint32_t* const table_x = tables_x[first_x >> 24];
        const uint32_t* const table_y = tables_y[first_y >> 24];
        for (uint32_t i = 0; i < kGroup; ++i) xs[i] = first_x ^ table_x[i];
        for (uint32_t i = 0; i < kGroup; ++i) ys[i] = first_y ^ table_y[i];
    });
}
