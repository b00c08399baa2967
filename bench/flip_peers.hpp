// Points under flips (C-16) in plain C++: the definition, and fills that Vektrid's are held against.
#pragma once

#include "peers.hpp"

// The definition, word for word: bit t from the top of a product, t from 0 to 7, is flipped where flip bit 2^t - 1 + p is set, p being the t
// leading bits of the product before any flip.
inline uint32_t flipped(const AxisFlips& flips, uint32_t product) {
    uint32_t word = product;
    for (uint32_t t = 0; t < 8; ++t) {
        const uint32_t p = static_cast<uint32_t>(uint64_t{product} >> (32 - t));
        if (flip_bit(flips, (1u << t) - 1 + p)) word ^= 0x80000000u >> t;
    }
    return word;
}

// The point of an index: products, then flips, then the shift.
inline Point defined_point(const Pair& pair, Shift shift, const Flips& flips, uint32_t index) {
    return {flipped(flips.x, pbrt_product(pair.x(), index)) ^ shift.x, flipped(flips.y, pbrt_product(pair.y(), index)) ^ shift.y};
}

// By the definition, point by point.
void fill_defined(const Pair& pair, Shift shift, const Flips& flips, uint32_t start, Target to);
// Groups of 64, the fastest of the plain fills, with a table of 256 masks an axis: w ^ mask[w >> 24] in the same loop.
void fill_masks(const Pair& pair, Shift shift, const Flips& flips, uint32_t start, Target to);
// The same, one axis after the other and unrolled by hand: the fastest loop of lookups that we found.
void fill_masks_unrolled(const Pair& pair, Shift shift, const Flips& flips, uint32_t start, Target to);
// Another algorithm: the top byte of a group's first product chooses one of 256 tables of 64 words in which the masks are already added.
void fill_mask_tables(const Pair& pair, Shift shift, const Flips& flips, uint32_t start, Target to);
