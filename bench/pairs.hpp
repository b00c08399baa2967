// Matrix pairs, indexes and flips for the benchmark, from fixed seeds.
#pragma once

#include <array>
#include <cstdint>
#include <random>
#include <vector>

// 64 words: the columns of X, then those of Y; the top bit of a word is row 0.
struct Pair {
    std::array<uint32_t, 64> words;
    const uint32_t* data() const { return words.data(); }
    const uint32_t* x() const { return words.data(); }
    const uint32_t* y() const { return words.data() + 32; }
};

// Identity, and Pascal's triangle modulo 2: "c over r" is odd exactly where every bit of r is a bit of c.
inline Pair standard_pair() {
    Pair pair{};
    for (uint32_t c = 0; c < 32; ++c) {
        pair.words[c] = 0x80000000u >> c;
        for (uint32_t r = 0; r < 32; ++r)
            if ((r & ~c) == 0) pair.words[32 + c] |= 0x80000000u >> r;
    }
    return pair;
}

// The product of a random lower-triangular matrix, ones in its diagonal, with 32 columns.
inline void scramble(uint32_t* columns, std::mt19937& random) {
    uint32_t lower[32];
    for (uint32_t r = 0; r < 32; ++r) {
        const uint32_t diagonal = 0x80000000u >> r;
        lower[r] = diagonal | (static_cast<uint32_t>(random()) & (diagonal - 1));
    }
    for (uint32_t c = 0; c < 32; ++c) {
        uint32_t product = 0;
        for (uint32_t r = 0; r < 32; ++r)
            if (columns[c] & (0x80000000u >> r)) product ^= lower[r];
        columns[c] = product;
    }
}

// The standard pair, scrambled: again a (0,2)-sequence, so it passes level 32, and listing 19 does not serve for it.
inline Pair scrambled_pair(uint32_t seed) {
    std::mt19937 random(seed);
    Pair pair = standard_pair();
    scramble(pair.words.data(), random);
    scramble(pair.words.data() + 32, random);
    return pair;
}

inline std::vector<uint32_t> random_words(size_t count, uint32_t seed) {
    std::mt19937 random(seed);
    std::vector<uint32_t> words(count);
    for (uint32_t& word : words) word = static_cast<uint32_t>(random());
    return words;
}

struct Shift {
    uint32_t x, y;
};
constexpr Shift kNoShift{0, 0};
constexpr Shift kShift{0x9E3779B9u, 0x7F4A7C15u};

// The flip bits of an axis (C-16). Bit 255 belongs to no bit of a coordinate, and the library refuses it.
using AxisFlips = std::array<uint8_t, 32>;

struct Flips {
    AxisFlips x, y;
};
constexpr Flips kNoFlips{};

inline bool flip_bit(const AxisFlips& flips, uint32_t n) { return flips[n / 8] >> (n % 8) & 1; }

inline AxisFlips random_axis_flips(std::mt19937& random) {
    AxisFlips flips;
    for (uint8_t& byte : flips) byte = static_cast<uint8_t>(random());
    flips[31] &= 0x7F;
    return flips;
}

// Each bit of both axes at random.
inline Flips random_flips(uint32_t seed) {
    std::mt19937 random(seed);
    const AxisFlips x = random_axis_flips(random), y = random_axis_flips(random);
    return {x, y};
}

// Flip bit n of one axis alone.
inline Flips single_flip(bool on_y, uint32_t n) {
    Flips flips{};
    (on_y ? flips.y : flips.x)[n / 8] = static_cast<uint8_t>(1u << (n % 8));
    return flips;
}

// Any flips: of both axes, of one, or a single bit, so that an axis without flips stands beside one with them.
inline Flips any_flips(std::mt19937& random) {
    Flips flips = random_flips(static_cast<uint32_t>(random()));
    switch (random() % 6) {
    case 0: flips.x = {}; break;
    case 1: flips.y = {}; break;
    case 2: flips = single_flip(random() % 2 == 0, random() % 255); break;
    default: break;
    }
    return flips;
}
