// The single of a word in plain C++: what Vektrid's is held against.
#pragma once

#include <bit>
#include <cstdint>

// Document 003, algorithm 1: the closed form, with a computed exponent field. Two shifts instead of one by z + 1, which for word 1 would be 32.
inline float closed_single(uint32_t word) {
    if (word == 0) return 0;
    const int z = std::countl_zero(word);
    return std::bit_cast<float>(static_cast<uint32_t>(126 - z) << 23 | (word << z << 1) >> 9);
}

// The same behind a call, as ours is.
float called_closed_single(uint32_t word);
