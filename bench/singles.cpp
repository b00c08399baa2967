// Singles of words, one call each.
#include <cstring>
#include <vector>

#include "../include/vektrid.h"
#include "pairs.hpp"
#include "report.hpp"
#include "single_peers.hpp"

namespace {

constexpr size_t kWords = size_t{1} << 17;

// The words with the places for their singles.
struct Singles {
    std::vector<uint32_t> words;
    std::vector<float> singles = std::vector<float>(words.size());
};

template <class Single>
void fill(Singles& of, Single single) {
    for (size_t i = 0; i < of.words.size(); ++i) of.singles[i] = single(of.words[i]);
}

// The ends of each number of leading zeros, and random words of each.
std::vector<uint32_t> words_of_every_case() {
    std::vector<uint32_t> words{0};
    const std::vector<uint32_t> random = random_words(kWords, 7);
    for (int z = 0; z < 32; ++z) {
        words.insert(words.end(), {0x80000000u >> z, 0xFFFFFFFFu >> z});
        for (uint32_t word : random) words.push_back((word | 0x80000000u) >> z);
    }
    return words;
}

template <class Single>
void add(Race& race, const char* name, Singles& of, Single single) {
    race.add(name, [&of, single] {
        fill(of, single);
        keep(of.singles.data());
    });
}

}  // namespace

void compare_singles(Report& report) {
    Singles ours{words_of_every_case()}, theirs{ours.words};
    fill(ours, [](uint32_t word) { return vektrid_single(word); });
    fill(theirs, [](uint32_t word) { return called_closed_single(word); });
    const bool same = std::memcmp(ours.singles.data(), theirs.singles.data(), ours.singles.size() * sizeof(float)) == 0;
    report.compare(same, "singles against the closed form in C++");
}

void measure_singles(Report& report) {
    Singles of{random_words(kWords, 11)};
    Race race;
    add(race, "ours", of, [](uint32_t word) { return vektrid_single(word); });
    add(race, "called", of, [](uint32_t word) { return called_closed_single(word); });
    add(race, "inlined", of, [](uint32_t word) { return closed_single(word); });
    race.run(2, 10);

    const double work = kWords / 1e6;
    report.row({"single_vs_cpp", "single / C++ closed form, a call each", "Mwords/s", 0.84}, work, race, "ours", "called");
    report.row({"single_vs_cpp_inlined", "single / C++ closed form, inlined", "Mwords/s"}, work, race, "ours", "inlined");
}
