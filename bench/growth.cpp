// How our calls grow: fills with their length, queries with m, overviews with their cells, checks with the level. Ours alone.
#include <functional>
#include <string>
#include <vector>

#include "../include/vektrid.h"
#include "pairs.hpp"
#include "queries.hpp"
#include "report.hpp"

namespace {

// One size of one call; a run makes the call `times` times, so that it is long enough to be timed.
struct Size {
    std::string call, size;
    int times;
    std::function<void()> once;
};

Size fill_size(const char* name, const Pair& pair, const Flips& flips, std::vector<uint32_t>& words, int log) {
    const size_t n = size_t{1} << log;
    uint32_t* const xs = words.data();
    uint32_t* const ys = xs + n;
    return {name, "2^" + std::to_string(log) + " points", log < 16 ? 1 << (16 - log) : 1, [=, &pair, &flips] {
                vektrid_fill(pair.data(), 64, kShift.x, kShift.y, flips.x.data(), flips.x.size(), flips.y.data(), flips.y.size(), 0, xs, n, ys, n);
                keep(xs);
            }};
}

Size query_size(const Pair& pair, uint32_t m) {
    return {"query", "m = " + std::to_string(m), 256, [=, &pair] {
                uint32_t index = 0, j = 0;
                vektrid_query(pair.data(), 64, kShift.x, kShift.y, vektrid_no_flips, 32, vektrid_no_flips, 32, 32, m, m / 2, 0, 0, 0, &index, &j);
                keep(&index);
            }};
}

// An overview of the first n cells of a list.
Size overview_size(const Pair& pair, const Overview& of, std::vector<uint32_t>& words, size_t n) {
    uint32_t* const answers = words.data();
    return {"overview, m = 12", std::to_string(n) + (n == 1 ? " cell" : " cells"), n < 256 ? 256 : static_cast<int>(65536 / n),
            [=, &pair, &of] {
                uint32_t j = 0;
                vektrid_overview(pair.data(), 64, of.shift.x, of.shift.y, vektrid_no_flips, 32, vektrid_no_flips, 32, of.level, of.m, of.a,
                                 of.block, of.columns.data(), n, of.rows.data(), n, answers, n, &j);
                keep(answers);
            }};
}

Size check_size(const Pair& pair, uint32_t level) {
    return {"check", "level " + std::to_string(level), level < 16 ? 16 : 1, [=, &pair] {
                uint32_t m = 0, a = 0, j = 0;
                const uint32_t refusal = vektrid_check(pair.data(), 64, level, &m, &a, &j);
                keep(&refusal);
            }};
}

}  // namespace

void measure_growth(Report& report) {
    const Pair pair = scrambled_pair(1);
    const Flips flips = random_flips(16);
    std::vector<uint32_t> words(size_t{2} << 22);
    const Overview of = squares(65536);
    std::vector<Size> sizes;
    for (const int log : {0, 4, 8, 12, 16, 20, 22}) sizes.push_back(fill_size("fill, any pair", pair, kNoFlips, words, log));
    for (const int log : {0, 8, 12, 16, 20}) sizes.push_back(fill_size("fill, any pair, random flips", pair, flips, words, log));
    for (const uint32_t m : {0, 4, 8, 16, 24, 32}) sizes.push_back(query_size(pair, m));
    for (const size_t n : {0, 1, 16, 256, 4096, 65536}) sizes.push_back(overview_size(pair, of, words, n));
    for (const uint32_t level : {1, 4, 8, 16, 24, 32}) sizes.push_back(check_size(pair, level));
    Race race;
    for (const Size& size : sizes)
        race.add(size.call + size.size, [&size] {
            for (int i = 0; i < size.times; ++i) size.once();
        });
    race.run(2, 5);
    for (const Size& size : sizes) report.growth(size.call, size.size, race.best(size.call + size.size) / size.times);
}
