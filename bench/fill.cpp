// Fills: 2^20 points into two buffers of words.
#include <string>
#include <vector>

#include "../include/vektrid.h"
#include "flip_peers.hpp"
#include "libraries.hpp"
#include "peers.hpp"
#include "report.hpp"

namespace {

constexpr size_t kPoints = size_t{1} << 20;
constexpr double kMillions = kPoints / 1e6;

struct Buffers {
    std::vector<uint32_t> xs, ys;
    explicit Buffers(size_t n) : xs(n), ys(n) {}
    Target target() { return {xs.data(), ys.data(), xs.size()}; }
    bool operator==(const Buffers&) const = default;
};

bool our_fill(const Pair& pair, Shift shift, uint32_t start, Target to, const Flips& flips = kNoFlips) {
    return vektrid_fill(pair.data(), 64, shift.x, shift.y, flips.x.data(), flips.x.size(), flips.y.data(), flips.y.size(), start, to.xs, to.n,
                        to.ys, to.n) == 0;
}

// All points of our fill, against each way of plain C++ that takes the pair.
void compare_whole(Report& report, const Pair& pair, const std::string& name, uint32_t start) {
    Buffers ours(kPoints), theirs(kPoints);
    const std::string what = "fill, " + name + ", from index " + std::to_string(start) + ", against C++ ";
    report.compare(our_fill(pair, kShift, start, ours.target()), what + "(ours refuses)");
    fill_pbrt(pair, kShift, start, theirs.target());
    report.compare(ours == theirs, what + "PBRT loop");
    fill_prefix(pair, kShift, start, theirs.target());
    report.compare(ours == theirs, what + "prefix table");
    fill_groups(pair, kShift, start, theirs.target());
    report.compare(ours == theirs, what + "groups of 64");
}

void compare_listing19(Report& report, const Pair& standard) {
    Buffers ours(kPoints), theirs(kPoints);
    our_fill(standard, kShift, 0, ours.target());
    fill_listing19(kShift, 0, theirs.target());
    report.compare(ours == theirs, "fill, standard pair, against C++ listing 19");
}

// All points of our fill under flips, against the definition and against each way of plain C++.
void compare_flips(Report& report, const Pair& pair, const Flips& flips, const std::string& name, uint32_t start) {
    Buffers ours(kPoints), theirs(kPoints);
    const std::string what = "fill, " + name + ", from index " + std::to_string(start) + ", under flips, against ";
    report.compare(our_fill(pair, kShift, start, ours.target(), flips), what + "C++ (ours refuses)");
    fill_defined(pair, kShift, flips, start, theirs.target());
    report.compare(ours == theirs, what + "the definition");
    fill_masks(pair, kShift, flips, start, theirs.target());
    report.compare(ours == theirs, what + "C++ masks");
    fill_masks_unrolled(pair, kShift, flips, start, theirs.target());
    report.compare(ours == theirs, what + "C++ masks, unrolled");
    fill_mask_tables(pair, kShift, flips, start, theirs.target());
    report.compare(ours == theirs, what + "C++ tables with masks");
}

// Each flip bit alone, over indexes whose points have every top byte on both axes.
void compare_each_flip(Report& report, const Pair& pair) {
    for (uint32_t n = 0; n < 2 * 255; ++n) {
        const Flips flips = single_flip(n % 2 == 1, n / 2);
        Buffers ours(256), theirs(256);
        const bool filled = our_fill(pair, kShift, 0, ours.target(), flips);
        fill_defined(pair, kShift, flips, 0, theirs.target());
        report.compare(filled && ours == theirs, "fill, flip bit " + std::to_string(n / 2) + " of " + (n % 2 == 1 ? "y" : "x") + " alone");
    }
}

// Short fills at odd places, up to the last index; the words beside them keep their content.
void compare_short(Report& report, const Pair& pair, bool with_flips) {
    constexpr size_t room = 400, before = 3;
    const std::vector<uint32_t> random = random_words(1000, 3);
    std::mt19937 flipping(16);
    for (size_t i = 0; i + 1 < random.size(); i += 2) {
        const size_t n = random[i] % 300;
        const uint32_t last = 0u - static_cast<uint32_t>(n);
        const uint32_t start = i % 8 == 0 && n > 0 ? last : random[i + 1] % (0xFFFFFFFFu - 300);
        const Flips flips = with_flips ? any_flips(flipping) : kNoFlips;
        Buffers ours(room), theirs(room);
        const bool filled = our_fill(pair, kShift, start, {ours.xs.data() + before, ours.ys.data() + before, n}, flips);
        fill_defined(pair, kShift, flips, start, {theirs.xs.data() + before, theirs.ys.data() + before, n});
        const std::string what = with_flips ? "fill under flips of " : "fill of ";
        report.compare(filled && ours == theirs, what + std::to_string(n) + " points from index " + std::to_string(start));
    }
}

void add_ours(Race& race, const char* name, const Pair& pair, Buffers& buffers, const Flips& flips = kNoFlips) {
    race.add(name, [&] {
        our_fill(pair, kShift, 0, buffers.target(), flips);
        keep(buffers.xs.data());
    });
}

template <class Fill>
void add_theirs(Race& race, const char* name, Buffers& buffers, Fill fill) {
    race.add(name, [&buffers, fill] {
        fill(buffers.target());
        keep(buffers.xs.data());
    });
}

void add_libraries(Race& race, Buffers& buffers, std::vector<double>& doubles) {
    if (kBoostHere) add_theirs(race, "boost sobol", buffers, fill_boost_sobol);
    if (kBoostHere) add_theirs(race, "boost niederreiter", buffers, fill_boost_niederreiter);
    if (!kGslHere) return;
    race.add("gsl", [&doubles] {
        fill_gsl_sobol(doubles.data(), kPoints);
        keep(doubles.data());
    });
}

// Apart from the other fills, so that each of them runs as often as before.
void measure_flips(Report& report, const Pair& any, Buffers& buffers) {
    const Flips flips = random_flips(16);
    Race race;
    add_ours(race, "plain", any, buffers);
    add_ours(race, "flips", any, buffers, flips);
    add_theirs(race, "masks", buffers, [&](Target to) { fill_masks(any, kShift, flips, 0, to); });
    add_theirs(race, "unrolled", buffers, [&](Target to) { fill_masks_unrolled(any, kShift, flips, 0, to); });
    add_theirs(race, "tables", buffers, [&](Target to) { fill_mask_tables(any, kShift, flips, 0, to); });
    race.run(6, 20);

    const Row plain{"fill_flips_vs_plain", "fill, any pair, random flips / ours without flips", "Mpoints/s", 0.3};
    const Row masks{"fill_flips_vs_cpp", "fill, any pair, random flips / C++ groups of 64 with masks", "Mpoints/s", 0.95};
    const Row unrolled{"fill_flips_vs_cpp_unrolled", "fill, any pair, random flips / the same C++, unrolled by hand", "Mpoints/s"};
    const Row tables{"fill_flips_vs_cpp_tables", "fill, any pair, random flips / C++ tables with masks, another algorithm", "Mpoints/s"};
    report.row(plain, kMillions, race, "flips", "plain");
    report.row(masks, kMillions, race, "flips", "masks");
    report.row(unrolled, kMillions, race, "flips", "unrolled");
    report.row(tables, kMillions, race, "flips", "tables");
}

void report_libraries(Report& report, const Race& race) {
    const Row sobol{"fill_any_vs_boost_sobol", "fill, any pair / Boost sobol", "Mpoints/s", 6};
    const Row niederreiter{"fill_any_vs_boost_niederreiter_base2", "fill, any pair / Boost niederreiter_base2", "Mpoints/s"};
    const Row gsl{"fill_any_vs_gsl_sobol", "fill, any pair / GSL sobol", "Mpoints/s", 6};
    if (kBoostHere) {
        report.row(sobol, kMillions, race, "any", "boost sobol");
        report.row(niederreiter, kMillions, race, "any", "boost niederreiter");
    } else {
        report.missing(sobol, "no Boost: libboost-dev could not be installed");
        report.missing(niederreiter, "no Boost: libboost-dev could not be installed");
    }
    if (kGslHere)
        report.row(gsl, kMillions, race, "any", "gsl");
    else
        report.missing(gsl, "no GSL: libgsl-dev could not be installed");
}

}  // namespace

void compare_fills(Report& report) {
    const Pair standard = standard_pair(), any = scrambled_pair(1);
    Pair given{};
    const bool made = vektrid_standard_pair(given.words.data(), 64) == 0;
    report.compare(made && given.words == standard.words, "the standard pair");
    compare_whole(report, any, "any pair", 0);
    compare_whole(report, any, "any pair", 0u - static_cast<uint32_t>(kPoints));
    compare_whole(report, standard, "standard pair", 0);
    compare_listing19(report, standard);
    compare_flips(report, any, random_flips(16), "any pair", 0);
    compare_flips(report, any, random_flips(17), "any pair", 0u - static_cast<uint32_t>(kPoints));
    compare_flips(report, standard, random_flips(18), "standard pair", 0);
    compare_flips(report, any, random_flips(19), "any pair", 1'000'003);  // no whole group at either end
    compare_each_flip(report, any);
    for (const Pair& pair : {any, standard})
        for (const bool with_flips : {false, true}) compare_short(report, pair, with_flips);
}

void measure_fills(Report& report) {
    const Pair standard = standard_pair(), any = scrambled_pair(1);
    Buffers buffers(kPoints);
    std::vector<double> doubles(2 * kPoints);
    Race race;
    add_ours(race, "any", any, buffers);
    add_ours(race, "standard", standard, buffers);
    add_theirs(race, "prefix", buffers, [&](Target to) { fill_prefix(any, kShift, 0, to); });
    add_theirs(race, "groups", buffers, [&](Target to) { fill_groups(any, kShift, 0, to); });
    add_theirs(race, "listing 19", buffers, [](Target to) { fill_listing19(kShift, 0, to); });
    add_theirs(race, "stores", buffers, [](Target to) { store_only(0, to); });
    add_libraries(race, buffers, doubles);
    race.run(10, 20);
    Race slow;  // apart, so that the others run more often
    add_ours(slow, "any", any, buffers);
    add_theirs(slow, "pbrt", buffers, [&](Target to) { fill_pbrt(any, kShift, 0, to); });
    slow.run(2, 5);

    const Row listing19{"fill_standard_vs_cpp_listing19", "fill, standard pair / C++ listing 19", "Mpoints/s", 1.2};
    report.row({"fill_any_vs_cpp_prefix", "fill, any pair / C++ prefix table", "Mpoints/s", 2.4}, kMillions, race, "any", "prefix");
    report.row({"fill_any_vs_cpp_groups", "fill, any pair / C++ groups of 64", "Mpoints/s"}, kMillions, race, "any", "groups");
    report.row({"fill_any_vs_pbrt_loop", "fill, any pair / PBRT loop", "Mpoints/s"}, kMillions, slow, "any", "pbrt");
    report.row({"fill_any_vs_stores", "fill, any pair / plain stores", "Mpoints/s", 0.4}, kMillions, race, "any", "stores");
    report_libraries(report, race);
    report.row(listing19, kMillions, race, "standard", "listing 19");
    measure_flips(report, any, buffers);
}
