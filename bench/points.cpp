// Points of random indexes, one call each.
#include <string>
#include <vector>

#include "../include/vektrid.h"
#include "flip_peers.hpp"
#include "report.hpp"

namespace {

constexpr size_t kIndexes = size_t{1} << 17;

// Random indexes with the places for their points.
struct Points {
    std::vector<uint32_t> indexes = random_words(kIndexes, 5), xs = indexes, ys = indexes;
    bool same(const Points& other) const { return xs == other.xs && ys == other.ys; }
};

bool our_points(const Pair& pair, const Flips& flips, Points& points) {
    uint32_t refused = 0;
    for (size_t i = 0; i < kIndexes; ++i)
        refused |= vektrid_point(pair.data(), 64, kShift.x, kShift.y, flips.x.data(), flips.x.size(), flips.y.data(), flips.y.size(),
                                 points.indexes[i], &points.xs[i], &points.ys[i]);
    return refused == 0;
}

bool our_standard_points(const Flips& flips, Points& points) {
    uint32_t refused = 0;
    for (size_t i = 0; i < kIndexes; ++i)
        refused |= vektrid_standard_point(kShift.x, kShift.y, flips.x.data(), flips.x.size(), flips.y.data(), flips.y.size(),
                                          points.indexes[i], &points.xs[i], &points.ys[i]);
    return refused == 0;
}

void defined_points(const Pair& pair, const Flips& flips, Points& points) {
    for (size_t i = 0; i < kIndexes; ++i) {
        const Point point = defined_point(pair, kShift, flips, points.indexes[i]);
        points.xs[i] = point.x;
        points.ys[i] = point.y;
    }
}

void pbrt_points(const Pair& pair, Points& points) {
    for (size_t i = 0; i < kIndexes; ++i) {
        points.xs[i] = pbrt_product(pair.x(), points.indexes[i]) ^ kShift.x;
        points.ys[i] = pbrt_product(pair.y(), points.indexes[i]) ^ kShift.y;
    }
}

void set_bits_points(const Pair& pair, Points& points) {
    for (size_t i = 0; i < kIndexes; ++i) {
        const Point point = set_bits_point(pair, kShift, points.indexes[i]);
        points.xs[i] = point.x;
        points.ys[i] = point.y;
    }
}

void listing19_points(Points& points) {
    for (size_t i = 0; i < kIndexes; ++i) {
        const uint32_t x = reversed(points.indexes[i]);
        points.xs[i] = x ^ kShift.x;
        points.ys[i] = pascal(x) ^ kShift.y;
    }
}

template <class Run>
void add(Race& race, const char* name, Points& points, Run run) {
    race.add(name, [&points, run] {
        run(points);
        keep(points.xs.data());
    });
}

// Many flips: dense ones, one axis without any, and single bits.
void compare_flips(Report& report, const Pair& any, const Pair& standard) {
    std::mt19937 random(16);
    Points ours, theirs;
    for (int i = 0; i < 24; ++i) {
        const Flips flips = any_flips(random);
        const std::string what = " under flips " + std::to_string(i) + " against the definition";
        const bool pointed = our_points(any, flips, ours);
        defined_points(any, flips, theirs);
        report.compare(pointed && ours.same(theirs), "points of any pair" + what);
        const bool fast = our_standard_points(flips, ours);
        defined_points(standard, flips, theirs);
        report.compare(fast && ours.same(theirs), "points of the standard pair by the fast way" + what);
    }
}

}  // namespace

void compare_points(Report& report) {
    const Pair standard = standard_pair(), any = scrambled_pair(1);
    Points ours, theirs;
    report.compare(our_points(any, kNoFlips, ours), "points of any pair are refused");
    pbrt_points(any, theirs);
    report.compare(ours.same(theirs), "points of any pair against the PBRT loop");
    set_bits_points(any, theirs);
    report.compare(ours.same(theirs), "points of any pair against C++ over the set bits");
    our_points(standard, kNoFlips, ours);
    pbrt_points(standard, theirs);
    report.compare(ours.same(theirs), "points of the standard pair against the PBRT loop");
    our_standard_points(kNoFlips, ours);
    report.compare(ours.same(theirs), "points of the standard pair by the fast way against the PBRT loop");
    listing19_points(theirs);
    report.compare(ours.same(theirs), "points of the standard pair by the fast way against C++ listing 19");
    compare_flips(report, any, standard);
}

void measure_points(Report& report) {
    const Pair standard = standard_pair(), any = scrambled_pair(1);
    const Flips flips = random_flips(16);
    Points points;
    Race race;
    add(race, "any", points, [&](Points& to) { our_points(any, kNoFlips, to); });
    add(race, "any, flips", points, [&](Points& to) { our_points(any, flips, to); });
    add(race, "standard", points, [](Points& to) { our_standard_points(kNoFlips, to); });
    add(race, "standard, flips", points, [&](Points& to) { our_standard_points(flips, to); });
    add(race, "pbrt", points, [&](Points& to) { pbrt_points(any, to); });
    add(race, "set bits", points, [&](Points& to) { set_bits_points(any, to); });
    add(race, "standard pbrt", points, [&](Points& to) { pbrt_points(standard, to); });
    add(race, "listing 19", points, listing19_points);
    race.run(4, 10);

    const double work = kIndexes / 1e6;
    const Row listing19{"standard_point_vs_cpp_listing19", "point, standard pair, fast way / C++ listing 19, inlined", "Mpoints/s"};
    report.row({"point_any_vs_pbrt_loop", "point, any pair / PBRT loop", "Mpoints/s", 2}, work, race, "any", "pbrt");
    report.row({"point_any_vs_cpp_set_bits", "point, any pair / C++ over the set bits", "Mpoints/s"}, work, race, "any", "set bits");
    report.row({"standard_point_vs_pbrt_loop", "point, standard pair, fast way / PBRT loop", "Mpoints/s"}, work, race, "standard", "standard pbrt");
    report.row(listing19, work, race, "standard", "listing 19");
    const Row flipped_any{"point_flips_vs_plain", "point, any pair, random flips / ours without flips", "Mpoints/s", 0.5};
    const Row flipped_standard{"standard_point_flips_vs_plain", "point, standard pair, fast way, random flips / ours without flips", "Mpoints/s"};
    report.row(flipped_any, work, race, "any, flips", "any");
    report.row(flipped_standard, work, race, "standard, flips", "standard");
}
