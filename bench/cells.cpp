// The check at level 32, and queries at m = 16 and m = 32.
#include <string>
#include <vector>

#include "../include/vektrid.h"
#include "cell_peers.hpp"
#include "queries.hpp"
#include "report.hpp"

namespace {

// Our check; places that a refusal leaves as they were show as 0.
Answer our_check(const Pair& pair, uint32_t level) {
    uint32_t m = kUntouched, a = kUntouched, j = kUntouched;
    const uint32_t refusal = vektrid_check(pair.data(), 64, level, &m, &a, &j);
    if (refusal == 3) return {3, m, a, j};
    const bool touched = m != kUntouched || a != kUntouched || j != kUntouched;
    return {refusal, touched, touched, touched};
}

template <class Check>
void add_check(Race& race, const char* name, const std::vector<Pair>& pairs, Check check) {
    race.add(name, [&pairs, check] {
        for (const Pair& pair : pairs) {
            const Answer answer = check(pair, 32);
            keep(&answer);
        }
    });
}

void measure_checks(Report& report, const std::vector<Pair>& pairs) {
    Race race;
    add_check(race, "ours", pairs, our_check);
    add_check(race, "theirs", pairs, cpp_check);
    add_check(race, "minors", pairs, cpp_check_minors);
    race.run(3, 10);
    const double work = static_cast<double>(pairs.size());
    const Row minors{"check32_vs_cpp_minors", "check, level 32 / C++ leading minors, another algorithm", "checks/s"};
    report.row({"check32_vs_cpp", "check, level 32 / C++ basis for each shape", "checks/s", 1}, work, race, "ours", "theirs");
    report.row(minors, work, race, "ours", "minors");
}

template <class Ask>
void add_queries(Race& race, const char* name, const std::vector<Pair>& pairs, const std::vector<Query>& queries, Ask ask) {
    race.add(name, [&pairs, &queries, ask] {
        for (size_t i = 0; i < queries.size(); ++i) {
            const Answer answer = ask(pairs[i % pairs.size()], queries[i]);
            keep(&answer);
        }
    });
}

std::vector<Query> fitting_queries(uint32_t m) {
    std::mt19937 random(m);
    std::vector<Query> queries;
    for (int i = 0; i < 1024; ++i) queries.push_back(fitting_query(random, m, m / 2));
    return queries;
}

void measure_queries(Report& report, const std::vector<Pair>& pairs, uint32_t m, Row row) {
    const std::vector<Query> queries = fitting_queries(m);
    Race race;
    add_queries(race, "ours", pairs, queries, our_query);
    add_queries(race, "theirs", pairs, queries, cpp_query);
    race.run(2, 10);
    report.row(std::move(row), static_cast<double>(queries.size()) / 1e3, race, "ours", "theirs");
}

void measure_flips(Report& report, const std::vector<Pair>& pairs) {
    const Flips flips = random_flips(16);
    const std::vector<Query> queries = fitting_queries(16);
    Race race;
    add_queries(race, "plain", pairs, queries, our_query);
    add_queries(race, "flips", pairs, queries, [&](const Pair& pair, const Query& query) { return our_query_under(flips, pair, query); });
    race.run(2, 10);
    const Row row{"query16_flips_vs_plain", "query, m = 16, a = 8, random flips / ours without flips", "kqueries/s"};
    report.row(row, static_cast<double>(queries.size()) / 1e3, race, "flips", "plain");
}

// A query under flips: refused as the plain one, or its index has its point in the cell.
bool right_under(const Flips& flips, const Pair& pair, const Query& query) {
    const Answer ours = our_query_under(flips, pair, query), plain = cpp_query(pair, query);
    const uint32_t refusal = refusal_under(flips, plain.refusal);
    if (refusal != plain.refusal) return ours == Answer{refusal};
    if (refusal != 0) return ours == plain;
    return ours == Answer{0, 0, 0, 0, ours.index} && lies_in_cell(flips, pair, query, ours.index);
}

}  // namespace

void compare_cells(Report& report) {
    std::mt19937 random(11), flipping(16);
    for (int i = 0; i < 800; ++i) {
        const Pair pair = any_pair(random);
        const uint32_t level = i % 2 == 0 ? 32 : static_cast<uint32_t>(random()) % 34;
        const std::string name = "of random pair " + std::to_string(i);
        const Answer theirs = cpp_check(pair, level);
        report.compare(our_check(pair, level) == theirs, "check " + name + ", level " + std::to_string(level));
        report.compare(cpp_check_minors(pair, level) == theirs, "the two C++ checks " + name);
        for (int k = 0; k < 16; ++k) {
            const Query query = any_query(random);
            report.compare(our_query(pair, query) == cpp_query(pair, query), "query " + std::to_string(k) + " " + name);
            report.compare(right_under(any_query_flips(flipping), pair, query), "query " + std::to_string(k) + " under flips " + name);
        }
    }
    for (const Pair& pair : passing_pairs()) report.compare(our_check(pair, 32) == Answer{}, "a scrambled standard pair passes level 32");
}

void measure_cells(Report& report) {
    const std::vector<Pair> pairs = passing_pairs();
    measure_checks(report, pairs);
    measure_queries(report, pairs, 32, {"query32_vs_cpp", "query, m = 32, a = 16 / C++ basis", "kqueries/s", 1});
    measure_queries(report, pairs, 16, {"query16_vs_cpp", "query, m = 16, a = 8 / C++ basis", "kqueries/s", 0.95});
    measure_flips(report, pairs);
}
