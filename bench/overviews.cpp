// Overviews: many cells of one shape and block in one call.
#include <algorithm>
#include <string>
#include <vector>

#include "../include/vektrid.h"
#include "cell_peers.hpp"
#include "queries.hpp"
#include "report.hpp"

namespace {

// Where the words of a list lie. An empty vector may have no address, and the library wants one.
template <class Words>
auto lent(Words& words) {
    static uint32_t none = 0;
    return words.empty() ? &none : words.data();
}

// Our overview; a j that a refusal leaves as it was shows as 0.
Answer our_overview_under(const Flips& flips, const Pair& pair, const Overview& of, std::vector<uint32_t>& answers) {
    uint32_t j = kUntouched;
    const uint32_t refusal = vektrid_overview(pair.data(), 64, of.shift.x, of.shift.y, flips.x.data(), flips.x.size(), flips.y.data(),
                                              flips.y.size(), of.level, of.m, of.a, of.block, lent(of.columns), of.columns.size(),
                                              lent(of.rows), of.rows.size(), lent(answers), answers.size(), &j);
    if (refusal == 3) return {3, of.m, of.a, j};
    return {refusal, 0, 0, j != kUntouched};
}

// The same by single queries of ours. They write their answers one by one, up to the first that is refused.
Answer our_queries_under(const Flips& flips, const Pair& pair, const Overview& of, std::vector<uint32_t>& answers) {
    if (!of.fits(answers)) return {8};
    Answer answer = answers.empty() ? our_query_under(flips, pair, of.first()) : Answer{};
    for (size_t i = 0; i < answers.size() && answer.refusal == 0; ++i) {
        answer = our_query_under(flips, pair, of.query(i));
        if (answer.refusal == 0) answers[i] = answer.index;
    }
    answer.index = 0;
    return answer;
}

// A call with these flips, in the form of a call without them.
template <class Call>
auto under(const Flips& flips, Call call) {
    return [&flips, call](const Pair& pair, const Overview& of, std::vector<uint32_t>& answers) { return call(flips, pair, of, answers); };
}

// Any overview: no cell, one or many in the grid of any query, whose cell comes first; now and then a later cell outside, or a list too long.
Overview any_overview(std::mt19937& random) {
    const Query first = any_query(random);
    const uint32_t a = std::min(first.a, first.m);  // where a is above m, any cells will do
    const size_t count = random() % 4 == 0 ? random() % 2 : random() % 256;
    Overview of{first, {}, {}};
    for (size_t i = 0; i < count; ++i) {
        const Query query = i == 0 ? first : fitting_query(random, first.m, a);
        of.columns.push_back(query.column);
        of.rows.push_back(query.row);
    }
    if (count > 1 && random() % 8 == 0) {
        const size_t later = 1 + random() % (count - 1);
        const bool column = random() % 2 == 0;
        (column ? of.columns : of.rows)[later] = static_cast<uint32_t>(uint64_t{1} << (column ? a : first.m - a));
    }
    if (random() % 16 == 0) (random() % 2 == 0 ? of.columns : of.rows).push_back(0);
    return of;
}

// What a call gives: its answer, and what then stands in the list of answers.
struct Outcome {
    Answer answer;
    std::vector<uint32_t> answers;
    bool operator==(const Outcome&) const = default;
};

template <class Ask>
Outcome outcome(const Pair& pair, const Overview& of, size_t count, Ask ask) {
    std::vector<uint32_t> answers(count, kUntouched);
    const Answer answer = ask(pair, of, answers);
    return {answer, answers};
}

Outcome by_queries(const Flips& flips, const Pair& pair, const Overview& of, size_t count) {
    Outcome queries = outcome(pair, of, count, under(flips, our_queries_under));
    if (queries.answer.refusal != 0) queries.answers.assign(count, kUntouched);
    return queries;
}

void compare_one(Report& report, const Pair& pair, const Overview& of, size_t count, const std::string& name) {
    const Outcome ours = outcome(pair, of, count, under(kNoFlips, our_overview_under));
    report.compare(ours == outcome(pair, of, count, cpp_overview), name + " against C++");
    report.compare(ours == by_queries(kNoFlips, pair, of, count), name + " against single queries");
}

// An overview under flips: refused as the plain one, or each index has its point in its cell.
bool right_under(const Flips& flips, const Pair& pair, const Overview& of, const Outcome& ours) {
    const Outcome plain = outcome(pair, of, ours.answers.size(), cpp_overview);
    const uint32_t refusal = refusal_under(flips, plain.answer.refusal);
    if (refusal != plain.answer.refusal) return ours == Outcome{{refusal}, std::vector<uint32_t>(ours.answers.size(), kUntouched)};
    if (refusal != 0) return ours == plain;
    bool right = ours.answer == Answer{};
    for (size_t i = 0; i < ours.answers.size(); ++i) right = right && lies_in_cell(flips, pair, of.query(i), ours.answers[i]);
    return right;
}

void compare_under(Report& report, const Flips& flips, const Pair& pair, const Overview& of, size_t count, const std::string& name) {
    const Outcome ours = outcome(pair, of, count, under(flips, our_overview_under));
    report.compare(right_under(flips, pair, of, ours), name + " under flips against the definition");
    report.compare(ours == by_queries(flips, pair, of, count), name + " under flips against single queries");
}

template <class Ask>
void add(Race& race, const char* name, const std::vector<Pair>& pairs, const Overview& of, Ask ask) {
    race.add(name, [&pairs, &of, ask, answers = std::vector<uint32_t>(of.columns.size())]() mutable {
        for (const Pair& pair : pairs) {
            const Answer answer = ask(pair, of, answers);
            keep(&answer);
            keep(answers.data());
        }
    });
}

}  // namespace

void compare_overviews(Report& report) {
    std::mt19937 random(14), flipping(16);
    for (int i = 0; i < 400; ++i) {
        const Pair pair = any_pair(random);
        for (int k = 0; k < 10; ++k) {
            const Overview of = any_overview(random);
            const size_t count = of.columns.size() + (random() % 16 == 0);
            const std::string name = "overview " + std::to_string(k) + " of random pair " + std::to_string(i);
            compare_one(report, pair, of, count, name);
            compare_under(report, any_query_flips(flipping), pair, of, count, name);
        }
    }
    const Overview of = squares(4096);
    for (const Pair& pair : passing_pairs()) {
        compare_one(report, pair, of, of.columns.size(), "overview of 64 x 64 squares");
        compare_under(report, any_flips(flipping), pair, of, of.columns.size(), "overview of 64 x 64 squares");
    }
}

void measure_overviews(Report& report) {
    const std::vector<Pair> pairs = passing_pairs();
    const Overview of = squares(4096);
    const Flips flips = random_flips(16);
    Race race;
    add(race, "ours", pairs, of, under(kNoFlips, our_overview_under));
    add(race, "flips", pairs, of, under(flips, our_overview_under));
    add(race, "queries", pairs, of, under(kNoFlips, our_queries_under));
    add(race, "theirs", pairs, of, cpp_overview);
    race.run(3, 10);
    const double work = static_cast<double>(pairs.size() * of.columns.size()) / 1e6;
    report.row({"overview_vs_queries", "overview, 4,096 cells / a query of ours for each", "Mcells/s", 8}, work, race, "ours", "queries");
    report.row({"overview_vs_cpp", "overview, 4,096 cells / C++ basis", "Mcells/s", 1}, work, race, "ours", "theirs");
    const Row row{"overview_flips_vs_plain", "overview, 4,096 cells, random flips / ours without flips", "Mcells/s"};
    report.row(row, work, race, "flips", "ours");
}
