// Timing, comparing and reporting: see report.hpp.
#include "report.hpp"

#include <time.h>

#include <algorithm>
#include <cstdio>
#include <limits>
#include <utility>

namespace {

double seconds_now() {
    timespec time;
    clock_gettime(CLOCK_MONOTONIC, &time);
    return static_cast<double>(time.tv_sec) + static_cast<double>(time.tv_nsec) * 1e-9;
}

std::string number(double value) {
    char text[40];
    std::snprintf(text, sizeof text, "%.6g", value);
    return text;
}

std::string quoted(const std::string& text) {
    std::string out = "\"";
    for (char c : text) {
        if (c == '"' || c == '\\') out += '\\';
        if (static_cast<unsigned char>(c) >= ' ') out += c;
    }
    return out + '"';
}

std::string ratio(const Row& row) { return row.missing.empty() ? number(row.ours / row.theirs) : "null"; }

std::string object(const Row& row) {
    std::string text = "{\"key\": " + quoted(row.key) + ", \"what\": " + quoted(row.what) + ", \"unit\": " + quoted(row.unit);
    text += ", \"goal\": " + (row.goal > 0 ? number(row.goal) : "null");
    if (!row.missing.empty()) return text + ", \"missing\": " + quoted(row.missing) + "}";
    text += ", \"ours\": " + number(row.ours) + ", \"theirs\": " + number(row.theirs) + ", \"ratio\": " + ratio(row);
    return text + ", \"rounds\": " + std::to_string(row.rounds) + "}";
}

// A list of JSON values, one on each line.
void print_list(std::FILE* file, const char* name, const std::vector<std::string>& values) {
    std::fprintf(file, "  \"%s\": [", name);
    const char* before = "\n    ";
    for (const std::string& value : values) {
        std::fprintf(file, "%s%s", before, value.c_str());
        before = ",\n    ";
    }
    std::fputs("\n  ]", file);
}

}  // namespace

void Race::add(const std::string& name, std::function<void()> run) {
    contenders_.push_back({name, std::move(run)});
    best_[name] = std::numeric_limits<double>::infinity();
}

void Race::once(Contender& contender) {
    const double start = seconds_now();
    contender.run();
    const double took = seconds_now() - start;
    double& best = best_[contender.name];
    best = std::min(best, took);
}

void Race::run(double seconds, int least_rounds) {
    const double end = seconds_now() + seconds;
    for (rounds_ = 0; rounds_ < least_rounds || seconds_now() < end; ++rounds_) {
        std::shuffle(contenders_.begin(), contenders_.end(), random_);
        for (Contender& contender : contenders_) once(contender);
    }
}

double Race::best(const std::string& name) const { return best_.at(name); }

void Report::row(Row row) { rows_.push_back(std::move(row)); }

void Report::row(Row row, double work, const Race& race, const char* ours, const char* theirs) {
    row.ours = work / race.best(ours);
    row.theirs = work / race.best(theirs);
    row.rounds = race.rounds();
    rows_.push_back(std::move(row));
}

void Report::missing(Row row, const std::string& reason) {
    row.missing = reason;
    rows_.push_back(std::move(row));
}

void Report::growth(const std::string& call, const std::string& size, double seconds) { growth_.push_back({call, size, seconds}); }

void Report::fact(const std::string& name, const std::string& value) { facts_.emplace_back(name, value); }

void Report::compare(bool equal, const std::string& what) {
    ++compared_;
    if (equal) return;
    ++differing_;
    if (differing_ <= 40) std::fprintf(stderr, "bench: values differ: %s\n", what.c_str());
}

bool Report::write(const std::string& path) const {
    std::FILE* file = std::fopen(path.c_str(), "w");
    if (file == nullptr) return false;
    std::fputs("{\n", file);
    for (const Row& row : rows_) std::fprintf(file, "  %s: %s,\n", quoted(row.key).c_str(), ratio(row).c_str());
    for (const auto& [name, value] : facts_) std::fprintf(file, "  %s: %s,\n", quoted(name).c_str(), quoted(value).c_str());
    std::fprintf(file, "  \"comparisons\": %d,\n", compared_);
    std::vector<std::string> rows, growth;
    for (const Row& row : rows_) rows.push_back(object(row));
    for (const Growth& one : growth_)
        growth.push_back("{\"call\": " + quoted(one.call) + ", \"size\": " + quoted(one.size) + ", \"seconds\": " + number(one.seconds) + "}");
    print_list(file, "rows", rows);
    std::fputs(",\n", file);
    print_list(file, "growth", growth);
    std::fputs("\n}\n", file);
    return std::fclose(file) == 0;
}
