// Timing, comparing and reporting, shared by the files of bench/.
#pragma once

#include <cstddef>
#include <cstdint>
#include <functional>
#include <map>
#include <random>
#include <string>
#include <utility>
#include <vector>

// Says to the compiler that what lies at p is read here, so that nothing that writes it is dropped.
inline void keep(const void* p) { asm volatile("" : : "r"(p) : "memory"); }

// Contenders that run in turn, in another order each round, so that all of them see the same machine. The best time of each counts, on
// the clock: most of what other work on the machine takes is not in it. A virtual machine's account of processor time is no use here. It
// takes off what it believes that the host took, and where that is too much, the best time is too good (0 has been seen).
class Race {
public:
    void add(const std::string& name, std::function<void()> run);
    void run(double seconds, int least_rounds);  // as many rounds as fit into the seconds, and at least so many
    double best(const std::string& name) const;  // in seconds
    int rounds() const { return rounds_; }

private:
    struct Contender {
        std::string name;
        std::function<void()> run;
    };
    void once(Contender& contender);
    std::vector<Contender> contenders_;
    std::map<std::string, double> best_;
    std::mt19937 random_{1};
    int rounds_ = 0;
};

// A row of the table: two rates in one unit, larger is better. A goal of 0 means that none is set.
struct Row {
    std::string key, what, unit;
    double goal = 0;
    double ours = 0, theirs = 0;
    int rounds = 0;            // how many times each was run
    std::string missing = {};  // why the peer was not measured
};

// What the benchmark finds: the rows, facts about the machine, and the values that differ.
class Report {
public:
    // A row of rates: two contenders of a race that did `work` units of work each.
    void row(Row row, double work, const Race& race, const char* ours, const char* theirs);
    void row(Row row);
    void missing(Row row, const std::string& reason);
    // The time of one of our calls at one size.
    void growth(const std::string& call, const std::string& size, double seconds);
    void fact(const std::string& name, const std::string& value);
    // One comparison of values; `what` says which.
    void compare(bool equal, const std::string& what);
    bool all_equal() const { return differing_ == 0; }
    int compared() const { return compared_; }
    bool write(const std::string& path) const;  // as JSON

private:
    struct Growth {
        std::string call, size;
        double seconds;
    };
    std::vector<Row> rows_;
    std::vector<Growth> growth_;
    std::vector<std::pair<std::string, std::string>> facts_;
    int compared_ = 0, differing_ = 0;
};

// The subjects. Each compares values, and measures; see the files of these names.
void compare_fills(Report& report);
void measure_fills(Report& report);
void compare_libraries(Report& report);
void compare_points(Report& report);
void measure_points(Report& report);
void compare_cells(Report& report);
void measure_cells(Report& report);
void compare_overviews(Report& report);
void measure_overviews(Report& report);
void compare_singles(Report& report);
void measure_singles(Report& report);
void compare_listings(Report& report);
void measure_listings(Report& report);
void compare_sheets(Report& report);
void measure_sheets(Report& report);
void measure_growth(Report& report);
// SciPy by `command`, a Python that has it; where that is empty, `reason` says why.
void compare_scipy(Report& report, const std::string& command);
void measure_scipy(Report& report, const std::string& command, const std::string& reason);
