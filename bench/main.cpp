// Compares every value first, then measures, then writes the results as JSON. Called by bench/run, from the repository's root.
//
//     bench OUT PYTHON REASON    (PYTHON has SciPy; or it is empty, and REASON says why. OUT empty: only compares)
#include <cstdio>
#include <fstream>
#include <string>
#include <thread>

#include "libraries.hpp"
#include "report.hpp"

namespace {

// The first line of a file that begins with `name`, without it, and without quotes.
std::string line_of(const char* path, const std::string& name) {
    std::ifstream file(path);
    for (std::string line; std::getline(file, line);)
        if (line.starts_with(name)) {
            std::erase(line, '"');
            return line.substr(name.size());
        }
    return "unknown";
}

void facts(Report& report) {
    report.fact("machine", line_of("/proc/cpuinfo", "model name\t: "));
    report.fact("cores", std::to_string(std::thread::hardware_concurrency()));
    report.fact("load_before", line_of("/proc/loadavg", ""));
    report.fact("system", line_of("/etc/os-release", "PRETTY_NAME="));
    report.fact("compiler", std::string("g++ ") + __VERSION__);
    report.fact("boost", boost_version());
    report.fact("gsl", gsl_version_text());
}

void say(const char* text) { std::fprintf(stderr, "bench: %s\n", text); }

void compare(Report& report, const std::string& python) {
    say("comparing values");
    compare_fills(report);
    compare_libraries(report);
    compare_scipy(report, python);
    compare_points(report);
    compare_cells(report);
    compare_overviews(report);
    compare_singles(report);
    compare_listings(report);
    compare_sheets(report);
}

void measure(Report& report, const std::string& python, const std::string& reason) {
    say("measuring fills");
    measure_fills(report);
    measure_scipy(report, python, reason);
    say("measuring points, checks, queries, overviews and singles");
    measure_points(report);
    measure_cells(report);
    measure_overviews(report);
    measure_singles(report);
    say("measuring listings and sheets");
    measure_listings(report);
    measure_sheets(report);
    measure_growth(report);
}

}  // namespace

int main(int argc, char** argv) {
    if (argc != 4) return 2;
    const std::string out = argv[1], python = argv[2], reason = argv[3];
    Report report;
    facts(report);
    compare(report, python);
    if (!report.all_equal()) return 1;
    std::fprintf(stderr, "bench: %d comparisons, all equal\n", report.compared());
    if (out.empty()) return 0;
    measure(report, python, reason);
    return report.write(out) ? 0 : 2;
}
