// SciPy's qmc.Sobol, measured and compared by scipy_peer.py, beside our fill in the same Python process.
#include <cstdio>
#include <cstdlib>
#include <map>
#include <sstream>
#include <string>
#include <utility>

#include "pairs.hpp"
#include "report.hpp"

namespace {

// What the script prints: a name and a value on each line; nothing where it fails.
using Said = std::map<std::string, std::string>;
Said ask(const std::string& python, int seconds) {
    std::ostringstream command;
    command << "'" << python << "' bench/scipy_peer.py target/libvektrid.so " << seconds;
    for (const uint32_t word : scrambled_pair(1).words) command << ' ' << word;
    Said said;
    std::FILE* pipe = popen(command.str().c_str(), "r");
    if (pipe == nullptr) return said;
    char name[64], value[64];
    while (std::fscanf(pipe, "%63s %63s", name, value) == 2) said[name] = value;
    if (pclose(pipe) != 0) said.clear();
    return said;
}

void add(Report& report, Row row, const Said& said, const char* name) {
    const auto number = [&](const char* key) { return std::strtod(said.at(key).c_str(), nullptr); };
    row.ours = (1 << 20) / 1e6 / number("ours");
    row.theirs = (1 << 20) / 1e6 / number(name);
    row.rounds = static_cast<int>(number("rounds"));
    report.row(std::move(row));
}

}  // namespace

void compare_scipy(Report& report, const std::string& python) {
    if (python.empty()) return;
    const Said said = ask(python, 0);
    if (said.count("equal") == 0) return;  // the script failed: its rows will say so
    report.compare(said.at("equal") == "1", "fill, standard pair, against SciPy qmc.Sobol in Gray-code order, top 30 bits");
}

void measure_scipy(Report& report, const std::string& python, const std::string& reason) {
    const Row first{"fill_any_vs_scipy", "fill, any pair / SciPy qmc.Sobol, first random(2^20)", "Mpoints/s", 12};
    const Row later{"fill_any_vs_scipy_later", "fill, any pair / SciPy qmc.Sobol, later random(2^20)", "Mpoints/s"};
    Said said;
    if (!python.empty()) said = ask(python, 4);
    if (said.count("first") == 0) {
        for (const Row& row : {first, later}) report.missing(row, python.empty() ? reason : "bench/scipy_peer.py failed");
        return;
    }
    add(report, first, said, "first");
    add(report, later, said, "later");
    report.fact("scipy", said["version"]);
}
