// The listing of a region file with 2,047 records of 4,096 visits: 8,384,512 lines, a piece of 64 KiB at a time, to /dev/null.
#include <fcntl.h>

#include "texts.hpp"

namespace {

template <class Writer>
void compare_one(Report& report, const File& file, const char* name) {
    std::vector<uint8_t> piece(kPiece);
    Against<Listing> ours(file);
    cpp_listing<Writer>(file, piece.data(), [&](const uint8_t* bytes, size_t n) { ours(bytes, n); });
    report.compare(ours.ended_equal(), std::string("listing against C++ ") + name);
}

template <class Writer>
void add_theirs(Race& race, const char* name, const File& file, std::vector<uint8_t>& piece, Null null) {
    race.add(name, [&file, &piece, null] { cpp_listing<Writer>(file, piece.data(), null); });
}

}  // namespace

void compare_listings(Report& report) {
    const File file = region_file();
    report.compare(vektrid_judge(file.data(), file.size()) == 0, "the region file is judged good");
    compare_one<ToChars>(report, file, "to_chars");
    compare_one<ToCharsOnce>(report, file, "to_chars, record number once");
    compare_one<Printf>(report, file, "snprintf");
}

void measure_listings(Report& report) {
    const File file = region_file();
    std::vector<uint8_t> piece(kPiece);
    const Null null{open("/dev/null", O_WRONLY)};
    Race race, slow;  // apart, so that the others run more often
    add_ours<Listing>(race, file, piece, null);
    add_ours<Listing>(slow, file, piece, null);
    add_theirs<ToChars>(race, "to_chars", file, piece, null);
    add_theirs<ToCharsOnce>(race, "to_chars once", file, piece, null);
    add_theirs<Printf>(slow, "printf", file, piece, null);
    race.run(8, 5);
    slow.run(6, 3);
    close(null.file);

    const double lines = kRecords * kVisits / 1e6;
    const Row once{"listing_vs_cpp_to_chars_once", "listing / C++ to_chars, record number once", "Mlines/s"};
    report.row({"listing_vs_cpp_to_chars", "listing / C++ to_chars", "Mlines/s", 0.9}, lines, race, "ours", "to_chars");
    report.row(once, lines, race, "ours", "to_chars once");
    report.row({"listing_vs_printf", "listing / C++ snprintf", "Mlines/s", 3}, lines, slow, "ours", "printf");
}
