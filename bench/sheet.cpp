// The sheet of the region file that bench/listing.cpp lists: 174,678 pages, a piece of 64 KiB at a time, to /dev/null.
#include <fcntl.h>

#include "sheet_peers.hpp"
#include "texts.hpp"

void compare_sheets(Report& report) {
    const File file = region_file();
    std::vector<uint8_t> piece(kPiece);
    Against<Sheet> ours(file);
    cpp_sheet(file, piece.data(), [&](const uint8_t* bytes, size_t n) { ours(bytes, n); });
    report.compare(ours.ended_equal(), "sheet against C++ snprintf");
}

void measure_sheets(Report& report) {
    const File file = region_file();
    std::vector<uint8_t> piece(kPiece);
    const Null null{open("/dev/null", O_WRONLY)};
    Race race;
    add_ours<Sheet>(race, file, piece, null);
    race.add("printf", [&file, &piece, null] { cpp_sheet(file, piece.data(), null); });
    race.run(6, 3);
    close(null.file);
    report.row({"sheet_vs_printf", "sheet / C++ snprintf", "Mvisits/s", 3}, kRecords * kVisits / 1e6, race, "ours", "printf");
}
