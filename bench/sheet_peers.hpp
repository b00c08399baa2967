// Sheets in plain C++: snprintf into pieces of 64 KiB.
#pragma once

#include "listing_peers.hpp"

constexpr uint32_t kPageVisits = 48;

// A sheet that is handed over whenever a line more might have no room.
template <class Sink>
class PrintfSheet {
public:
    PrintfSheet(uint8_t* piece, Sink sink) : piece_(piece), sink_(sink) {}
    void visit(uint32_t record, uint32_t i, int32_t x, int32_t y) {
        if (on_page_ == kPageVisits) end_page();
        if (on_page_ == 0) line("%4s %4s %8s %8s\n", "rec", "vis", "x", "y");
        line("%4u %4u %8d %8d\n", record, i, x, y);
        ++on_page_;
    }
    void end() {
        for (; on_page_ < kPageVisits; ++on_page_) line("%27s\n", "");
        end_page();
        sink_(piece_, at_);
    }

private:
    template <class... Fields>
    void line(const char* format, Fields... fields) {
        if (kPiece - at_ < kLongestLine) sink_(piece_, at_), at_ = 0;
        at_ += static_cast<size_t>(std::snprintf(reinterpret_cast<char*>(piece_) + at_, kPiece - at_, format, fields...));
    }
    void end_page() {
        line("%27u\n", ++pages_);
        on_page_ = 0;
    }
    uint8_t* piece_;
    Sink sink_;
    size_t at_ = 0;
    uint32_t on_page_ = 0, pages_ = 0;
};

// The sheet of a file that has visits.
template <class Sink>
void cpp_sheet(const File& file, uint8_t* piece, Sink sink) {
    PrintfSheet<Sink> sheet(piece, sink);
    each_record(file, [&](uint32_t number, const Record& record) {
        each_visit(record, [&](uint32_t i, int32_t x, int32_t y) { sheet.visit(number, i, x, y); });
    });
    sheet.end();
}
