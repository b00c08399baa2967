// Listings in plain C++, and the region file that they and we list.
#pragma once

#include <algorithm>
#include <charconv>
#include <cstdio>
#include <cstring>
#include <random>
#include <string>
#include <vector>

#include "peers.hpp"

constexpr size_t kPiece = 65536, kLongestLine = 46;
constexpr uint32_t kRecords = 2047, kVisits = 4096;
constexpr uint32_t kFieldWidth = 400, kFieldHeight = 300;
inline const std::string kHeader = "record visit x y\n";

struct Head {
    uint32_t first, level, field_width, field_height;
};

struct Record {
    uint32_t next, left, top, width, height, shift_x, shift_y, count;
};

using File = std::vector<uint8_t>;

// The largest file that 01 allows: all records in a chain, regions and scrambles at random, and a reader's field that fits them all.
inline File region_file() {
    File file(32 * (kRecords + 1));
    std::mt19937 random(7);
    const auto below = [&](uint32_t n) { return static_cast<uint32_t>(random()) % n; };
    const Head head{1, 32, kFieldWidth, kFieldHeight};
    std::memcpy(file.data(), &head, sizeof head);
    for (uint32_t n = 1; n <= kRecords; ++n) {
        const uint32_t left = below(2000001) - 1000000, top = below(2000001) - 1000000;
        const uint32_t width = kFieldWidth + below(1000001 - kFieldWidth), height = kFieldHeight + below(1000001 - kFieldHeight);
        const uint32_t x = below(0xFFFFFFFF), y = below(0xFFFFFFFF);
        const Record record{n < kRecords ? n + 1 : 0, left, top, width, height, x, y, kVisits};
        std::memcpy(&file[32 * n], &record, sizeof record);
    }
    return file;
}

// How many places the corner of the field has between the edges of a region, by C-12.
inline uint32_t places(uint32_t extent, uint32_t field) { return extent - std::max(field, 1u) + 1; }

inline int32_t position(uint32_t edge, uint32_t places, uint32_t word) {
    return static_cast<int32_t>(edge) + static_cast<int32_t>((uint64_t{word} * places) >> 32);
}

// The records of a file's chain, each with its number, and with the places of the field's corner for its width and height. The file is taken as
// good, which is in favour of the peers.
template <class Visit>
void each_record(const File& file, Visit visit) {
    Head head;
    std::memcpy(&head, file.data(), sizeof head);
    uint32_t number = head.first;
    while (number != 0) {
        Record record;
        std::memcpy(&record, &file[32 * number], sizeof record);
        record.width = places(record.width, head.field_width);
        record.height = places(record.height, head.field_height);
        visit(number, record);
        number = record.next;
    }
}

// The visits of a record, points by listing 19.
template <class Visit>
void each_visit(const Record& record, Visit visit) {
    for (uint32_t i = 0; i < record.count; ++i) {
        const uint32_t x = reversed(i);
        visit(i, position(record.left, record.width, x ^ record.shift_x), position(record.top, record.height, pascal(x) ^ record.shift_y));
    }
}

// A listing: a Writer starts a record and writes a line.
template <class Writer, class Sink>
void cpp_listing(const File& file, uint8_t* piece, Sink sink) {
    char* const begin = reinterpret_cast<char*>(piece);
    char* const end = begin + kPiece;
    char* at = begin + kHeader.copy(begin, kHeader.size());
    each_record(file, [&](uint32_t number, const Record& record) {
        const Writer writer(number);
        each_visit(record, [&](uint32_t i, int32_t x, int32_t y) {
            if (static_cast<size_t>(end - at) < kLongestLine) {
                sink(piece, static_cast<size_t>(at - begin));
                at = begin;
            }
            at = writer.line(at, end, i, x, y);
        });
    });
    sink(piece, static_cast<size_t>(at - begin));
}

template <class Number>
inline char* put(char* at, char* end, Number value, char after) {
    at = std::to_chars(at, end, value).ptr;
    *at = after;
    return at + 1;
}

// std::to_chars for every field.
struct ToChars {
    uint32_t record;
    explicit ToChars(uint32_t number) : record(number) {}
    char* line(char* at, char* end, uint32_t i, int32_t x, int32_t y) const {
        at = put(at, end, record, ' ');
        at = put(at, end, i, ' ');
        at = put(at, end, x, ' ');
        return put(at, end, y, '\n');
    }
};

// The record's number turned into text once, and copied.
struct ToCharsOnce {
    char text[16] = {};
    size_t length;
    explicit ToCharsOnce(uint32_t number) { length = static_cast<size_t>(put(text, text + sizeof text, number, ' ') - text); }
    char* line(char* at, char* end, uint32_t i, int32_t x, int32_t y) const {
        std::memcpy(at, text, sizeof text);
        at = put(at + length, end, i, ' ');
        at = put(at, end, x, ' ');
        return put(at, end, y, '\n');
    }
};

// snprintf into the piece, which is faster than fprintf.
struct Printf {
    uint32_t record;
    explicit Printf(uint32_t number) : record(number) {}
    char* line(char* at, char* end, uint32_t i, int32_t x, int32_t y) const {
        return at + std::snprintf(at, static_cast<size_t>(end - at), "%u %u %d %d\n", record, i, x, y);
    }
};
