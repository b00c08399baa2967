// A text of a region file that comes in pieces, a listing or a sheet: ours, held against another, and timed.
#pragma once

#include <unistd.h>

#include <algorithm>
#include <cstdlib>
#include <cstring>
#include <string>
#include <vector>

#include "../include/vektrid.h"
#include "listing_peers.hpp"
#include "report.hpp"

// The calls of each text.
struct Listing {
    using Cursor = vektrid_cursor;
    static constexpr auto open = vektrid_listing_open;
    static constexpr auto piece = vektrid_listing_piece;
};

struct Sheet {
    using Cursor = vektrid_sheet_cursor;
    static constexpr auto open = vektrid_sheet_open;
    static constexpr auto piece = vektrid_sheet_piece;
};

// Ours: the sink gets each piece.
template <class Text, class Sink>
void our_text(const File& file, uint8_t* piece, Sink sink) {
    typename Text::Cursor cursor;
    Text::open(file.data(), file.size(), &cursor);
    while (const size_t n = Text::piece(file.data(), file.size(), &cursor, piece, kPiece)) sink(piece, n);
}

// Holds a stream of bytes against our text, wherever either of them ends its pieces.
template <class Text>
class Against {
public:
    explicit Against(const File& file) : file_(file) { Text::open(file.data(), file.size(), &cursor_); }
    void operator()(const uint8_t* bytes, size_t n) {
        while (n > 0 && equal_) {
            if (at_ == have_ && !refill()) equal_ = false;
            const size_t part = std::min(n, have_ - at_);
            equal_ = equal_ && std::memcmp(bytes, &piece_[at_], part) == 0;
            bytes += part, n -= part, at_ += part;
        }
    }
    bool ended_equal() { return equal_ && at_ == have_ && !refill(); }

private:
    bool refill() {
        have_ = Text::piece(file_.data(), file_.size(), &cursor_, piece_.data(), piece_.size());
        at_ = 0;
        return have_ > 0;
    }
    const File& file_;
    typename Text::Cursor cursor_;
    std::vector<uint8_t> piece_ = std::vector<uint8_t>(kPiece);
    size_t at_ = 0, have_ = 0;
    bool equal_ = true;
};

// Where the pieces go while time is taken.
struct Null {
    int file;
    void operator()(const uint8_t* bytes, size_t n) const {
        keep(bytes);
        if (write(file, bytes, n) != static_cast<ssize_t>(n)) std::abort();
    }
};

template <class Text>
void add_ours(Race& race, const File& file, std::vector<uint8_t>& piece, Null null) {
    race.add("ours", [&file, &piece, null] { our_text<Text>(file, piece.data(), null); });
}
