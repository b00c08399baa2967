//! The C calls as `include/vektrid.h` declares them. The rest of this crate makes them safe, and
//! compares the number of the interface before the first of them; whoever calls them from here
//! compares `vektrid_abi` with [`ABI`](crate::ABI) first.
//!
//! Each answers any numbers. It asks of its caller that no pointer is null, that each points to
//! aligned memory of its type, that each buffer has the length given beside it, and that what it
//! writes overlaps nothing else that is lent to it.

/// A walk among the visits of a region file (`vektrid_file_walk`). Every content is answered.
#[repr(C)]
#[derive(Clone, Copy, Debug, PartialEq, Eq, Hash)]
pub struct FileWalk {
    /// Words that only the library reads.
    pub words: [u32; 11],
}

/// A cursor in the listing of a region file (`vektrid_cursor`). Every content is answered.
#[repr(C)]
#[derive(Clone, Copy, Debug, PartialEq, Eq, Hash)]
pub struct Cursor {
    /// Words that only the library reads.
    pub words: [u32; 13],
}

/// A cursor in the visit sheet of a region file (`vektrid_sheet_cursor`). Every content is answered.
#[repr(C)]
#[derive(Clone, Copy, Debug, PartialEq, Eq, Hash)]
pub struct SheetCursor {
    /// Words that only the library reads.
    pub words: [u32; 14],
}

extern "C" {
    /// The number of the library's interface.
    pub fn vektrid_abi() -> u32;

    /// Writes the standard pair into 64 words.
    pub fn vektrid_standard_pair(words: *mut u32, count: usize) -> u32;

    /// Whether a pair passes a level.
    pub fn vektrid_check(
        words: *const u32,
        count: usize,
        level: u32,
        m: *mut u32,
        a: *mut u32,
        j: *mut u32,
    ) -> u32;

    /// The point of an index.
    pub fn vektrid_point(
        words: *const u32,
        count: usize,
        shift_x: u32,
        shift_y: u32,
        flips_x: *const u8,
        flips_x_count: usize,
        flips_y: *const u8,
        flips_y_count: usize,
        index: u32,
        x: *mut u32,
        y: *mut u32,
    ) -> u32;

    /// The point of an index of the standard pair, by the fast way.
    pub fn vektrid_standard_point(
        shift_x: u32,
        shift_y: u32,
        flips_x: *const u8,
        flips_x_count: usize,
        flips_y: *const u8,
        flips_y_count: usize,
        index: u32,
        x: *mut u32,
        y: *mut u32,
    ) -> u32;

    /// The points of the indexes from a start on.
    pub fn vektrid_fill(
        words: *const u32,
        count: usize,
        shift_x: u32,
        shift_y: u32,
        flips_x: *const u8,
        flips_x_count: usize,
        flips_y: *const u8,
        flips_y_count: usize,
        start: u32,
        xs: *mut u32,
        xs_count: usize,
        ys: *mut u32,
        ys_count: usize,
    ) -> u32;

    /// A walk over visits.
    pub fn vektrid_walk_open(start: u32, count: u64, next: *mut u32, left: *mut u64) -> u32;

    /// A step of a walk.
    pub fn vektrid_walk_step(
        words: *const u32,
        count: usize,
        shift_x: u32,
        shift_y: u32,
        flips_x: *const u8,
        flips_x_count: usize,
        flips_y: *const u8,
        flips_y_count: usize,
        next: *mut u32,
        left: *mut u64,
        given: *mut u32,
        index: *mut u32,
        x: *mut u32,
        y: *mut u32,
    ) -> u32;

    /// A step of a walk, the point as two singles.
    pub fn vektrid_walk_step_singles(
        words: *const u32,
        count: usize,
        shift_x: u32,
        shift_y: u32,
        flips_x: *const u8,
        flips_x_count: usize,
        flips_y: *const u8,
        flips_y_count: usize,
        next: *mut u32,
        left: *mut u64,
        given: *mut u32,
        index: *mut u32,
        x: *mut f32,
        y: *mut f32,
    ) -> u32;

    /// The index of a block that lies in a cell.
    pub fn vektrid_query(
        words: *const u32,
        count: usize,
        shift_x: u32,
        shift_y: u32,
        flips_x: *const u8,
        flips_x_count: usize,
        flips_y: *const u8,
        flips_y_count: usize,
        level: u32,
        m: u32,
        a: u32,
        column: u32,
        row: u32,
        block: u32,
        index: *mut u32,
        j: *mut u32,
    ) -> u32;

    /// The indexes of a block that lie in many cells of one shape.
    pub fn vektrid_overview(
        words: *const u32,
        count: usize,
        shift_x: u32,
        shift_y: u32,
        flips_x: *const u8,
        flips_x_count: usize,
        flips_y: *const u8,
        flips_y_count: usize,
        level: u32,
        m: u32,
        a: u32,
        block: u32,
        columns: *const u32,
        columns_count: usize,
        rows: *const u32,
        rows_count: usize,
        answers: *mut u32,
        answers_count: usize,
        j: *mut u32,
    ) -> u32;

    /// A word divided by 2^32.
    pub fn vektrid_double(word: u32) -> f64;

    /// The largest single not above a word divided by 2^32.
    pub fn vektrid_single(word: u32) -> f32;

    /// The point of an index as two singles.
    pub fn vektrid_point_singles(
        words: *const u32,
        count: usize,
        shift_x: u32,
        shift_y: u32,
        flips_x: *const u8,
        flips_x_count: usize,
        flips_y: *const u8,
        flips_y_count: usize,
        index: u32,
        x: *mut f32,
        y: *mut f32,
    ) -> u32;

    /// Where the corner of the reader's field stands in a region.
    pub fn vektrid_position(
        left: i32,
        top: i32,
        width: u32,
        height: u32,
        field_width: u32,
        field_height: u32,
        x: u32,
        y: u32,
        at_x: *mut i32,
        at_y: *mut i32,
    ) -> u32;

    /// Judges a region file.
    pub fn vektrid_judge(file: *const u8, size: usize) -> u32;

    /// Judges a region file, and says at which link of a refused one the judgement stopped.
    pub fn vektrid_judge_link(
        file: *const u8,
        size: usize,
        holder: *mut u32,
        named: *mut u32,
    ) -> u32;

    /// The walk before the first visit of a file.
    pub fn vektrid_file_walk_open(file: *const u8, size: usize, walk: *mut FileWalk) -> u32;

    /// The next visit of a file.
    pub fn vektrid_file_walk_step(
        file: *const u8,
        size: usize,
        walk: *mut FileWalk,
        given: *mut u32,
        record_number: *mut u32,
        index: *mut u32,
        at_x: *mut i32,
        at_y: *mut i32,
    );

    /// The start of a file's listing.
    pub fn vektrid_listing_open(file: *const u8, size: usize, cursor: *mut Cursor);

    /// The next piece of a listing.
    pub fn vektrid_listing_piece(
        file: *const u8,
        size: usize,
        cursor: *mut Cursor,
        out: *mut u8,
        room: usize,
    ) -> usize;

    /// The start of a file's sheet.
    pub fn vektrid_sheet_open(file: *const u8, size: usize, cursor: *mut SheetCursor);

    /// The next piece of a sheet.
    pub fn vektrid_sheet_piece(
        file: *const u8,
        size: usize,
        cursor: *mut SheetCursor,
        out: *mut u8,
        room: usize,
    ) -> usize;
}
