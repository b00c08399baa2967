/* Vektrid: the visit planner, as C calls of the proved library (crates/vektrid).
 *
 * Every call answers any numbers; none traps, prints or keeps anything. An answer of type uint32_t, other than that of vektrid_abi, is 0 or the
 * number of a refusal (enum vektrid_refusal). A refused call leaves every lent word and buffer as it was, but for the values that refusal 3 gives,
 * and where vektrid_judge_link stopped. What the proofs ask of the caller, since C cannot say it: no pointer is null (not even with a length of
 * 0), each points to aligned memory of its type that holds some value, each buffer has the length given beside it, and what one call writes does
 * not overlap anything else that is lent to that call.
 *
 * A pair (two generator matrices) is 64 words: the 32 columns of X, then those of Y; column c belongs to index bit c, and the top bit of a
 * word is row 0. What follows the products is the scramble: first the flips of each axis, then its shift. flips_x and flips_y are 32 bytes each
 * (Owen's nested scrambling to depth 8): bit t from the top of a product, t from 0 to 7, is flipped where flip bit 2^t - 1 + p is set, p being
 * the t bits above it in the product, and flip bit n is bit n % 8 of byte n / 8, both from the lowest. Flip bit 255 belongs to no bit and must be
 * 0. vektrid_no_flips flips nothing. shift_x and shift_y (a digital shift) are then added, exclusive or.
 *
 * Link target/staticlib/libvektrid.a or target/libvektrid.so; tools/archive makes both.
 */
#ifndef VEKTRID_H
#define VEKTRID_H

#include <stddef.h>
#include <stdint.h>

#ifdef __cplusplus
extern "C" {
#endif

/* The number of this interface. It goes up with every change of a call, a lent struct or an answer, and with every new call, so that a program
 * compiled with this header can tell whether it runs with the library that belongs to it: vektrid_abi() == VEKTRID_ABI. */
#define VEKTRID_ABI 5
uint32_t vektrid_abi(void);

enum vektrid_refusal { /* docs/REFUSALS.md says exactly when each is given */
    VEKTRID_ACCEPTED = 0,
    VEKTRID_WORD_COUNT = 1,      /* a pair is not 64 words */
    VEKTRID_LEVEL = 2,           /* a level is not 1 to 32 */
    VEKTRID_NOT_NET = 3,         /* not a net */
    VEKTRID_SIZE = 4,            /* m is above the level */
    VEKTRID_SHAPE = 5,           /* a is above m */
    VEKTRID_CELL = 6,            /* the column or the row is outside the shape */
    VEKTRID_BLOCK = 7,           /* the block lies beyond the last index */
    VEKTRID_BUFFER_LENGTHS = 8,  /* two buffers differ in length */
    VEKTRID_INDEX_RANGE = 9,     /* start + count is above 2^32 */
    VEKTRID_REGION = 10,         /* an edge or an extent of a region is outside its limits */
    VEKTRID_FILE_LENGTH = 11,    /* a file is empty, over 65,536 bytes, or not whole records of 32 bytes */
    VEKTRID_RESERVED_BYTES = 12, /* bytes 16 to 31 of record 0 are not all zero */
    VEKTRID_MISSING_RECORD = 13, /* the chain names a record that the file lacks */
    VEKTRID_CHAIN_RETURNS = 14,  /* the chain returns to a record */
    VEKTRID_VISIT_COUNT = 15,    /* a record has more than 4,096 visits */
    VEKTRID_FIELD = 16,          /* the reader's field is wider or taller than a region */
    VEKTRID_FLIP_BYTES = 17,     /* the flips of an axis are not 32 bytes */
    VEKTRID_FLIP_BIT = 18        /* flip bit 255 of an axis is set */
};

/* ---- pairs */

/* Writes the standard pair (identity, and Pascal's triangle modulo 2) into 64 words; 1 for another number of words. */
uint32_t vektrid_standard_pair(uint32_t *words, size_t count);

/* Whether a pair passes a level: 0, or 1, 2 or 3; 3 writes the first bad shape to *m and *a and its least index to *j. */
uint32_t vektrid_check(const uint32_t *words, size_t count, uint32_t level, uint32_t *m, uint32_t *a, uint32_t *j);

/* ---- points */

/* The flips of an axis that flip nothing. */
static const uint8_t vektrid_no_flips[32] = {0};

/* The point of an index, for any pair: 0, or the first refusal that applies, in the order 1, 17, 18. */
uint32_t vektrid_point(const uint32_t *words, size_t count, uint32_t shift_x, uint32_t shift_y, const uint8_t *flips_x, size_t flips_x_count,
                       const uint8_t *flips_y, size_t flips_y_count, uint32_t index, uint32_t *x, uint32_t *y);

/* The point of an index of the standard pair, by the fast way: 0, 17 or 18. */
uint32_t vektrid_standard_point(uint32_t shift_x, uint32_t shift_y, const uint8_t *flips_x, size_t flips_x_count, const uint8_t *flips_y,
                                size_t flips_y_count, uint32_t index, uint32_t *x, uint32_t *y);

/* The points of the indexes from start on, into every word of two buffers of equal length: 0, or the first refusal that applies, in the order 1,
 * 17, 18, 8, 9. */
uint32_t vektrid_fill(const uint32_t *words, size_t count, uint32_t shift_x, uint32_t shift_y, const uint8_t *flips_x, size_t flips_x_count,
                      const uint8_t *flips_y, size_t flips_y_count, uint32_t start, uint32_t *xs, size_t xs_count, uint32_t *ys,
                      size_t ys_count);

/* ---- walks: a walk is the next index and how many visits are left, both the caller's to keep */

/* A walk over count visits from start on: 0 or 9. */
uint32_t vektrid_walk_open(uint32_t start, uint64_t count, uint32_t *next, uint64_t *left);

/* A step: 0, or the first refusal that applies, in the order 1, 17, 18, also where the walk has ended. *given is 1 where there was a visit, its
 * index and point then in *index, *x and *y; 0 where the walk has ended, and those three keep what they held. *next and *left become the walk
 * after the step. Any *next and *left are answered, also ones that were never opened. After the visit of index 2^32 - 1, *left is 0 and *next
 * stays. */
uint32_t vektrid_walk_step(const uint32_t *words, size_t count, uint32_t shift_x, uint32_t shift_y, const uint8_t *flips_x,
                           size_t flips_x_count, const uint8_t *flips_y, size_t flips_y_count, uint32_t *next, uint64_t *left, uint32_t *given,
                           uint32_t *index, uint32_t *x, uint32_t *y);

/* The same with the point as two singles. */
uint32_t vektrid_walk_step_singles(const uint32_t *words, size_t count, uint32_t shift_x, uint32_t shift_y, const uint8_t *flips_x,
                                   size_t flips_x_count, const uint8_t *flips_y, size_t flips_y_count, uint32_t *next, uint64_t *left,
                                   uint32_t *given, uint32_t *index, float *x, float *y);

/* ---- cells */

/* The shape (m, a) has 2^a columns and 2^(m-a) rows; a point's column is the top a bits of its x, its row the top m-a bits of its y. Block k
 * has the indexes k * 2^m to (k+1) * 2^m - 1. The level only bounds m; the pair need not be checked before.
 *
 * Writes the one index of the block whose point lies in the cell to *index: 0, or the first refusal that applies, in the order 1, 2, 17, 18,
 * 4, 5, 6, 7, 3. Refusal 3 writes to *j the least index above 0 that shares the cell of index 0 in this shape, whatever cell, block, shift and
 * flips were asked for. */
uint32_t vektrid_query(const uint32_t *words, size_t count, uint32_t shift_x, uint32_t shift_y, const uint8_t *flips_x, size_t flips_x_count,
                       const uint8_t *flips_y, size_t flips_y_count, uint32_t level, uint32_t m, uint32_t a, uint32_t column, uint32_t row,
                       uint32_t block, uint32_t *index, uint32_t *j);

/* Many cells of one shape and block in one call: writes what vektrid_query gives for the cell (columns[i], rows[i]) to answers[i]. A cell may
 * stand there more than once, and columns and rows, which are only read, may overlap each other.
 *
 * 0, or the first refusal that applies, in the order 1, 8, 2, 17, 18, 4, 5, then 6 of the first cell, 7, 3, then 6 of the later cells. 8 is
 * given unless the three counts are equal. From 2 on this is what vektrid_query answers for the earliest cell that it refuses; without cells, the
 * level, the flips, the shape and the block are judged all the same, and the pair for this shape. Refusal 3 writes *j as in vektrid_query. */
uint32_t vektrid_overview(const uint32_t *words, size_t count, uint32_t shift_x, uint32_t shift_y, const uint8_t *flips_x, size_t flips_x_count,
                          const uint8_t *flips_y, size_t flips_y_count, uint32_t level, uint32_t m, uint32_t a, uint32_t block,
                          const uint32_t *columns, size_t columns_count, const uint32_t *rows, size_t rows_count, uint32_t *answers,
                          size_t answers_count, uint32_t *j);

/* ---- unit numbers */

/* A word divided by 2^32, exactly. */
double vektrid_double(uint32_t word);

/* The largest single not above a word divided by 2^32. docs/SINGLES.md lays its bits out, by cases. */
float vektrid_single(uint32_t word);

/* The point of an index as two singles, for any pair: 0, or the first refusal that applies, in the order 1, 17, 18. */
uint32_t vektrid_point_singles(const uint32_t *words, size_t count, uint32_t shift_x, uint32_t shift_y, const uint8_t *flips_x,
                               size_t flips_x_count, const uint8_t *flips_y, size_t flips_y_count, uint32_t index, float *x, float *y);

/* ---- the stage */

/* Where the corner of the reader's field stands in a region for the point with coordinate words x and y, in micrometres, y downwards:
 * left + floor(x * (width - F + 1) / 2^32), F being field_width, and likewise from top with field_height. A field_width or field_height of 0
 * counts as 1. The whole field then lies in the region: left <= *at_x and *at_x + F <= left + width, and likewise down.
 *
 * 0, or the first refusal that applies: 10 unless left and top are -1,000,000 to 1,000,000 and width and height 1 to 1,000,000; 16 where
 * field_width is above width, or field_height above height. */
uint32_t vektrid_position(int32_t left, int32_t top, uint32_t width, uint32_t height, uint32_t field_width, uint32_t field_height, uint32_t x,
                          uint32_t y, int32_t *at_x, int32_t *at_y);

/* ---- region files */

/* A walk among the visits of a file, and cursors in its listing and in its sheet: words that a caller may copy and keep. Every content is
 * answered. Go on with the bytes that were opened; with other bytes the answers are some visits or some text, and still nothing else is
 * written. */
typedef struct vektrid_file_walk {
    uint32_t words[11];
} vektrid_file_walk;

typedef struct vektrid_cursor {
    uint32_t words[13];
} vektrid_cursor;

typedef struct vektrid_sheet_cursor {
    uint32_t words[14];
} vektrid_sheet_cursor;

/* Judges a whole file: 0, or the first refusal that applies, in the order 11, 2, 12, and then at each link of the chain 13, 14, 10, 16, 15. */
uint32_t vektrid_judge(const uint8_t *file, size_t size);

/* The same judgement, and of a refused file also where it stopped: *holder is the record that holds the link at which it stopped, *named the
 * number that this link names. Both are 0 for 11, 2 and 12, which concern no link. Where the file is accepted both keep what they held. */
uint32_t vektrid_judge_link(const uint8_t *file, size_t size, uint32_t *holder, uint32_t *named);

/* The walk before the first visit of a file: 0, or the refusal of the file as vektrid_judge gives it. */
uint32_t vektrid_file_walk_open(const uint8_t *file, size_t size, vektrid_file_walk *walk);

/* The next visit: *given is 1, and the number of its record in the file, its index in that record and its position are written, the position
 * for the field that record 0 of the file holds; or *given is 0 at the end, and those four keep what they held. *walk moves past the visit. */
void vektrid_file_walk_step(const uint8_t *file, size_t size, vektrid_file_walk *walk, uint32_t *given, uint32_t *record_number,
                            uint32_t *index, int32_t *at_x, int32_t *at_y);

/* The start of a file's listing. The listing of a refused file is the one line `refused`, a space and the number. */
void vektrid_listing_open(const uint8_t *file, size_t size, vektrid_cursor *cursor);

/* The next piece of a listing: writes whole lines while the longest line, 46 bytes, has room, returns how many bytes it wrote, and moves
 * *cursor past them. 0 bytes into a buffer of 46 bytes or more: the listing has ended. Bytes of the buffer past the piece keep their content. */
size_t vektrid_listing_piece(const uint8_t *file, size_t size, vektrid_cursor *cursor, uint8_t *out, size_t room);

/* The start of a file's sheet: its listing set in pages for a reader to tick off. A page is 50 lines of 27 columns, each with a line feed behind,
 * which is 1,400 bytes: a heading, 48 lines for visits, blank where there are fewer, and the number of the page. A file without visits has one
 * page. The sheet of a refused file is its listing, one line. */
void vektrid_sheet_open(const uint8_t *file, size_t size, vektrid_sheet_cursor *cursor);

/* The next piece of a sheet, as vektrid_listing_piece gives those of a listing: whole lines are written while 46 bytes, the listing's longest
 * line, have room, and *cursor moves past them. 0 bytes into a buffer of 46 bytes or more: the sheet has ended. Bytes of the buffer past the
 * piece keep their content. A piece may end within a page. */
size_t vektrid_sheet_piece(const uint8_t *file, size_t size, vektrid_sheet_cursor *cursor, uint8_t *out, size_t room);

#ifdef __cplusplus
}
#endif

#endif
