//! Counts that stop anywhere (02, C-15): how many visits a cell holds among
//! consecutive indexes, be they whole blocks or not.

use crate::pair::Point;
use crate::query::top_bits;

/// The numbers of visits for which the tables have a row.
pub const STOPS: [u64; 5] = [16, 50, 64, 100, 256];

/// The sizes m for which the tables have a column.
pub const SIZES: [u32; 4] = [2, 4, 6, 8];

/// Among n consecutive indexes from any start, each cell of a shape of size m
/// holds at least the first number of visits and at most the second, for every
/// pair that passes a level of m or more. These are the formulas of 02, for n
/// from 1 to 2^32 and m up to 32. They do not use that no index follows the last
/// one, and so are wider than need be where n leaves few starts.
pub fn count_bounds(n: u64, m: u32) -> (u64, u64) {
    // The least number is not below 0, also where n + 1 is less than a block.
    let least = whole_blocks(n + 1, m).saturating_sub(1);
    let most = begun_blocks(n - 1, m) + 1;
    (least, most)
}

/// The same for the n indexes from `start` on, for n from 1 and start + n up to
/// 2^32. A block has one visit in each cell, so a cell holds one for each block
/// that lies wholly among these indexes, and at most one for each block of which
/// at least one index is among them.
pub fn count_bounds_from(start: u64, n: u64, m: u32) -> (u64, u64) {
    let end = start + n;
    // Block k lies wholly among them if start <= k * 2^m and (k + 1) * 2^m <= end.
    // Indexes inside a single block would give -1, but no block is then whole.
    let whole = whole_blocks(end, m).saturating_sub(begun_blocks(start, m));
    // It has an index among them if k * 2^m < end and start < (k + 1) * 2^m.
    let touched = begun_blocks(end, m) - whole_blocks(start, m);
    (whole, touched)
}

/// How many blocks of size m end at or before this many indexes from index 0 on.
fn whole_blocks(indexes: u64, m: u32) -> u64 {
    indexes >> m
}

/// How many blocks of size m begin before this many indexes from index 0 on,
/// which is the quotient rounded up. The sum stays far below 2^64.
fn begun_blocks(indexes: u64, m: u32) -> u64 {
    (indexes + (1 << m) - 1) >> m
}

/// How many of the points lie in each cell of the shape (m, a), for a up to m
/// and m up to 16. The cell of a column and a row has the place
/// column * 2^(m - a) + row.
pub fn cell_counts(visits: &[Point], m: u32, a: u32) -> Vec<u64> {
    let mut counts = vec![0; 1 << m];
    for point in visits {
        counts[place(top_bits(point.x, a), top_bits(point.y, m - a), m - a)] += 1;
    }
    counts
}

/// The place of a cell among the counts of a shape with 2^row_bits rows.
fn place(column: u32, row: u32, row_bits: u32) -> usize {
    (column << row_bits | row) as usize
}

/// The row of a Markdown table: n, and for each of the sizes the least and the
/// most visits of a cell, or the one number where they are equal.
pub fn row(n: u64, bounds: impl Fn(u64, u32) -> (u64, u64)) -> String {
    let mut row = format!("| {n} |");
    for m in SIZES {
        let (least, most) = bounds(n, m);
        if least == most {
            row += &format!(" {least} |");
        } else {
            row += &format!(" {least} to {most} |");
        }
    }
    row
}

#[cfg(test)]
mod tests {
    use super::*;
    use crate::flips::Scramble;
    use crate::pair::{Pair, NO_SHIFT};
    use crate::query::lies_in;
    use crate::random::Random;

    const ALL_INDEXES: u64 = 1 << 32;

    /// The points of the n indexes from `start` on. The indexes are counted in
    /// the longer number, because the end may be 2^32.
    fn points(scramble: Scramble<'_>, start: u64, n: u64) -> Vec<Point> {
        let standard = Pair::standard();
        (start..start + n).map(|index| standard.point(index as u32, scramble).unwrap()).collect()
    }

    fn plain() -> Scramble<'static> {
        Scramble::of_shift(NO_SHIFT)
    }

    /// The count of one cell of the standard pair without a scramble.
    fn count(start: u64, n: u64, (m, a): (u32, u32), (column, row): (u32, u32)) -> u64 {
        cell_counts(&points(plain(), start, n), m, a)[place(column, row, m - a)]
    }

    /// Every shape of a size up to `largest`.
    fn shapes(largest: u32) -> impl Iterator<Item = (u32, u32)> {
        (0..=largest).flat_map(|m| (0..=m).map(move |a| (m, a)))
    }

    /// Two starts that differ by a block have the same bounds, so that the starts
    /// of two blocks stand for all. Wider bounds would fail here as narrower do.
    #[test]
    fn formulas_are_neither_wider_nor_narrower_than_all_starts() {
        for m in 0..=7 {
            for n in 1..=400 {
                let from = |start| count_bounds_from(start, n, m);
                let least = (0..2 << m).map(|start| from(start).0).min();
                let most = (0..2 << m).map(|start| from(start).1).max();
                let (formula_least, formula_most) = count_bounds(n, m);
                assert_eq!((Some(formula_least), Some(formula_most)), (least, most), "{n} {m}");
            }
        }
    }

    /// Each block is listed by its indexes, so that no quotient comes in twice.
    #[test]
    fn known_start_counts_no_block_too_many_or_too_few() {
        for m in 0..=4 {
            let size = 1 << m;
            for start in 0..2 * size + 1 {
                for n in 1..=3 * size + 1 {
                    let among = |index: &u64| (start..start + n).contains(index);
                    // The end is at most one index behind block 4, so no later block
                    // than 5 has any of the indexes.
                    let blocks = (0..6).map(|k| k * size..(k + 1) * size);
                    let whole = blocks.clone().filter(|block| block.clone().all(|i| among(&i)));
                    let touched = blocks.clone().filter(|block| block.clone().any(|i| among(&i)));
                    let counted = (whole.count() as u64, touched.count() as u64);
                    assert_eq!(count_bounds_from(start, n, m), counted, "{start} {n} {m}");
                }
            }
        }
    }

    /// There is one cell at size 0, and no visit can miss it.
    #[test]
    fn size_zero_leaves_no_room_for_another_count() {
        for n in (1..=1_000).chain([ALL_INDEXES - 1, ALL_INDEXES]) {
            assert_eq!(count_bounds(n, 0), (n, n));
            assert_eq!(count_bounds_from(0, n, 0), (n, n));
            assert_eq!(count_bounds_from(ALL_INDEXES - n, n, 0), (n, n));
        }
    }

    #[test]
    fn largest_arguments_do_not_overflow() {
        let half = ALL_INDEXES / 2;
        let known = [
            (0, (ALL_INDEXES, ALL_INDEXES), (ALL_INDEXES, ALL_INDEXES)),
            (1, (half - 1, half + 1), (half, half)),
            (31, (1, 3), (2, 2)),
            (32, (0, 2), (1, 1)),
        ];
        for (m, from_any_start, from_index_0) in known {
            assert_eq!(count_bounds(ALL_INDEXES, m), from_any_start);
            assert_eq!(count_bounds_from(0, ALL_INDEXES, m), from_index_0);
        }
        assert_eq!(count_bounds_from(ALL_INDEXES - 1, 1, 0), (1, 1));
        for m in 1..=32 {
            assert_eq!(count_bounds_from(ALL_INDEXES - 1, 1, m), (0, 1));
        }
    }

    /// The places rise by rows first. Index 5 has 0xA0000000 and 0x20000000.
    #[test]
    fn columns_and_rows_are_not_exchanged() {
        let visits = points(plain(), 5, 1);
        assert_eq!(cell_counts(&visits, 3, 0), [0, 1, 0, 0, 0, 0, 0, 0]);
        assert_eq!(cell_counts(&visits, 3, 1), [0, 0, 0, 0, 1, 0, 0, 0]);
        assert_eq!(cell_counts(&visits, 3, 3), [0, 0, 0, 0, 0, 1, 0, 0]);
        assert_eq!(cell_counts(&visits, 0, 0), [1]);
        assert_eq!(cell_counts(&[], 1, 0), [0, 0]);
    }

    #[test]
    fn counts_do_not_differ_from_a_search_of_each_cell() {
        let mut random = Random::from_seed(15);
        for (m, a) in shapes(6) {
            let visits: Vec<Point> =
                (0..90).map(|_| Point { x: random.word(), y: random.word() }).collect();
            let counts = cell_counts(&visits, m, a);
            assert_eq!(counts.len(), 1 << m);
            for column in 0..1 << a {
                for row in 0..1 << (m - a) {
                    let found = visits.iter().filter(|&&p| lies_in(p, m, a, column, row));
                    assert_eq!(counts[place(column, row, m - a)], found.count() as u64);
                }
            }
        }
    }

    #[test]
    fn largest_shape_has_no_place_outside() {
        let corner = Point { x: u32::MAX, y: u32::MAX };
        for a in 0..=16 {
            let counts = cell_counts(&[corner], 16, a);
            assert_eq!((counts.len(), counts[0xFFFF]), (1 << 16, 1));
        }
    }

    /// Both ends of the bounds of 50 visits at size 4 are met in a strip.
    #[test]
    fn neither_end_at_50_visits_is_out_of_reach() {
        assert_eq!(count_bounds(50, 4), (2, 5));
        assert_eq!(count(1, 50, (4, 0), (0, 0)), 2);
        assert_eq!(count(463, 50, (4, 0), (0, 12)), 5);
    }

    /// Four times a block, but not from the first index of a block, does not give
    /// every cell four visits.
    #[test]
    fn whole_multiple_of_a_block_is_not_even_from_every_start() {
        assert_eq!(count_bounds(64, 4), (3, 5));
        assert_eq!(count(1, 64, (4, 2), (0, 0)), 3);
        assert_eq!(count(1, 64, (4, 2), (0, 2)), 5);
        assert!(cell_counts(&points(plain(), 0, 64), 4, 2).iter().all(|&count| count == 4));
    }

    /// A cell of a block larger than n may be missed and may be met twice.
    #[test]
    fn fewer_visits_than_a_block_do_not_mean_at_most_one() {
        assert_eq!(count_bounds(50, 6), (0, 2));
        assert_eq!(count(0, 50, (6, 3), (0, 5)), 0);
        assert_eq!(count(15, 50, (6, 3), (0, 5)), 2);
    }

    /// The bounds hold for every shape of a size, and a shape need not meet them.
    #[test]
    fn five_of_50_visits_are_not_met_in_squares() {
        let visits = points(plain(), 0, 4_095 + 50);
        let starts = visits.windows(50);
        assert_eq!(starts.len(), 4_096);
        let largest = starts.flat_map(|from_start| cell_counts(from_start, 4, 2)).max();
        assert_eq!(largest, Some(4));
    }

    /// The starts are first indexes of blocks, the ones before and behind them,
    /// and random ones; the last ones end at the last index. Flips leave each cell
    /// one visit in each block, so the bounds hold under them as well.
    #[test]
    fn no_cell_of_the_standard_pair_leaves_the_bounds() {
        let mut random = Random::from_seed(1_515);
        let shifted = Scramble::of_shift(random.shift());
        let flipped = [random.scramble(), random.scramble()];
        for scramble in [plain(), shifted, flipped[0].lent(), flipped[1].lent()] {
            for n in [1, 2, 15, 16, 17, 50, 64, 100, 255, 256, 257, 600] {
                let anywhere = u64::from(random.word() >> 1);
                for start in [0, 1, 255, 463, 0x8000_0000, anywhere, ALL_INDEXES - n] {
                    hold_all_cells_to_the_bounds(scramble, start, n);
                }
            }
        }
    }

    fn hold_all_cells_to_the_bounds(scramble: Scramble<'_>, start: u64, n: u64) {
        let visits = points(scramble, start, n);
        for (m, a) in shapes(8) {
            let counts = cell_counts(&visits, m, a);
            assert_eq!(counts.iter().sum::<u64>(), n);
            for (least, most) in [count_bounds(n, m), count_bounds_from(start, n, m)] {
                let inside = counts.iter().all(|count| (least..=most).contains(count));
                assert!(inside, "{scramble:?}, start {start}, n {n}, shape ({m}, {a})");
            }
        }
    }

    #[test]
    fn row_does_not_write_one_number_twice() {
        assert_eq!(row(50, count_bounds), "| 50 | 11 to 14 | 2 to 5 | 0 to 2 | 0 to 2 |");
        let from_index_0 = |n, m| count_bounds_from(0, n, m);
        assert_eq!(row(256, from_index_0), "| 256 | 64 | 16 | 4 | 1 |");
    }
}
