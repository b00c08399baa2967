//! A pair of generator matrices, its points, and the standard pair.

use crate::flips::Scramble;
use crate::refusal::Refusal;

/// Two generator matrices of 32 columns. Column c belongs to index bit c;
/// row r is bit 31 - r of a column, so row 0 is the top bit.
#[derive(Clone, Copy, Debug, PartialEq, Eq)]
pub struct Pair {
    pub x: [u32; 32],
    pub y: [u32; 32],
}

/// The two words of the digital shift (document 01 calls it the scramble).
#[derive(Clone, Copy, Debug, PartialEq, Eq)]
pub struct Shift {
    pub x: u32,
    pub y: u32,
}

/// The shift that changes nothing.
pub const NO_SHIFT: Shift = Shift { x: 0, y: 0 };

impl Shift {
    /// The point moved by the shift; moved again, it is back.
    pub(crate) fn added_to(self, point: Point) -> Point {
        Point { x: point.x ^ self.x, y: point.y ^ self.y }
    }
}

#[derive(Clone, Copy, Debug, PartialEq, Eq)]
pub struct Point {
    pub x: u32,
    pub y: u32,
}

/// The widths and masks of listing 19. The listing writes the first step
/// without a mask; the shift by 16 drops the upper half anyway.
const PASCAL_STEPS: [(u32, u32); 5] =
    [(16, 0x0000_FFFF), (8, 0x00FF_00FF), (4, 0x0F0F_0F0F), (2, 0x3333_3333), (1, 0x5555_5555)];

impl Pair {
    /// Takes 64 words, X columns first; any other number is refusal 1.
    pub fn from_words(words: &[u32]) -> Result<Pair, Refusal> {
        if words.len() != 64 {
            return Err(Refusal::WordCount);
        }
        let mut pair = Pair { x: [0; 32], y: [0; 32] };
        pair.x.copy_from_slice(&words[..32]);
        pair.y.copy_from_slice(&words[32..]);
        Ok(pair)
    }

    /// The 64 words of the pair, X columns first.
    pub fn words(&self) -> Vec<u32> {
        self.x.iter().chain(&self.y).copied().collect()
    }

    /// The standard pair by its rules: X is the identity, and Y has a one
    /// where the binomial "c over r" is odd.
    pub fn standard() -> Pair {
        let binomials = binomials();
        let mut pair = Pair { x: [0; 32], y: [0; 32] };
        for (c, over_r) in binomials.iter().enumerate() {
            pair.x[c] = row_bit(c);
            for (r, binomial) in over_r.iter().enumerate() {
                if binomial % 2 == 1 {
                    pair.y[c] |= row_bit(r);
                }
            }
        }
        pair
    }

    /// Refusals 17 and 18, in this order; otherwise the point of an index.
    pub fn point(&self, index: u32, scramble: Scramble<'_>) -> Result<Point, Refusal> {
        scramble.judge()?;
        Ok(scramble.scrambled(self.product(index)))
    }

    /// The point of an index with a shift and no flips, as region files have it;
    /// there is nothing to refuse.
    pub fn shifted_point(&self, index: u32, shift: Shift) -> Point {
        shift.added_to(self.product(index))
    }

    /// The point of an index before any flip and shift.
    pub fn product(&self, index: u32) -> Point {
        Point { x: product(&self.x, index), y: product(&self.y, index) }
    }
}

/// The exclusive or of the columns whose index bit is set.
fn product(columns: &[u32; 32], index: u32) -> u32 {
    let mut word = 0;
    for (c, column) in columns.iter().enumerate() {
        if (index >> c) & 1 == 1 {
            word ^= column;
        }
    }
    word
}

/// Refusals 17 and 18, in this order; otherwise the point of the standard pair
/// without its matrices: X is the reversed index, and Y follows from X by the
/// five steps of listing 19. Flips and shift come behind, as in the matrix way.
pub fn fast_standard_point(index: u32, scramble: Scramble<'_>) -> Result<Point, Refusal> {
    scramble.judge()?;
    let x = index.reverse_bits();
    let mut y = x;
    for (width, mask) in PASCAL_STEPS {
        y ^= (y & mask) << width;
    }
    Ok(scramble.scrambled(Point { x, y }))
}

/// The bit of row r within a column, for r from 0 to 31.
fn row_bit(r: usize) -> u32 {
    1 << (31 - r)
}

/// The binomials "c over r" for c and r from 0 to 31, by Pascal's recursion.
/// The largest, 31 over 15, is 300,540,195 and fits the word.
fn binomials() -> [[u32; 32]; 32] {
    let mut table = [[0; 32]; 32];
    table[0][0] = 1;
    for c in 1..32 {
        table[c][0] = 1;
        for r in 1..32 {
            table[c][r] = table[c - 1][r - 1] + table[c - 1][r];
        }
    }
    table
}

#[cfg(test)]
mod tests {
    use super::*;
    use crate::flips::{flip, random_scramble, refused};
    use crate::random::Random;

    #[test]
    fn pair_needs_64_words() {
        let mut words = Pair::standard().words();
        assert_eq!(Pair::from_words(&words), Ok(Pair::standard()));
        words.push(0);
        assert_eq!(Pair::from_words(&words), Err(Refusal::WordCount));
        assert_eq!(Pair::from_words(&words[..63]), Err(Refusal::WordCount));
        assert_eq!(Pair::from_words(&[]), Err(Refusal::WordCount));
    }

    #[test]
    fn x_columns_come_first() {
        let words: Vec<u32> = (0..64).collect();
        let pair = Pair::from_words(&words).unwrap();
        assert_eq!((pair.x[0], pair.x[31]), (0, 31));
        assert_eq!((pair.y[0], pair.y[31]), (32, 63));
    }

    #[test]
    fn standard_pair_begins_as_written() {
        let pair = Pair::standard();
        assert_eq!(pair.x[..3], [0x8000_0000, 0x4000_0000, 0x2000_0000]);
        assert_eq!(pair.x[31], 1);
        let first = [0x8000_0000, 0xC000_0000, 0xA000_0000, 0xF000_0000];
        assert_eq!(pair.y[..4], first);
        assert_eq!(pair.y[31], 0xFFFF_FFFF);
    }

    /// Equation 6 of document 004: each column is the one before it,
    /// exclusive or the same shifted down by one row.
    #[test]
    fn standard_pair_follows_the_recurrence() {
        let pair = Pair::standard();
        for c in 1..32 {
            assert_eq!(pair.y[c], pair.y[c - 1] ^ (pair.y[c - 1] >> 1));
        }
    }

    #[test]
    fn known_points() {
        let pair = Pair::standard();
        let known = [
            (0, 0, 0),
            (1, 0x8000_0000, 0x8000_0000),
            (2, 0x4000_0000, 0xC000_0000),
            (3, 0xC000_0000, 0x4000_0000),
            (5, 0xA000_0000, 0x2000_0000),
        ];
        for (index, x, y) in known {
            let plain = Scramble::of_shift(NO_SHIFT);
            assert_eq!(pair.point(index, plain), Ok(Point { x, y }));
            assert_eq!(fast_standard_point(index, plain), Ok(Point { x, y }));
            assert_eq!(pair.product(index), Point { x, y });
        }
    }

    #[test]
    fn shift_is_added_last() {
        let shift = Shift { x: 0x1234_5678, y: 0x9ABC_DEF0 };
        let point = Point { x: 0xD234_5678, y: 0xDABC_DEF0 };
        assert_eq!(Pair::standard().point(3, Scramble::of_shift(shift)), Ok(point));
        assert_eq!(Pair::standard().shifted_point(3, shift), point);
    }

    /// The product of index 3 is 0xC0000000 and 0x40000000. Flip bits 0 and 2 take
    /// both ones from x; flip bit 4 is for words that begin with 01, as y does.
    #[test]
    fn known_points_under_flips() {
        let (mut flips_x, mut flips_y) = ([0; 32], [0; 32]);
        (flips_x[0], flips_y[0]) = (0b0000_0101, 0b0001_0000);
        let shift = Shift { x: 0x1234_5678, y: 0x9ABC_DEF0 };
        let scramble = Scramble { shift, flips_x: &flips_x, flips_y: &flips_y };
        let point = Ok(Point { x: 0x1234_5678, y: 0xFABC_DEF0 });
        assert_eq!(Pair::standard().point(3, scramble), point);
        assert_eq!(fast_standard_point(3, scramble), point);
        let exchanged = Scramble { shift, flips_x: &flips_y, flips_y: &flips_x };
        let point = Ok(Point { x: 0xD234_5678, y: 0x5ABC_DEF0 });
        assert_eq!(Pair::standard().point(3, exchanged), point);
        assert_eq!(fast_standard_point(3, exchanged), point);
    }

    /// The point of document 01, before there were flips: the exclusive or of
    /// the columns whose index bit is set, and then of the shift.
    fn point_of_01(pair: &Pair, index: u32, shift: Shift) -> Point {
        let along = |columns: &[u32; 32], shift: u32| {
            let set = (0..32).filter(|&c| index & (1 << c) != 0);
            set.map(|c: usize| columns[c]).fold(0, |word, column| word ^ column) ^ shift
        };
        Point { x: along(&pair.x, shift.x), y: along(&pair.y, shift.y) }
    }

    #[test]
    fn zero_flips_give_the_old_point() {
        let mut random = Random::from_seed(1);
        for turn in 0..10_000 {
            let (pair, index, shift) = (random.pair(turn), random.word(), random.shift());
            let old = point_of_01(&pair, index, shift);
            assert_eq!(pair.point(index, Scramble::of_shift(shift)), Ok(old));
            let zeros = vec![0; 32];
            let lent = Scramble { shift, flips_x: &zeros, flips_y: &zeros };
            assert_eq!(pair.point(index, lent), Ok(old));
            assert_eq!(pair.shifted_point(index, shift), old);
        }
    }

    /// The old points of no shift are the products, before any flip.
    #[test]
    fn flips_come_between_product_and_shift() {
        let mut random = Random::from_seed(2);
        for turn in 0..10_000 {
            let (pair, index, scramble) = (random.pair(turn), random.word(), random.scramble());
            let product = point_of_01(&pair, index, NO_SHIFT);
            assert_eq!(pair.product(index), product);
            let x = flip(product.x, &scramble.flips_x) ^ scramble.shift.x;
            let y = flip(product.y, &scramble.flips_y) ^ scramble.shift.y;
            assert_eq!(pair.point(index, scramble.lent()), Ok(Point { x, y }));
        }
    }

    #[test]
    fn refused_flips_refuse_the_point() {
        for (scramble, number) in refused::all() {
            for index in [0, 1, u32::MAX] {
                let point = Pair::standard().point(index, scramble);
                assert_eq!(point.map_err(Refusal::number), Err(number));
                let point = fast_standard_point(index, scramble);
                assert_eq!(point.map_err(Refusal::number), Err(number));
            }
        }
    }

    /// Both products are linear, so the 32 single bits alone would settle it;
    /// the many other indexes confirm that.
    #[test]
    fn fast_point_equals_matrix_way() {
        let pair = Pair::standard();
        let mut random = Random::from_seed(0x9E37_79B9);
        let single_bits = (0..32).map(|c| 1 << c);
        let some = (0..100_000).map(|_| random.word());
        let ends = [u32::MAX, u32::MAX - 1];
        for index in (0..1 << 16).chain(single_bits).chain(some).chain(ends) {
            let owned = random_scramble(u64::from(index));
            for scramble in [owned.lent(), Scramble::of_shift(owned.shift)] {
                let point = pair.point(index, scramble);
                assert!(point.is_ok());
                assert_eq!(fast_standard_point(index, scramble), point);
            }
        }
    }
}
