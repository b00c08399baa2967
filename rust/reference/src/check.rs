//! The check of a pair: every shape up to the level must have an odd
//! determinant.

use crate::pair::Pair;
use crate::refusal::Refusal;

/// The largest level.
pub const LARGEST_LEVEL: u32 = 32;

/// One row of a shape's matrix with its right side: the exclusive or of the
/// index bits named in `columns` (bit c for column c) must be `right`.
#[derive(Clone, Copy)]
pub(crate) struct Equation {
    pub columns: u32,
    pub right: bool,
}

/// Judges a pair of 64 words by refusals 1, 2 and 3, in this order.
pub fn check(words: &[u32], level: u32) -> Result<(), Refusal> {
    let pair = Pair::from_words(words)?;
    judge_level(level)?;
    for m in 1..=level {
        for a in 0..=m {
            if let Some(j) = smallest_shared_index(&pair, m, a) {
                return Err(Refusal::NotNet { m, a, j });
            }
        }
    }
    Ok(())
}

/// Refusal 2.
pub(crate) fn judge_level(level: u32) -> Result<(), Refusal> {
    if (1..=LARGEST_LEVEL).contains(&level) {
        Ok(())
    } else {
        Err(Refusal::Level)
    }
}

/// Nothing if the determinant of (m, a) is odd; otherwise j.
pub(crate) fn smallest_shared_index(pair: &Pair, m: u32, a: u32) -> Option<u32> {
    reduce(&mut shape_equations(pair, m, a))
}

/// The first a rows of X above the first m - a rows of Y, each cut to its
/// first m columns. All right sides are 0: the cell of index 0.
pub(crate) fn shape_equations(pair: &Pair, m: u32, a: u32) -> Vec<Equation> {
    let x_rows = (0..a).map(|r| matrix_row(&pair.x, r, m));
    let y_rows = (0..m - a).map(|r| matrix_row(&pair.y, r, m));
    let rows = x_rows.chain(y_rows);
    rows.map(|columns| Equation { columns, right: false }).collect()
}

/// Row r of a matrix, cut to its first m columns; column c becomes bit c.
fn matrix_row(columns: &[u32; 32], r: u32, m: u32) -> u32 {
    let mut row = 0;
    for (c, column) in (0..m).zip(columns) {
        row |= ((column >> (31 - r)) & 1) << c;
    }
    row
}

/// Row reduction modulo 2 of m equations in m unknowns, columns rising.
///
/// If every column finds a pivot, the determinant is odd, the answer is
/// nothing, and equation c then says what index bit c is.
///
/// Otherwise the first column without a pivot is the sum of some of the
/// columns before it, and those before it are independent. The answer has
/// the bit of this column and of the columns in its sum. As a number it is
/// the smallest above 0 whose columns add up to zero: a smaller one would
/// make the earlier columns dependent.
pub(crate) fn reduce(equations: &mut [Equation]) -> Option<u32> {
    for c in 0..equations.len() {
        let has_bit = |equation: &Equation| (equation.columns >> c) & 1 == 1;
        let below = match equations[c..].iter().position(has_bit) {
            Some(below) => below,
            None => {
                let earlier = (0..c).filter(|&k| has_bit(&equations[k]));
                return Some(earlier.fold(1 << c, |j, k| j | 1 << k));
            }
        };
        equations.swap(c, c + below);
        let pivot = equations[c];
        for (k, equation) in equations.iter_mut().enumerate() {
            if k != c && has_bit(equation) {
                equation.columns ^= pivot.columns;
                equation.right ^= pivot.right;
            }
        }
    }
    None
}

#[cfg(test)]
mod tests {
    use super::*;
    use crate::query::lies_in;
    use crate::random::Random;

    fn twice() -> Vec<u32> {
        let x = Pair::standard().x;
        Pair { x, y: x }.words()
    }

    /// The definition: expansion along the first row. `open` holds the
    /// columns not yet used; signs do not matter modulo 2.
    fn odd_by_expansion(rows: &[Equation], open: u32) -> bool {
        if let Some((first, rest)) = rows.split_first() {
            let used = (0..32).filter(|c| (first.columns & open) >> c & 1 == 1);
            used.fold(false, |odd, c| odd ^ odd_by_expansion(rest, open & !(1 << c)))
        } else {
            true
        }
    }

    /// The definition of j, by looking at every index.
    fn j_by_search(pair: &Pair, m: u32, a: u32) -> Option<u32> {
        let last = ((1u64 << m) - 1) as u32;
        (1..=last).find(|&i| lies_in(pair.product(i), m, a, 0, 0))
    }

    #[test]
    fn standard_pair_passes_every_level() {
        for level in 1..=32 {
            assert_eq!(check(&Pair::standard().words(), level), Ok(()));
        }
    }

    #[test]
    fn refusals_one_and_two_come_in_order() {
        let words = Pair::standard().words();
        assert_eq!(check(&words[..63], 2), Err(Refusal::WordCount));
        assert_eq!(check(&words[..63], 33), Err(Refusal::WordCount));
        for level in [0, 33, u32::MAX] {
            assert_eq!(check(&words, level), Err(Refusal::Level));
            assert_eq!(check(&[0; 64], level), Err(Refusal::Level));
        }
    }

    #[test]
    fn identity_twice_fails_at_two() {
        assert_eq!(check(&twice(), 1), Ok(()));
        let refusal = Refusal::NotNet { m: 2, a: 1, j: 2 };
        assert_eq!(check(&twice(), 2), Err(refusal));
        assert_eq!(check(&twice(), 32), Err(refusal));
    }

    #[test]
    fn zero_pair_fails_at_one() {
        let refusal = Refusal::NotNet { m: 1, a: 0, j: 1 };
        assert_eq!(check(&[0; 64], 1), Err(refusal));
    }

    /// The first wrong turn: here the square shape (2, 1) is in order, and
    /// only the long strip (2, 2) is not.
    #[test]
    fn long_strips_are_seen() {
        let mut pair = Pair::standard();
        pair.x[1] = 0;
        assert_eq!(smallest_shared_index(&pair, 2, 1), None);
        let refusal = Refusal::NotNet { m: 2, a: 2, j: 2 };
        assert_eq!(check(&pair.words(), 2), Err(refusal));
    }

    #[test]
    fn reduction_equals_definitions_for_every_small_shape() {
        let mut random = Random::from_seed(20_240_501);
        for turn in 0..150 {
            let pair = random.pair(turn);
            for m in 0..=8 {
                for a in 0..=m {
                    let j = smallest_shared_index(&pair, m, a);
                    assert_eq!(j, j_by_search(&pair, m, a));
                    let rows = shape_equations(&pair, m, a);
                    assert_eq!(j.is_none(), odd_by_expansion(&rows, u32::MAX));
                }
            }
        }
    }

    #[test]
    fn check_names_the_first_bad_shape() {
        let mut random = Random::from_seed(777);
        let (mut passed, mut late) = (0, 0);
        for turn in 0..300 {
            let pair = random.pair(turn);
            let shapes = (1..=8).flat_map(|m| (0..=m).map(move |a| (m, a)));
            let mut bad = shapes
                .filter_map(|(m, a)| j_by_search(&pair, m, a).map(|j| Refusal::NotNet { m, a, j }));
            let answer = check(&pair.words(), 8);
            assert_eq!(answer, bad.next().map_or(Ok(()), Err));
            passed += u32::from(answer.is_ok());
            late += u32::from(matches!(answer, Err(Refusal::NotNet { m: 4.., .. })));
        }
        // Pairs that pass and pairs that fail late must both have been seen.
        assert!(passed >= 100 && late >= 20);
    }

    #[test]
    fn j_equals_search_at_sixteen() {
        let mut random = Random::from_seed(16);
        let mut shared = 0;
        for c in 10..16 {
            let mut pair = random.scrambled_pair();
            pair.x[c] = random.word();
            for a in 0..=16 {
                let j = smallest_shared_index(&pair, 16, a);
                assert_eq!(j, j_by_search(&pair, 16, a));
                shared += u32::from(j.is_some());
            }
        }
        assert!(shared >= 10);
    }

    /// At m 32 no search is possible. But if j shares the cell and its top
    /// bit is t, it is the smallest one exactly when no sum of the columns
    /// before t is zero; a plain basis of words tells that.
    #[test]
    fn j_is_smallest_at_thirty_two() {
        let mut random = Random::from_seed(32);
        let mut shared = 0;
        for c in 0..32 {
            let mut pair = random.scrambled_pair();
            pair.x[c] = pair.x[(c + 1) % 32];
            for a in 0..=32 {
                if let Some(j) = smallest_shared_index(&pair, 32, a) {
                    assert!(lies_in(pair.product(j), 32, a, 0, 0));
                    assert!(columns_are_independent(&pair, a, 31 - j.leading_zeros()));
                    shared += 1;
                } else {
                    assert!(columns_are_independent(&pair, a, 32));
                }
            }
        }
        assert!(shared >= 100);
    }

    fn columns_are_independent(pair: &Pair, a: u32, count: u32) -> bool {
        let mut basis: Vec<u32> = Vec::new();
        for c in 0..count as usize {
            let x = u64::from(pair.x[c]) << a;
            let y = u64::from(pair.y[c]) >> a;
            let mut word = (x >> 32 << (32 - a)) as u32 | y as u32;
            for &known in &basis {
                // Takes the top bit of `known` out of the word if it is there.
                word = word.min(word ^ known);
            }
            if word == 0 {
                return false;
            }
            basis.push(word);
        }
        true
    }
}
