//! The cell query: the one index of a block whose point lies in a cell.

use crate::check::{judge_level, reduce, shape_equations};
use crate::flips::Scramble;
use crate::pair::{Pair, Point};
use crate::refusal::Refusal;

/// A cell of the shape (m, a) and the block to look in.
#[derive(Clone, Copy, Debug, PartialEq, Eq)]
pub struct Query {
    pub m: u32,
    pub a: u32,
    pub column: u32,
    pub row: u32,
    pub block: u32,
}

/// Refusals 2, 17, 18, 4, 5, 6, 7 and 3, in this order; otherwise the index.
pub fn query(
    pair: &Pair,
    scramble: Scramble<'_>,
    level: u32,
    query: Query,
) -> Result<u32, Refusal> {
    judge_query(scramble, level, query)?;
    let Query { m, a, block, .. } = query;
    // At m 32 the only block is 0, so the cut to 32 bits loses nothing.
    let base = (u64::from(block) << m) as u32;
    // The top bits of a point follow from as many top bits of its product, and
    // these from them. So a visit lies in the cell just when its product lies in
    // the cell that this one is without the scramble.
    let cell = scramble.unscrambled(corner(query));
    // The lower m index bits must carry the product of the block's first index
    // there; the differing bits, top one first, are the right sides.
    let first = pair.product(base);
    let x_change = top_bits(first.x, a) ^ top_bits(cell.x, a);
    let y_change = top_bits(first.y, m - a) ^ top_bits(cell.y, m - a);
    let mut equations = shape_equations(pair, m, a);
    let changes = bits_from_top(x_change, a).chain(bits_from_top(y_change, m - a));
    for (equation, right) in equations.iter_mut().zip(changes) {
        equation.right = right;
    }
    if let Some(j) = reduce(&mut equations) {
        return Err(Refusal::NotNet { m, a, j });
    }
    let bits = equations.iter().enumerate();
    Ok(bits.fold(base, |index, (c, equation)| index | u32::from(equation.right) << c))
}

/// Refusals 2, 17, 18, 4, 5, 6 and 7. The bounds reach 2^32, hence 64 bits.
fn judge_query(scramble: Scramble<'_>, level: u32, query: Query) -> Result<(), Refusal> {
    let Query { m, a, column, row, block } = query;
    judge_shape(scramble, level, m, a)?;
    if u64::from(column) >= 1u64 << a || u64::from(row) >= 1u64 << (m - a) {
        return Err(Refusal::Cell);
    }
    judge_block(m, block)
}

/// Refusals 2, 17, 18, 4 and 5, which are the same for every cell of a shape.
pub(crate) fn judge_shape(
    scramble: Scramble<'_>,
    level: u32,
    m: u32,
    a: u32,
) -> Result<(), Refusal> {
    judge_level(level)?;
    scramble.judge()?;
    if m > level {
        return Err(Refusal::SizeAboveLevel);
    }
    if a > m {
        return Err(Refusal::ColumnBitsAboveSize);
    }
    Ok(())
}

/// Refusal 7, for an m that is judged already. This bound too reaches 2^32.
pub(crate) fn judge_block(m: u32, block: u32) -> Result<(), Refusal> {
    if u64::from(block) >= 1u64 << (32 - m) {
        return Err(Refusal::Block);
    }
    Ok(())
}

/// The first point of a cell that is judged already: its column and its row at
/// the top, and zeros under them. A shift by 32 needs the longer number.
fn corner(query: Query) -> Point {
    let x = u64::from(query.column) << (32 - query.a);
    let y = u64::from(query.row) << (32 - (query.m - query.a));
    Point { x: x as u32, y: y as u32 }
}

/// The top bits of a word as a number; none of the bits means 0.
pub(crate) fn top_bits(word: u32, count: u32) -> u32 {
    (u64::from(word) >> (32 - count)) as u32
}

/// The lowest `count` bits of a number, the highest of them first.
fn bits_from_top(number: u32, count: u32) -> impl Iterator<Item = bool> {
    (0..count).rev().map(move |bit| (number >> bit) & 1 == 1)
}

/// Whether a point lies in a cell of (m, a); for the tests.
#[cfg(test)]
pub(crate) fn lies_in(point: Point, m: u32, a: u32, column: u32, row: u32) -> bool {
    top_bits(point.x, a) == column && top_bits(point.y, m - a) == row
}

#[cfg(test)]
mod tests {
    use super::*;
    use crate::flips::refused::{under_17, under_18};
    use crate::flips::NO_FLIPS;
    use crate::pair::{Shift, NO_SHIFT};
    use crate::random::Random;

    const ZERO: Pair = Pair { x: [0; 32], y: [0; 32] };

    fn plain() -> Scramble<'static> {
        Scramble::of_shift(NO_SHIFT)
    }

    fn ask(level: u32, fields: [u32; 5]) -> Result<u32, Refusal> {
        query(&Pair::standard(), plain(), level, from_fields(fields))
    }

    fn from_fields([m, a, column, row, block]: [u32; 5]) -> Query {
        Query { m, a, column, row, block }
    }

    #[test]
    fn known_answers() {
        assert_eq!(ask(2, [2, 1, 1, 0, 0]), Ok(3));
        assert_eq!(ask(2, [2, 1, 1, 0, 1]), Ok(5));
        let shifted = Scramble::of_shift(Shift { x: 0x8000_0000, y: 0 });
        let cell = from_fields([2, 1, 1, 0, 0]);
        assert_eq!(query(&Pair::standard(), shifted, 2, cell), Ok(0));
    }

    /// Flip bit 1 exchanges the columns 0 and 1 of four and leaves the others.
    /// The columns of the indexes 0 to 3 are 0, 2, 1 and 3 without it. The relation
    /// of demand 3 to the plain run does not hold here: the first visit's column
    /// added to column 2 leads to index 3 there, and column 2 has index 1.
    #[test]
    fn known_answers_under_flips() {
        let mut flips_x = NO_FLIPS;
        flips_x[0] = 2;
        let flipped = Scramble { shift: NO_SHIFT, flips_x: &flips_x, flips_y: &NO_FLIPS };
        let standard = Pair::standard();
        let found = |column| query(&standard, flipped, 2, from_fields([2, 2, column, 0, 0]));
        assert_eq!([0, 1, 2, 3].map(found), [Ok(2), Ok(0), Ok(1), Ok(3)]);
        let u = top_bits(standard.point(0, flipped).unwrap().x, 2);
        assert_eq!(ask(2, [2, 2, 2 ^ u, 0, 0]), Ok(3));
    }

    /// The second wrong turn: the plain answer 3 plus the base of block 1 is
    /// 7, and that index lies in column 1, row 1.
    #[test]
    fn block_base_is_not_just_added() {
        assert_eq!(ask(2, [2, 1, 1, 1, 1]), Ok(7));
        assert!(lies_in(Pair::standard().product(7), 2, 1, 1, 1));
    }

    #[test]
    fn size_zero_gives_the_block() {
        let flipped = Random::from_seed(0).scramble();
        for block in [0, 1, 5, u32::MAX] {
            let cell = from_fields([0, 0, 0, 0, block]);
            assert_eq!(query(&ZERO, plain(), 1, cell), Ok(block));
            assert_eq!(query(&ZERO, flipped.lent(), 1, cell), Ok(block));
        }
    }

    #[test]
    fn refusals_of_the_table() {
        assert_eq!(ask(33, [2, 1, 0, 0, 0]), Err(Refusal::Level));
        assert_eq!(ask(0, [2, 1, 0, 0, 0]), Err(Refusal::Level));
        assert_eq!(ask(2, [3, 1, 0, 0, 0]), Err(Refusal::SizeAboveLevel));
        assert_eq!(ask(2, [2, 3, 0, 0, 0]), Err(Refusal::ColumnBitsAboveSize));
        assert_eq!(ask(2, [2, 1, 2, 0, 0]), Err(Refusal::Cell));
        assert_eq!(ask(2, [2, 1, 0, 2, 0]), Err(Refusal::Cell));
        assert_eq!(ask(32, [4, 1, 0, 0, 268_435_456]), Err(Refusal::Block));
        assert!(ask(32, [4, 1, 0, 0, 268_435_455]).is_ok());
        assert_eq!(ask(32, [32, 1, 0, 0, 1]), Err(Refusal::Block));
    }

    /// In every line each later refusal is due too.
    #[test]
    fn refusals_come_in_order() {
        let most = u32::MAX;
        let number = |scramble, level, fields| {
            let answer = query(&ZERO, scramble, level, from_fields(fields));
            answer.map_err(Refusal::number)
        };
        for scramble in under_17().into_iter().chain(under_18()) {
            assert_eq!(number(scramble, 33, [most; 5]), Err(2));
            assert_eq!(number(scramble, 0, [most; 5]), Err(2));
        }
        for scramble in under_17() {
            assert_eq!(number(scramble, 2, [most; 5]), Err(17));
        }
        for scramble in under_18() {
            assert_eq!(number(scramble, 2, [most; 5]), Err(18));
        }
        let steps = [
            (2, [most; 5], 4),
            (2, [2, most, most, most, most], 5),
            (2, [2, 1, most, most, most], 6),
            (2, [2, 1, 1, 1, most], 7),
            (2, [2, 1, 1, 1, 0], 3),
        ];
        for (level, fields, expected) in steps {
            assert_eq!(number(plain(), level, fields), Err(expected));
        }
    }

    /// Nothing else is wrong with these, or one thing behind 18.
    #[test]
    fn flips_alone_are_refused() {
        let fields = [
            [2, 1, 1, 0, 0],
            [0; 5],
            [3, 1, 0, 0, 0],
            [2, 3, 0, 0, 0],
            [2, 1, 2, 0, 0],
            [2, 1, 0, 0, 1 << 30],
        ];
        for cell in fields.map(from_fields) {
            for scramble in under_17() {
                let answer = query(&Pair::standard(), scramble, 2, cell);
                assert_eq!(answer, Err(Refusal::FlipBytes));
            }
            for scramble in under_18() {
                let answer = query(&Pair::standard(), scramble, 2, cell);
                assert_eq!(answer, Err(Refusal::FlipBit));
            }
        }
    }

    #[test]
    fn bad_shape_is_named_by_the_query() {
        let x = Pair::standard().x;
        let twice = Pair { x, y: x };
        let answer = query(&twice, plain(), 2, from_fields([2, 1, 1, 0, 0]));
        assert_eq!(answer, Err(Refusal::NotNet { m: 2, a: 1, j: 2 }));
        // Another shape of the same pair is in order and is answered.
        let answer = query(&twice, plain(), 2, from_fields([2, 2, 1, 0, 0]));
        assert_eq!(answer, Ok(2));
        // Unscrambled points decide about j, so no scramble changes it.
        let mut random = Random::from_seed(31);
        for _ in 0..100 {
            let cell =
                from_fields([2, 1, random.word() % 2, random.word() % 2, random.word() >> 2]);
            let answer = query(&twice, random.scramble().lent(), 2, cell);
            assert_eq!(answer, Err(Refusal::NotNet { m: 2, a: 1, j: 2 }));
        }
    }

    /// Looks at every index of the block, for every cell of a random shape.
    #[test]
    fn answer_equals_search() {
        let mut random = Random::from_seed(4_711);
        let (mut answered, mut refused) = (0, 0);
        for turn in 0..600 {
            let (pair, owned) = (random.pair(turn), random.scramble());
            // Some queries have no flips.
            let scramble =
                if turn % 4 == 0 { Scramble::of_shift(owned.shift) } else { owned.lent() };
            let m = random.word() % 9;
            let a = random.word() % (m + 1);
            let block = top_bits(random.word(), 32 - m);
            let base = block << m;
            let point = |p| pair.point(base + p, scramble).unwrap();
            let points: Vec<Point> = (0..1 << m).map(point).collect();
            for cell in 0..1u32 << m {
                let (column, row) = (cell >> (m - a), cell & ((1 << (m - a)) - 1));
                let inside = |&p: &u32| lies_in(points[p as usize], m, a, column, row);
                let found: Vec<u32> = (0..1 << m).filter(inside).collect();
                match query(&pair, scramble, 32, Query { m, a, column, row, block }) {
                    Ok(index) => {
                        assert_eq!(found, [index - base]);
                        answered += 1;
                    }
                    Err(refusal) => {
                        assert_eq!(refusal.number(), 3);
                        assert_ne!(found.len(), 1);
                        refused += 1;
                    }
                }
            }
        }
        // Neither outcome may be missing, or the test would say little.
        assert!(answered > 1000 && refused > 1000);
    }

    /// Every shape up to m 6, whose sizes lie within the depth of the flips, with
    /// the first blocks, the last ones and one between.
    #[test]
    fn every_cell_has_one_visit_under_flips_and_it_is_found() {
        let mut random = Random::from_seed(1_600);
        for m in 0..=6 {
            let last = ((1u64 << (32 - m)) - 1) as u32;
            for a in 0..=m {
                let between = top_bits(random.word(), 32 - m);
                for block in [0, 1, 5, between, last - 1, last] {
                    let pairs = [Pair::standard(), random.scrambled_pair()];
                    let owned = random.scramble();
                    for pair in pairs {
                        hold_every_cell_to_one_visit(&pair, owned.lent(), [m, a, block]);
                    }
                }
            }
        }
    }

    /// The visits are counted by their cells, and no query is asked for that.
    fn hold_every_cell_to_one_visit(pair: &Pair, scramble: Scramble<'_>, [m, a, block]: [u32; 3]) {
        let base = block << m;
        for column in 0..1 << a {
            for row in 0..1 << (m - a) {
                let inside =
                    |&index: &u32| lies_in(pair.point(index, scramble).unwrap(), m, a, column, row);
                let found: Vec<u32> = (0..1 << m).map(|p| base + p).filter(inside).collect();
                assert_eq!(found.len(), 1);
                let answer = query(pair, scramble, 32, Query { m, a, column, row, block });
                assert_eq!(answer, Ok(found[0]));
            }
        }
    }

    /// The answer for a point's own cell and block is its own index, for
    /// every shape up to m 32.
    #[test]
    fn every_shape_leads_back_to_the_index() {
        let mut random = Random::from_seed(99);
        for _ in 0..20 {
            let (pair, owned) = (random.scrambled_pair(), random.scramble());
            let (scramble, index) = (owned.lent(), random.word());
            let point = pair.point(index, scramble).unwrap();
            for m in 0..=32 {
                let block = top_bits(index, 32 - m);
                for a in 0..=m {
                    let (column, row) = (top_bits(point.x, a), top_bits(point.y, m - a));
                    let cell = Query { m, a, column, row, block };
                    assert_eq!(query(&pair, scramble, 32, cell), Ok(index));
                }
            }
        }
    }

    /// The rule of demand 3: the plain run's answer for the cell exclusive or
    /// the cell of the block's first visit, plus the block's base. It is claimed
    /// only where all flips are zero.
    #[test]
    fn answer_follows_from_the_plain_run() {
        let mut random = Random::from_seed(3);
        for _ in 0..200 {
            let (pair, scramble) = (random.scrambled_pair(), Scramble::of_shift(random.shift()));
            let m = random.word() % 32;
            let a = random.word() % (m + 1);
            let block = top_bits(random.word(), 32 - m);
            let (column, row) = (top_bits(random.word(), a), top_bits(random.word(), m - a));
            let base = block << m;
            let first = pair.point(base, scramble).unwrap();
            let (u, v) = (top_bits(first.x, a), top_bits(first.y, m - a));
            let plain = Query { m, a, column: column ^ u, row: row ^ v, block: 0 };
            let p = query(&pair, Scramble::of_shift(NO_SHIFT), 32, plain).unwrap();
            let cell = Query { m, a, column, row, block };
            assert_eq!(query(&pair, scramble, 32, cell), Ok(base + p));
        }
    }
}
