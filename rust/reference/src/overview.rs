//! The overview (02, C-14): many cells of one shape and block in one query.

use crate::check::smallest_shared_index;
use crate::flips::Scramble;
use crate::pair::Pair;
use crate::query::{judge_block, judge_shape, query, Query};
use crate::refusal::Refusal;

/// Refusal 8, then what the earliest refused cell gets from a query of its own;
/// an empty list is judged by the query's tests without a cell. A refusal leaves
/// the answers as they were; otherwise every one is written.
///
/// The cells are asked one by one, because 02 defines the answers so. That works
/// through the pair's rows again for each cell, and 02 wants it done once for
/// all; but this is the yardstick for a program that does.
// The arguments are those of a query, with lists in place of its cell.
#[allow(clippy::too_many_arguments)]
pub fn overview(
    pair: &Pair,
    scramble: Scramble<'_>,
    level: u32,
    m: u32,
    a: u32,
    block: u32,
    columns: &[u32],
    rows: &[u32],
    answers: &mut [u32],
) -> Result<(), Refusal> {
    if columns.len() != rows.len() || columns.len() != answers.len() {
        return Err(Refusal::BufferLengths);
    }
    if columns.is_empty() {
        return judge_without_cell(pair, scramble, level, m, a, block);
    }
    // A later cell may still be refused, so no answer is written before all
    // of them are known.
    let mut indexes = Vec::new();
    for (&column, &row) in columns.iter().zip(rows) {
        let index = query(pair, scramble, level, Query { m, a, column, row, block })?;
        indexes.push(index);
    }
    answers.copy_from_slice(&indexes);
    Ok(())
}

/// Refusals 2, 17, 18, 4, 5, 7 and 3, in this order: those of a query but for 6,
/// which an empty list has no cell for.
fn judge_without_cell(
    pair: &Pair,
    scramble: Scramble<'_>,
    level: u32,
    m: u32,
    a: u32,
    block: u32,
) -> Result<(), Refusal> {
    judge_shape(scramble, level, m, a)?;
    judge_block(m, block)?;
    match smallest_shared_index(pair, m, a) {
        Some(j) => Err(Refusal::NotNet { m, a, j }),
        None => Ok(()),
    }
}

#[cfg(test)]
mod tests {
    use super::*;
    use crate::flips::refused;
    use crate::pair::{Shift, NO_SHIFT};
    use crate::query::lies_in;
    use crate::random::Random;

    const MOST: u32 = u32::MAX;
    const ZERO: Pair = Pair { x: [0; 32], y: [0; 32] };

    /// The identity twice: the shape (2, 1) is not a net, and its j is 2.
    fn twice() -> Pair {
        let x = Pair::standard().x;
        Pair { x, y: x }
    }

    fn plain() -> Scramble<'static> {
        Scramble::of_shift(NO_SHIFT)
    }

    /// What the answers hold before the overview. Each place has its own
    /// mark, so that a moved answer is seen too.
    fn marks(length: usize) -> Vec<u32> {
        (0xDEAD_BEEF..).take(length).collect()
    }

    /// The outcome for lists of these lengths. That refused answers are
    /// untouched is looked at here, and so at every refusal of these tests.
    fn outcome(
        pair: &Pair,
        scramble: Scramble<'_>,
        level: u32,
        [m, a, block]: [u32; 3],
        (columns, rows, length): (&[u32], &[u32], usize),
    ) -> Result<Vec<u32>, Refusal> {
        let mut answers = marks(length);
        match overview(pair, scramble, level, m, a, block, columns, rows, &mut answers) {
            Ok(()) => Ok(answers),
            Err(refusal) => {
                assert_eq!(answers, marks(length));
                Err(refusal)
            }
        }
    }

    /// The outcome for a list of cells, each a column and a row.
    fn ask(
        pair: &Pair,
        scramble: Scramble<'_>,
        level: u32,
        shape_and_block: [u32; 3],
        cells: &[(u32, u32)],
    ) -> Result<Vec<u32>, Refusal> {
        let columns: Vec<u32> = cells.iter().map(|cell| cell.0).collect();
        let rows: Vec<u32> = cells.iter().map(|cell| cell.1).collect();
        outcome(pair, scramble, level, shape_and_block, (&columns, &rows, cells.len()))
    }

    /// The number of the refusal of a list of cells, without a scramble.
    fn refused(pair: &Pair, level: u32, shape_and_block: [u32; 3], cells: &[(u32, u32)]) -> u32 {
        ask(pair, plain(), level, shape_and_block, cells).unwrap_err().number()
    }

    /// Every cell of a shape.
    fn all_cells(m: u32, a: u32) -> Vec<(u32, u32)> {
        let columns = 0..1 << a;
        columns.flat_map(|column| (0..1 << (m - a)).map(move |row| (column, row))).collect()
    }

    /// A block that 7 allows.
    fn some_block(random: &mut Random, m: u32) -> u32 {
        (u64::from(random.word()) >> m) as u32
    }

    #[test]
    fn known_answers() {
        let standard = Pair::standard();
        let cells = [(1, 0), (0, 0), (1, 1), (0, 1), (1, 0)];
        let ask = |scramble, block| ask(&standard, scramble, 2, [2, 1, block], &cells);
        assert_eq!(ask(plain(), 0), Ok(vec![3, 0, 1, 2, 3]));
        assert_eq!(ask(plain(), 1), Ok(vec![5, 6, 7, 4, 5]));
        let shifted = Scramble::of_shift(Shift { x: 0x8000_0000, y: 0 });
        assert_eq!(ask(shifted, 0), Ok(vec![0, 3, 2, 1, 0]));
        // Flip bit 0 exchanges the two columns, as that shift does.
        let mut flips_x = [0; 32];
        flips_x[0] = 1;
        let flipped = Scramble { flips_x: &flips_x, ..plain() };
        assert_eq!(ask(flipped, 0), Ok(vec![0, 3, 2, 1, 0]));
    }

    /// At m 0 there is one cell, and at m 32 one block; there a list of columns
    /// or of rows may hold any word.
    #[test]
    fn smallest_and_largest_size() {
        let standard = Pair::standard();
        for block in [0, 1, 5, MOST] {
            let answer = ask(&ZERO, plain(), 1, [0, 0, block], &[(0, 0); 3]);
            assert_eq!(answer, Ok(vec![block; 3]));
        }
        let by_column = [(MOST, 0), (0, 0), (1, 0)];
        let answer = ask(&standard, plain(), 32, [32, 32, 0], &by_column);
        assert_eq!(answer, Ok(vec![MOST, 0, 0x8000_0000]));
        let by_row = [(0, 0x8000_0000), (0, 0), (0, 0xC000_0000)];
        let answer = ask(&standard, plain(), 32, [32, 0, 0], &by_row);
        assert_eq!(answer, Ok(vec![1, 0, 2]));
    }

    /// Lists of any length and in any order; small shapes have cells repeated.
    /// Some lists have cells outside the shape, some shapes are no nets.
    #[test]
    fn outcome_is_that_of_single_queries() {
        let mut random = Random::from_seed(14);
        let (mut answered, mut outside, mut not_net) = (0, 0, 0);
        for turn in 0..3_000 {
            let (pair, owned) = (random.pair(turn), random.scramble());
            let scramble = owned.lent();
            let m = random.word() % 33;
            let a = random.word() % (m + 1);
            let block = some_block(&mut random, m);
            let length = 1 + random.word() % 20;
            let cells: Vec<(u32, u32)> =
                (0..length).map(|_| mostly_inside(&mut random, m, a)).collect();
            let single =
                |&(column, row)| query(&pair, scramble, 32, Query { m, a, column, row, block });
            // Collected, the queries give all answers or the first refusal.
            let singles: Result<Vec<u32>, Refusal> = cells.iter().map(single).collect();
            let answer = ask(&pair, scramble, 32, [m, a, block], &cells);
            assert_eq!(answer, singles);
            answered += u32::from(answer.is_ok());
            outside += u32::from(answer == Err(Refusal::Cell));
            not_net += u32::from(matches!(answer, Err(Refusal::NotNet { .. })));
        }
        // No outcome may be missing, or the test would say little.
        assert!(answered > 300 && outside > 300 && not_net > 300);
    }

    /// A cell of the shape, but now and then one just outside it. Of 2^32
    /// columns none is outside, so that the last one is taken there.
    fn mostly_inside(random: &mut Random, m: u32, a: u32) -> (u32, u32) {
        let column = u64::from(random.word()) >> (32 - a);
        let row = u64::from(random.word()) >> (32 - (m - a));
        let column = if random.word() % 40 == 0 { 1 << a } else { column };
        (column.min(u64::from(MOST)) as u32, row as u32)
    }

    /// This holds the answers against the points, and not against queries. The
    /// largest sizes reach below the flips.
    #[test]
    fn whole_overview_has_every_index_of_the_block_once() {
        let mut random = Random::from_seed(1_414);
        for _ in 0..100 {
            let (pair, owned) = (random.scrambled_pair(), random.scramble());
            let scramble = owned.lent();
            let m = random.word() % 11;
            let a = random.word() % (m + 1);
            let block = some_block(&mut random, m);
            let cells = all_cells(m, a);
            let mut answers = ask(&pair, scramble, m.max(1), [m, a, block], &cells).unwrap();
            for (&index, &(column, row)) in answers.iter().zip(&cells) {
                let point = pair.point(index, scramble).unwrap();
                assert!(lies_in(point, m, a, column, row));
            }
            answers.sort();
            let first = block << m;
            assert_eq!(answers, (0..1 << m).map(|p| first + p).collect::<Vec<u32>>());
        }
    }

    #[test]
    fn refusals_of_the_table() {
        let standard = Pair::standard();
        let ask = |level, shape_and_block, cells: &[(u32, u32)]| {
            ask(&standard, plain(), level, shape_and_block, cells)
        };
        let good = [(0, 0), (1, 1)];
        assert_eq!(ask(33, [2, 1, 0], &good), Err(Refusal::Level));
        assert_eq!(ask(0, [2, 1, 0], &good), Err(Refusal::Level));
        assert_eq!(ask(2, [3, 1, 0], &good), Err(Refusal::SizeAboveLevel));
        assert_eq!(ask(2, [2, 3, 0], &good), Err(Refusal::ColumnBitsAboveSize));
        assert_eq!(ask(2, [2, 1, 0], &[(2, 0), (0, 0)]), Err(Refusal::Cell));
        assert_eq!(ask(2, [2, 1, 0], &[(0, 0), (0, 2)]), Err(Refusal::Cell));
        assert_eq!(ask(32, [4, 1, 268_435_456], &good), Err(Refusal::Block));
        assert!(ask(32, [4, 1, 268_435_455], &good).is_ok());
        assert_eq!(ask(32, [32, 1, 1], &good), Err(Refusal::Block));
    }

    /// Each of the three is once the shorter and once the longer one, beside
    /// filled and beside empty lists. Nothing else is looked at before.
    #[test]
    fn lengths_are_judged_first() {
        let standard = Pair::standard();
        let lengths = [(4, 4, 5), (4, 5, 4), (5, 4, 4), (5, 5, 4), (5, 4, 5), (4, 5, 5), (3, 4, 5)];
        let empty = [(0, 0, 1), (0, 1, 0), (1, 0, 0), (1, 1, 0), (1, 0, 1), (0, 1, 1)];
        for (columns, rows, answers) in lengths.into_iter().chain(empty) {
            let good = [0; 5];
            let lists = (&good[..columns], &good[..rows], answers);
            let answer = outcome(&standard, plain(), 2, [2, 1, 0], lists);
            assert_eq!(answer, Err(Refusal::BufferLengths));
            let bad = [MOST; 5];
            let lists = (&bad[..columns], &bad[..rows], answers);
            for (scramble, _) in refused::all() {
                let answer = outcome(&ZERO, scramble, 33, [MOST; 3], lists);
                assert_eq!(answer, Err(Refusal::BufferLengths));
            }
        }
    }

    /// With the zero pair every later refusal is due too.
    #[test]
    fn refusals_come_in_order() {
        let (good, bad) = ((1, 1), (MOST, MOST));
        assert_eq!(refused(&ZERO, 33, [MOST; 3], &[bad, bad]), 2);
        assert_eq!(refused(&ZERO, 2, [MOST; 3], &[bad, bad]), 4);
        assert_eq!(refused(&ZERO, 2, [2, MOST, MOST], &[bad, bad]), 5);
        assert_eq!(refused(&ZERO, 2, [2, 1, MOST], &[bad, bad]), 6);
        assert_eq!(refused(&ZERO, 2, [2, 1, MOST], &[good, bad]), 7);
        assert_eq!(refused(&ZERO, 2, [2, 1, 0], &[good, bad]), 3);
        assert_eq!(refused(&Pair::standard(), 2, [2, 1, 0], &[good, bad]), 6);
    }

    /// Flips come behind the level and before the shape, with an empty list too.
    /// Every later refusal is due as well, and then none.
    #[test]
    fn flips_are_judged_between_level_and_shape() {
        for (scramble, number) in refused::all() {
            for cells in [&[(MOST, MOST); 2][..], &[(0, 0), (MOST, 0)], &[(0, 0)], &[]] {
                let refused = |pair, level, shape_and_block| {
                    ask(pair, scramble, level, shape_and_block, cells).unwrap_err().number()
                };
                assert_eq!(refused(&ZERO, 0, [MOST; 3]), 2);
                assert_eq!(refused(&ZERO, 33, [MOST; 3]), 2);
                assert_eq!(refused(&ZERO, 2, [MOST; 3]), number);
                assert_eq!(refused(&ZERO, 2, [2, MOST, MOST]), number);
                assert_eq!(refused(&ZERO, 2, [2, 1, MOST]), number);
                assert_eq!(refused(&ZERO, 2, [2, 1, 0]), number);
                assert_eq!(refused(&Pair::standard(), 2, [2, 1, 0]), number);
            }
        }
    }

    /// The first cell is judged before the block and the shape's determinant.
    #[test]
    fn bad_cell_at_place_0_is_refused_under_6() {
        for bad in [(2, 0), (0, 2), (MOST, MOST)] {
            for list in [vec![bad], vec![bad, (0, 0)], vec![bad, bad]] {
                for pair in [Pair::standard(), twice()] {
                    assert_eq!(refused(&pair, 32, [2, 1, 1 << 30], &list), 6);
                    assert_eq!(refused(&pair, 32, [2, 1, 0], &list), 6);
                }
            }
        }
    }

    /// The cell before it is in order and is refused for the block already.
    #[test]
    fn bad_cell_at_place_1_with_a_bad_block_is_refused_under_7() {
        for bad in [(2, 0), (0, 2), (MOST, MOST)] {
            for list in [vec![(0, 0), bad], vec![(1, 1), bad, (0, 0)], vec![(1, 0), bad, bad]] {
                for pair in [Pair::standard(), twice()] {
                    assert_eq!(refused(&pair, 32, [2, 1, 1 << 30], &list), 7);
                }
            }
        }
    }

    /// The cell before it is in order and is refused for the shape already.
    #[test]
    fn bad_cell_at_place_1_of_no_net_is_refused_under_3() {
        for bad in [(2, 0), (0, 2), (MOST, MOST)] {
            for list in [vec![(0, 0), bad], vec![(1, 1), bad, (0, 0)], vec![(1, 0), bad, bad]] {
                let answer = ask(&twice(), plain(), 2, [2, 1, 0], &list);
                assert_eq!(answer, Err(Refusal::NotNet { m: 2, a: 1, j: 2 }));
                // Another shape of the same pair is in order, and so the bad
                // cell is what is left to refuse.
                assert_eq!(refused(&twice(), 2, [1, 0, 0], &[(0, 0), bad]), 6);
            }
        }
    }

    #[test]
    fn bad_shape_is_named_by_the_overview() {
        let good = [(1, 0), (0, 0)];
        let answer = ask(&twice(), plain(), 2, [2, 1, 0], &good);
        assert_eq!(answer, Err(Refusal::NotNet { m: 2, a: 1, j: 2 }));
        // Another shape of the same pair is in order and is answered.
        assert_eq!(ask(&twice(), plain(), 2, [2, 2, 0], &good), Ok(vec![2, 0]));
        let answer = ask(&ZERO, plain(), 1, [1, 0, 0], &[(0, 1)]);
        assert_eq!(answer, Err(Refusal::NotNet { m: 1, a: 0, j: 1 }));
    }

    /// A single bad cell anywhere refuses the whole, the last place included,
    /// where all other answers are known before it.
    #[test]
    fn bad_cell_at_any_place_leaves_the_answers_alone() {
        let standard = Pair::standard();
        for place in 0..6 {
            let mut cells = vec![(1, 0); 6];
            assert_eq!(ask(&standard, plain(), 2, [2, 1, 1], &cells), Ok(vec![5; 6]));
            cells[place] = (1, 2);
            assert_eq!(refused(&standard, 2, [2, 1, 1], &cells), 6);
            // Earlier than any bad cell but the first is the block's refusal.
            let expected = if place == 0 { 6 } else { 7 };
            assert_eq!(refused(&standard, 2, [2, 1, MOST], &cells), expected);
        }
    }

    #[test]
    fn empty_list_is_judged_all_the_same() {
        let (standard, twice) = (Pair::standard(), twice());
        let ask = |pair, level, shape_and_block| ask(pair, plain(), level, shape_and_block, &[]);
        assert_eq!(ask(&standard, 0, [2, 1, 0]), Err(Refusal::Level));
        assert_eq!(ask(&standard, 33, [2, 1, 0]), Err(Refusal::Level));
        assert_eq!(ask(&standard, 2, [3, 1, 0]), Err(Refusal::SizeAboveLevel));
        assert_eq!(ask(&standard, 2, [2, 3, 0]), Err(Refusal::ColumnBitsAboveSize));
        assert_eq!(ask(&standard, 32, [4, 1, 268_435_456]), Err(Refusal::Block));
        assert_eq!(ask(&standard, 32, [4, 1, 268_435_455]), Ok(vec![]));
        assert_eq!(ask(&standard, 32, [32, 1, 1]), Err(Refusal::Block));
        assert_eq!(ask(&twice, 2, [2, 1, 0]), Err(Refusal::NotNet { m: 2, a: 1, j: 2 }));
        assert_eq!(ask(&ZERO, 1, [1, 0, 0]), Err(Refusal::NotNet { m: 1, a: 0, j: 1 }));
        // The empty determinant is 1, whatever the pair.
        assert_eq!(ask(&ZERO, 1, [0, 0, MOST]), Ok(vec![]));
        // Only the shape asked for is judged, and not the pair.
        assert_eq!(ask(&twice, 2, [2, 2, 0]), Ok(vec![]));
    }

    #[test]
    fn refusals_of_an_empty_list_come_in_order() {
        assert_eq!(refused(&ZERO, 33, [MOST; 3], &[]), 2);
        assert_eq!(refused(&ZERO, 2, [MOST; 3], &[]), 4);
        assert_eq!(refused(&ZERO, 2, [2, MOST, MOST], &[]), 5);
        assert_eq!(refused(&ZERO, 2, [2, 1, MOST], &[]), 7);
        assert_eq!(refused(&ZERO, 2, [2, 1, 0], &[]), 3);
    }

    /// Column 0 and row 0 lie in every shape, so that this cell is never
    /// refused under 6 and meets just the tests of an empty list.
    #[test]
    fn empty_list_is_judged_like_the_cell_of_zeros() {
        let mut random = Random::from_seed(41);
        for turn in 0..20_000 {
            let (pair, mut owned) = (random.pair(turn), random.scramble());
            // Now and then flip bit 255 of y is set.
            owned.flips_y[31] |= if turn % 5 == 0 { 0x80 } else { 0 };
            let (level, m) = (random.word() % 34, random.word() % 33);
            let a = random.word() % (m + 2);
            let block = if turn % 4 == 0 { random.word() } else { some_block(&mut random, m) };
            let cell = Query { m, a, column: 0, row: 0, block };
            let single = query(&pair, owned.lent(), level, cell).map(|_| vec![]);
            assert_eq!(ask(&pair, owned.lent(), level, [m, a, block], &[]), single);
        }
    }

    /// The order of an overview as the table of orders has it: 8, 2, 17, 18, 4, 5,
    /// 6 of the first cell, 7, 3, 6 of later cells. It is written without the
    /// functions of this crate, but for the products; 0 is accepted.
    fn number_by_the_table(
        pair: &Pair,
        scramble: Scramble<'_>,
        level: u32,
        [m, a, block]: [u32; 3],
        (columns, rows, length): (&[u32], &[u32], usize),
    ) -> u32 {
        if [columns.len(), rows.len()] != [length; 2] {
            return 8;
        }
        if level == 0 || level > 32 {
            return 2;
        }
        let of_flips = flips_by_the_table(scramble);
        if of_flips != 0 {
            return of_flips;
        }
        if m > level {
            return 4;
        }
        if a > m {
            return 5;
        }
        let outside = |place: usize| {
            u64::from(columns[place]) >= 1 << a || u64::from(rows[place]) >= 1 << (m - a)
        };
        if length > 0 && outside(0) {
            return 6;
        }
        if u64::from(block) * (1 << m) >= 1 << 32 {
            return 7;
        }
        if (1..1 << m).any(|i| lies_in(pair.product(i), m, a, 0, 0)) {
            return 3;
        }
        if (1..length).any(outside) {
            return 6;
        }
        0
    }

    /// The part of the order that is about flips: 17, 18.
    fn flips_by_the_table(scramble: Scramble<'_>) -> u32 {
        if [scramble.flips_x.len(), scramble.flips_y.len()] != [32; 2] {
            17
        } else if scramble.flips_x[31] > 127 || scramble.flips_y[31] > 127 {
            18
        } else {
            0
        }
    }

    /// Every list of up to three cells, each of them with column and row 0, with
    /// column 4, or with row 4. The latter two are outside most small shapes.
    fn short_lists() -> Vec<Vec<(u32, u32)>> {
        let mut lists = vec![vec![]];
        let mut longest = lists.clone();
        for _ in 0..3 {
            let longer = |list: &Vec<(u32, u32)>| {
                [(0, 0), (4, 0), (0, 4)].map(|cell| [&list[..], &[cell]].concat())
            };
            longest = longest.iter().flat_map(longer).collect();
            lists.extend_from_slice(&longest);
        }
        lists
    }

    /// Levels with shapes and blocks, in order or not in every combination.
    fn levels_shapes_and_blocks() -> Vec<(u32, [u32; 3])> {
        let mut all = Vec::new();
        for level in [0, 1, 2, 32, 33] {
            for m in 0..4 {
                for a in 0..5 {
                    for block in [0, (1 << 29) - 1, 1 << 29, 1 << 30, 1 << 31, MOST] {
                        all.push((level, [m, a, block]));
                    }
                }
            }
        }
        all
    }

    /// Each pair without flips, with some, and with flips under 17 and under 18.
    /// Where 17 is due, 18 is due too.
    #[test]
    fn order_is_that_of_the_table() {
        let flipped = Random::from_seed(18).scramble();
        let scrambles = [plain(), flipped.lent(), refused::under_17()[4], refused::under_18()[1]];
        let pairs = [Pair::standard(), twice(), ZERO];
        let plans: Vec<(Pair, Scramble<'_>)> =
            pairs.iter().flat_map(|&pair| scrambles.map(|scramble| (pair, scramble))).collect();
        let mut seen = [0; 19];
        for cells in short_lists() {
            let columns: Vec<u32> = cells.iter().map(|cell| cell.0).collect();
            let rows: Vec<u32> = cells.iter().map(|cell| cell.1).collect();
            // The answers are as many as the cells, or one more.
            for length in [cells.len(), cells.len() + 1] {
                let lists = (&columns[..], &rows[..], length);
                for (level, shape_and_block) in levels_shapes_and_blocks() {
                    for &(pair, scramble) in &plans {
                        let answer = outcome(&pair, scramble, level, shape_and_block, lists);
                        let number =
                            number_by_the_table(&pair, scramble, level, shape_and_block, lists);
                        assert_eq!(answer.map_or_else(Refusal::number, |_| 0), number);
                        seen[number as usize] += 1;
                    }
                }
            }
        }
        // No other number may be missing, and none may be there beside them.
        let given: Vec<usize> = (0..19).filter(|&number| seen[number] > 0).collect();
        assert_eq!(given, [0, 2, 3, 4, 5, 6, 7, 8, 17, 18]);
    }
}
