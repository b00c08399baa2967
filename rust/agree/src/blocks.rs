//! Blocks cell by cell (C-16): of the 2^m visits of a block, each cell of each shape (m, 0) to (m, m)
//! holds exactly one, under any scramble, and the query of the cell names it.

use reference::counts::cell_counts;
use reference::pair::Point;
use reference::trial::splitmix::Splitmix;
use vektrid::{Cell, Refusal};

use crate::case::Case;
use crate::limits::at_limit;
use crate::pairs::{self, Words};
use crate::scrambles::{self, Scrambled};
use crate::simpler::{simpler_scramble, simpler_word};
use crate::{same, text};

/// The sizes are 0 to 8. Flips reach eight bits deep, so that the strips of the largest size feel all
/// of them.
const SIZES: u64 = 9;

/// The level only bounds m in a query.
const LEVEL: u32 = 32;

#[derive(Clone, Copy)]
pub struct Block {
    /// Of a pair that the library accepts to the level m, where m is not 0.
    words: Words,
    /// Accepted.
    scramble: Scrambled,
    m: u32,
    block: u32,
}

/// What a shape holds. Cells go column by column, and in each column row by row.
#[derive(Debug, PartialEq)]
pub struct Shape {
    /// How many visits each cell holds.
    counts: Vec<u64>,
    /// The visit in each cell, by its point.
    seen: Vec<u32>,
    /// The visit in each cell, by the query of the cell.
    named: Vec<Result<u32, Refusal>>,
}

impl Case for Block {
    const NAME: &'static str = "block, cell by cell";
    const COUNT: u64 = SIZES * 1_000;
    const OUTCOMES: &'static [u32] = &[0];
    /// The shapes by a, from 0 to m.
    type Answer = Vec<Shape>;

    fn make(random: &mut Splitmix, number: u64) -> Block {
        let words = pairs::mostly_nets(random);
        let m = pairs::accepted_size(&words, (number % SIZES) as u32);
        let block = at_limit(random.pick(&[0, 1, 3, 3]), 32 - m, random);
        Block { words, scramble: scrambles::accepted(random), m, block }
    }

    /// The counts are those that the request promises, and not the reference's.
    fn expected(&self) -> Vec<Shape> {
        let points = self.expected_points();
        let shape = |a| {
            let seen = self.seen(&points, a);
            let named = seen.iter().map(|&index| Ok(index)).collect();
            Shape { counts: vec![1; 1 << self.m], seen, named }
        };
        (0..=self.m).map(shape).collect()
    }

    fn given(&self) -> Vec<Shape> {
        let points = self.given_points().expect("block and scramble are accepted");
        let shape = |a| {
            let counts = cell_counts(&points, self.m, a);
            Shape { counts, seen: self.seen(&points, a), named: self.named(a) }
        };
        (0..=self.m).map(shape).collect()
    }

    fn outcome(_: &Vec<Shape>) -> u32 {
        0
    }

    /// Nothing but the standard pair comes in the place of a pair, or it might not be accepted.
    fn simpler(&self) -> Vec<Block> {
        let mut simpler = Vec::new();
        if self.words != pairs::standard() {
            simpler.push(Block { words: pairs::standard(), ..*self });
        }
        // A smaller size has more blocks, and a level that is passed has all those below it.
        simpler.extend(simpler_word(self.m).into_iter().map(|m| Block { m, ..*self }));
        simpler.extend(simpler_word(self.block).into_iter().map(|block| Block { block, ..*self }));
        let scrambles = simpler_scramble(self.scramble).into_iter();
        simpler.extend(scrambles.map(|scramble| Block { scramble, ..*self }));
        simpler
    }

    fn test(&self) -> String {
        let Block { words, scramble, m, block } = self;
        let (first, count, points) = (self.first(), 1 << m, self.expected_points());
        let (xs, ys): (Vec<u32>, Vec<u32>) = points.iter().map(|point| (point.x, point.y)).unzip();
        format!(
            "{}\n\
             {}\n\
             let (mut xs, mut ys) = (vec![0; {count}], vec![0; {count}]);\n\
             pair.fill(scramble, {first}, &mut xs, &mut ys).unwrap();\n\
             assert_eq!(xs, {xs:?});\n\
             assert_eq!(ys, {ys:?});\n\
             for a in 0..={m} {{\n    \
                 for (index, (&x, &y)) in ({first}..={last}).zip(xs.iter().zip(&ys)) {{\n        \
                     let column = (u64::from(x) >> (32 - a)) as u32;\n        \
                     let row = (u64::from(y) >> (32 - ({m} - a))) as u32;\n        \
                     let cell = Cell {{ m: {m}, a, column, row, block: {block} }};\n        \
                     assert_eq!(pair.query(scramble, {LEVEL}, cell), Ok(index));\n    \
                 }}\n\
             }}",
            text::let_pair(words),
            text::let_scramble(scramble),
            last = first + (count - 1)
        )
    }
}

impl Block {
    /// The first visit of the block.
    fn first(&self) -> u32 {
        // At m 0 the block is the visit; else it is below 2^31.
        self.block << self.m
    }

    fn expected_points(&self) -> Vec<Point> {
        let (pair, scramble) = (same::pair(&self.words), self.scramble.reference());
        let visits = (0..1 << self.m).map(|place| self.first() + place);
        visits.map(|index| pair.point(index, scramble).expect("accepted")).collect()
    }

    fn given_points(&self) -> Result<Vec<Point>, Refusal> {
        let (mut xs, mut ys) = (vec![0; 1 << self.m], vec![0; 1 << self.m]);
        let scramble = self.scramble.judged()?;
        same::bound(&self.words).fill(scramble, self.first(), &mut xs, &mut ys)?;
        Ok(xs.into_iter().zip(ys).map(|(x, y)| Point { x, y }).collect())
    }

    /// The last visit in each cell of the shape (m, a), by the points of the block.
    fn seen(&self, points: &[Point], a: u32) -> Vec<u32> {
        let mut seen = vec![0; 1 << self.m];
        for (place, point) in (0..).zip(points) {
            // A shift by 32 needs the longer number.
            let column = u64::from(point.x) >> (32 - a);
            let row = u64::from(point.y) >> (32 - (self.m - a));
            seen[(column << (self.m - a) | row) as usize] = self.first() + place;
        }
        seen
    }

    /// The visit that the query names for each cell of the shape (m, a).
    fn named(&self, a: u32) -> Vec<Result<u32, Refusal>> {
        let Block { m, block, .. } = *self;
        let (pair, scramble) = (same::bound(&self.words), self.scramble.judged());
        let cells = (0..1 << m).map(|place: u32| {
            let (column, row) = (place >> (m - a), place & ((1 << (m - a)) - 1));
            Cell { m, a, column, row, block }
        });
        cells.map(|cell| pair.query(scramble?, LEVEL, cell)).collect()
    }
}

#[cfg(test)]
mod tests {
    use super::*;
    use std::collections::BTreeSet;

    /// Each size has its first block, its last and others.
    #[test]
    fn blocks_reach_to_the_last() {
        let mut seen = BTreeSet::new();
        for number in 0..SIZES * 40 {
            let Block { words, m, block, .. } =
                Block::make(&mut Splitmix::of_case(5, number), number);
            assert!(m == 0 || same::bound(&words).check(m) == Ok(()));
            let last = u32::MAX >> m;
            assert!(block <= last);
            seen.insert((m, u32::from(block > 0) + u32::from(block == last)));
        }
        assert_eq!(seen.len() as u64, 3 * SIZES);
    }

    /// A wrong pair is found out: without one column of x, two visits share a cell and no query names
    /// them.
    #[test]
    fn cells_of_no_net_are_off() {
        let mut words = pairs::standard();
        words[1] = 0;
        let scramble = scrambles::accepted(&mut Splitmix::of_case(1, 1));
        let block = Block { words, scramble, m: 2, block: 3 };
        let (expected, given) = (block.expected(), block.given());
        assert_ne!(expected[2].counts, given[2].counts);
        assert_eq!(given[2].named, [Err(Refusal::NotNet { m: 2, a: 2, j: 2 }); 4]);
        assert_eq!(expected[1], given[1]);
    }
}
