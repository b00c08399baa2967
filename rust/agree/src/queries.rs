//! Cell queries: every shape with its cells, blocks and levels at their limits and past them, and
//! then any numbers.

use reference::query;
use reference::trial::splitmix::Splitmix;
use vektrid::{query_words, Cell, Refusal};

use crate::case::Case;
use crate::limits::{at_limit, wild};
use crate::pairs::{self, Words};
use crate::scrambles::{self, Scrambled};
use crate::simpler::{simpler_pair, simpler_scramble, simpler_word};
use crate::{same, text};

/// The shapes (m, a) with 0 ≤ a ≤ m ≤ 32.
pub const SHAPES: u64 = 33 * 34 / 2;

/// Four columns, rows, blocks and levels of each shape.
const CHOICES: u64 = 4 * 4 * 4 * 4;

/// Twice, each time with another pair and scramble.
const LIMITS: u64 = 2 * SHAPES * CHOICES;

const WILD: u64 = 30_000;

#[derive(Clone, Copy)]
pub struct Query {
    words: Words,
    scramble: Scrambled,
    level: u32,
    cell: Cell,
}

impl Case for Query {
    const NAME: &'static str = "query";
    const COUNT: u64 = LIMITS + WILD;
    const OUTCOMES: &'static [u32] = &[0, 2, 3, 4, 5, 6, 7, 17, 18];
    type Answer = Result<u32, Refusal>;

    fn make(random: &mut Splitmix, number: u64) -> Query {
        let (words, scramble) = (pairs::mostly_nets(random), scrambles::any(random));
        let (level, cell) = if number < LIMITS {
            at_limits(random, shape(number / CHOICES % SHAPES), number % CHOICES)
        } else {
            anything(random)
        };
        Query { words, scramble, level, cell }
    }

    fn expected(&self) -> Result<u32, Refusal> {
        let (pair, scramble) = (same::pair(&self.words), self.scramble.reference());
        let Cell { m, a, column, row, block } = self.cell;
        let cell = query::Query { m, a, column, row, block };
        query::query(&pair, scramble, self.level, cell).map_err(same::refusal)
    }

    fn given(&self) -> Result<u32, Refusal> {
        query_words(&self.words, self.scramble.bytes(), self.level, self.cell)
    }

    fn outcome(answer: &Result<u32, Refusal>) -> u32 {
        same::outcome(answer)
    }

    fn simpler(&self) -> Vec<Query> {
        let mut simpler = Vec::new();
        simpler.extend(simpler_cell(self.cell).into_iter().map(|cell| Query { cell, ..*self }));
        simpler.extend(simpler_word(self.level).into_iter().map(|level| Query { level, ..*self }));
        let scrambles = simpler_scramble(self.scramble).into_iter();
        simpler.extend(scrambles.map(|scramble| Query { scramble, ..*self }));
        simpler.extend(simpler_pair(&self.words).into_iter().map(|words| Query { words, ..*self }));
        simpler
    }

    fn test(&self) -> String {
        let Query { words, scramble, level, cell } = self;
        format!(
            "{}\n\
             {}\n\
             let answer = query_words(pair.words(), scramble, {level}, {cell:?});\n\
             assert_eq!(answer, {});",
            text::let_pair(words),
            text::let_bytes(scramble),
            text::answer(&self.expected())
        )
    }
}

/// The shapes by their number: m rising, and then a.
pub fn shape(mut number: u64) -> (u32, u32) {
    let mut m = 0;
    while number > m {
        number -= m + 1;
        m += 1;
    }
    (m as u32, number as u32)
}

/// A column, row, block and level of a shape, by the four digits of a choice.
fn at_limits(random: &mut Splitmix, (m, a): (u32, u32), choice: u64) -> (u32, Cell) {
    let digit = |place: u32| choice >> (2 * place) & 3;
    let column = at_limit(digit(0), a, random);
    let row = at_limit(digit(1), m - a, random);
    let block = at_limit(digit(2), 32 - m, random);
    let level = [m.wrapping_sub(1), m, m + 1, 32][digit(3) as usize];
    (level, Cell { m, a, column, row, block })
}

/// Wild numbers, or most calls would be refused under 2 and 4, some in order.
pub fn anything(random: &mut Splitmix) -> (u32, Cell) {
    let level = if random.one_in(4) { wild(random) } else { 32 };
    let m = if random.one_in(4) { wild(random) } else { random.below(33) };
    let a = if random.one_in(4) { wild(random) } else { random.below(m.saturating_add(1)) };
    (level, Cell { m, a, column: wild(random), row: wild(random), block: wild(random) })
}

fn simpler_cell(cell: Cell) -> Vec<Cell> {
    let Cell { m, a, column, row, block } = cell;
    let mut simpler = Vec::new();
    simpler.extend(simpler_word(m).into_iter().map(|m| Cell { m, ..cell }));
    simpler.extend(simpler_word(a).into_iter().map(|a| Cell { a, ..cell }));
    simpler.extend(simpler_word(column).into_iter().map(|column| Cell { column, ..cell }));
    simpler.extend(simpler_word(row).into_iter().map(|row| Cell { row, ..cell }));
    simpler.extend(simpler_word(block).into_iter().map(|block| Cell { block, ..cell }));
    simpler
}

#[cfg(test)]
mod tests {
    use super::*;
    use std::collections::BTreeSet;

    #[test]
    fn every_shape_has_its_number() {
        let shapes: BTreeSet<(u32, u32)> = (0..SHAPES).map(shape).collect();
        assert_eq!(shapes.len() as u64, SHAPES);
        assert!(shapes.iter().all(|&(m, a)| a <= m && m <= 32));
    }
}
