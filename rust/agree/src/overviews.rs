//! Overviews: lists of cells, none to hundreds, of every shape; one cell outside the shape at each
//! place of a list, with and without a block beyond the last index; buffers that differ in length;
//! and then any numbers. The answers go into the middle of a larger buffer whose other places are
//! compared too.

use reference::overview::overview;
use reference::trial::splitmix::Splitmix;
use vektrid::{overview_words, Cell, Cells, Refusal};

use crate::case::Case;
use crate::limits::{at_limit, wild};
use crate::pairs::{self, Words};
use crate::queries::{anything, shape, SHAPES};
use crate::scrambles::{self, Scrambled};
use crate::simpler::{simpler_number, simpler_pair, simpler_scramble, simpler_word};
use crate::{same, text};

/// What the buffer holds before an overview.
const MARK: u32 = 0xDEAD_BEEF;

/// The lists of 1 to 12 cells, each with one of its places.
const PLACES: u64 = 12 * 13 / 2;

const IN_ORDER: u64 = 45_000;
const ONE_OUTSIDE: u64 = 30_000;
const LENGTHS: u64 = 10_000;
const WILD: u64 = 15_000;

/// How many of the first cells of a list the search for a smaller case makes simpler.
const SIMPLER_CELLS: usize = 4;

#[derive(Clone)]
pub struct Overview {
    words: Words,
    scramble: Scrambled,
    level: u32,
    m: u32,
    a: u32,
    block: u32,
    columns: Vec<u32>,
    rows: Vec<u32>,
    /// How many answers are lent.
    length: usize,
    /// The places before those lent, so that these lie anywhere in memory.
    before: usize,
    /// The places behind them.
    behind: usize,
}

/// The answer of the call, and the whole buffer.
type Answer = (Result<(), Refusal>, Vec<u32>);

impl Case for Overview {
    const NAME: &'static str = "overview";
    const COUNT: u64 = IN_ORDER + ONE_OUTSIDE + LENGTHS + WILD;
    const OUTCOMES: &'static [u32] = &[0, 2, 3, 4, 5, 6, 7, 8, 17, 18];
    type Answer = Answer;

    fn make(random: &mut Splitmix, number: u64) -> Overview {
        if number < IN_ORDER {
            in_order(random, number)
        } else if number < IN_ORDER + ONE_OUTSIDE {
            one_outside(random, number - IN_ORDER)
        } else if number < IN_ORDER + ONE_OUTSIDE + LENGTHS {
            other_lengths(random, number)
        } else {
            wild_overview(random)
        }
    }

    fn expected(&self) -> Answer {
        let (pair, scramble) = (same::pair(&self.words), self.scramble.reference());
        let Overview { level, m, a, block, ref columns, ref rows, .. } = *self;
        self.answer(|answers| {
            overview(&pair, scramble, level, m, a, block, columns, rows, answers)
                .map_err(same::refusal)
        })
    }

    fn given(&self) -> Answer {
        let (scramble, level) = (self.scramble.bytes(), self.level);
        self.answer(|answers| overview_words(&self.words, scramble, level, self.cells(), answers))
    }

    fn outcome((answer, _): &Answer) -> u32 {
        same::outcome(answer)
    }

    fn simpler(&self) -> Vec<Overview> {
        let mut simpler = self.shorter();
        // One place on either side stays, so that what is written there can still be told.
        simpler.extend((self.before > 1).then(|| Overview { before: 1, ..self.clone() }));
        simpler.extend((self.behind > 1).then(|| Overview { behind: 1, ..self.clone() }));
        simpler.extend(self.with_simpler_numbers());
        simpler.extend(self.with_simpler_cells());
        let scrambles = simpler_scramble(self.scramble).into_iter();
        simpler.extend(scrambles.map(|scramble| Overview { scramble, ..self.clone() }));
        let pairs = simpler_pair(&self.words).into_iter();
        simpler.extend(pairs.map(|words| Overview { words, ..self.clone() }));
        simpler
    }

    fn test(&self) -> String {
        let Overview { words, scramble, level, length, before, .. } = self;
        let (answer, answers) = self.expected();
        format!(
            "{}\n\
             {}\n\
             let mut answers = vec![{MARK}; {}];\n\
             let cells = {};\n\
             let part = &mut answers[{before}..{}];\n\
             let answer = overview_words(pair.words(), scramble, {level}, cells, part);\n\
             assert_eq!(answer, {});\n\
             assert_eq!(answers, {answers:?});",
            text::let_pair(words),
            text::let_bytes(scramble),
            answers.len(),
            self.cells_as_text(),
            before + length,
            text::answer(&answer)
        )
    }
}

impl Overview {
    fn answer(&self, overview: impl Fn(&mut [u32]) -> Result<(), Refusal>) -> Answer {
        let end = self.before + self.length;
        let mut answers = vec![MARK; end + self.behind];
        let answer = overview(&mut answers[self.before..end]);
        (answer, answers)
    }

    fn cells(&self) -> Cells<'_> {
        let Overview { m, a, block, ref columns, ref rows, .. } = *self;
        Cells { m, a, columns, rows, block }
    }

    fn cells_as_text(&self) -> String {
        let Overview { m, a, block, columns, rows, .. } = self;
        format!(
            "Cells {{ m: {m}, a: {a}, columns: &{columns:?}, rows: &{rows:?}, block: {block} }}"
        )
    }

    /// Cut to a shorter list, or without one cell. All three buffers become shorter by the same, or
    /// an overview would become one that is refused under 8.
    fn shorter(&self) -> Vec<Overview> {
        let common = self.columns.len().min(self.rows.len()).min(self.length);
        let lengths = simpler_number(common as u64).into_iter();
        let cut = lengths.map(|length| self.without(length as usize, common - length as usize));
        let one_less = (0..common).map(|place| self.without(place, 1));
        cut.chain(one_less).collect()
    }

    /// Without some cells from a place on, and without as many answers.
    fn without(&self, place: usize, count: usize) -> Overview {
        let mut fewer = self.clone();
        fewer.columns.drain(place..place + count);
        fewer.rows.drain(place..place + count);
        fewer.length -= count;
        fewer
    }

    fn with_simpler_numbers(&self) -> Vec<Overview> {
        let with = |change: fn(&mut Overview, u32), word: u32| {
            simpler_word(word).into_iter().map(move |less| {
                let mut simpler = self.clone();
                change(&mut simpler, less);
                simpler
            })
        };
        let mut simpler = Vec::new();
        simpler.extend(with(|case, level| case.level = level, self.level));
        simpler.extend(with(|case, m| case.m = m, self.m));
        simpler.extend(with(|case, a| case.a = a, self.a));
        simpler.extend(with(|case, block| case.block = block, self.block));
        simpler
    }

    /// One column or one row of the first cells simpler.
    fn with_simpler_cells(&self) -> Vec<Overview> {
        let mut simpler = Vec::new();
        for (place, &column) in self.columns.iter().enumerate().take(SIMPLER_CELLS) {
            for less in simpler_word(column) {
                let mut changed = self.clone();
                changed.columns[place] = less;
                simpler.push(changed);
            }
        }
        for (place, &row) in self.rows.iter().enumerate().take(SIMPLER_CELLS) {
            for less in simpler_word(row) {
                let mut changed = self.clone();
                changed.rows[place] = less;
                simpler.push(changed);
            }
        }
        simpler
    }
}

/// Cells of a shape and a block that are in order, at level 32.
fn of_shape(random: &mut Splitmix, (m, a): (u32, u32), length: usize) -> Overview {
    let block = inside(random, 32 - m);
    let columns = (0..length).map(|_| inside(random, a)).collect();
    let rows = (0..length).map(|_| inside(random, m - a)).collect();
    let (words, scramble) = (pairs::mostly_nets(random), scrambles::any(random));
    let before = 8 + random.below(16) as usize;
    Overview { words, scramble, level: 32, m, a, block, columns, rows, length, before, behind: 20 }
}

/// A number below 2^bits: 0, the last, or any.
fn inside(random: &mut Splitmix, bits: u32) -> u32 {
    at_limit(random.pick(&[0, 1, 3, 3, 3]), bits, random)
}

/// A number that is not below 2^bits: the first such one, or any.
fn past(random: &mut Splitmix, bits: u32) -> u32 {
    let first = 1 << bits;
    if random.one_in(2) {
        first
    } else {
        first | random.word()
    }
}

/// None, one, up to 64, and now and then hundreds.
fn length(random: &mut Splitmix) -> usize {
    let length = match random.below(40) {
        0..=3 => 0,
        4..=7 => 1,
        8 => 65 + random.below(500),
        9..=19 => 2 + random.below(63),
        _ => 2 + random.below(15),
    };
    length as usize
}

/// Every shape in turn, mostly with a level that allows it.
fn in_order(random: &mut Splitmix, number: u64) -> Overview {
    let (m, a) = shape(number % SHAPES);
    let length = length(random);
    let mut case = of_shape(random, (m, a), length);
    if random.one_in(4) {
        case.level = random.pick(&[m.wrapping_sub(1), m, m + 1]);
    }
    // One past the last, where there is such a block.
    if random.one_in(10) {
        case.block = at_limit(2, 32 - m, random);
    }
    case
}

/// One cell outside the shape at each place in turn, its column or its row, with a block that is in
/// order or lies beyond the last index.
fn one_outside(random: &mut Splitmix, number: u64) -> Overview {
    // The lists with their places are numbered as the shapes are.
    let (last, place) = shape(number % PLACES);
    let (in_row, bad_block) = (number / PLACES % 2 == 1, number / PLACES / 2 % 2 == 1);
    // From 1 to 31 there are numbers of a block, column and row that do not fit.
    let m = 1 + random.below(31);
    let a = random.below(m + 1);
    let mut case = of_shape(random, (m, a), last as usize + 1);
    let (list, bits) = if in_row { (&mut case.rows, m - a) } else { (&mut case.columns, a) };
    list[place as usize] = past(random, bits);
    if bad_block {
        case.block = past(random, 32 - m);
    }
    case
}

/// One, two or all three of the buffers shorter or longer than they should be; some overviews have
/// another fault too.
fn other_lengths(random: &mut Splitmix, number: u64) -> Overview {
    let mut case =
        if random.one_in(2) { in_order(random, number) } else { one_outside(random, number) };
    let mut changed = |length: usize| match random.below(3) {
        0 => length + 1 + random.below(3) as usize,
        1 => length.saturating_sub(1),
        _ => random.below(70) as usize,
    };
    // A bit for each of the three.
    let which = 1 + number % 7;
    if which & 1 > 0 {
        case.columns.resize(changed(case.columns.len()), 0);
    }
    if which & 2 > 0 {
        case.rows.resize(changed(case.rows.len()), 0);
    }
    if which & 4 > 0 {
        case.length = changed(case.length);
    }
    case
}

/// Wild numbers everywhere, the cells mostly in the shape, or nearly all would be refused.
fn wild_overview(random: &mut Splitmix) -> Overview {
    let (level, Cell { m, a, block, .. }) = anything(random);
    let length = length(random);
    let mut case = of_shape(random, (m.min(32), a.min(m).min(32)), length);
    for place in 0..length {
        if random.one_in(20) {
            case.columns[place] = wild(random);
            case.rows[place] = wild(random);
        }
    }
    if random.one_in(2) {
        case.block = block;
    }
    Overview { level, m, a, ..case }
}

#[cfg(test)]
mod tests {
    use super::*;
    use std::collections::BTreeSet;

    #[test]
    fn lists_have_every_length() {
        let cases = (0..2_000).map(|number| in_order(&mut Splitmix::of_case(1, number), number));
        let accepted = cases.filter(|case| case.expected().0.is_ok());
        let lengths: BTreeSet<usize> = accepted.map(|case| case.length).collect();
        assert!((0..=64).all(|length| lengths.contains(&length)));
        assert!(lengths.range(300..).next().is_some());
    }

    /// Which place the cell outside has, whether the block is beyond the last index, and what is
    /// answered then.
    #[test]
    fn cells_outside_stand_at_each_place() {
        let mut seen = BTreeSet::new();
        // A column or a row outside and a block in order or not are four kinds.
        for number in 0..20 * 4 * PLACES {
            let case = one_outside(&mut Splitmix::of_case(1, number), number);
            let outside = (0..case.length).filter(|&at| {
                case.columns[at] >> case.a > 0 || case.rows[at] >> (case.m - case.a) > 0
            });
            let places: Vec<usize> = outside.collect();
            assert_eq!(places.len(), 1);
            let bad_block = case.block >> (32 - case.m) > 0;
            seen.insert((places[0], bad_block, Overview::outcome(&case.expected())));
        }
        let first = [(0, false, 6), (0, true, 6)];
        let later = (1..12).flat_map(|at| [(at, false, 3), (at, false, 6), (at, true, 7)]);
        // Flips come before all of these.
        let flips =
            (0..12).flat_map(|at| [17, 18].map(|number| [(at, false, number), (at, true, number)]));
        let expected = first.into_iter().chain(later).chain(flips.flatten());
        assert_eq!(seen, expected.collect());
    }

    #[test]
    fn lengths_differ_in_every_way() {
        let mut seen = BTreeSet::new();
        for number in 0..500 {
            let case = other_lengths(&mut Splitmix::of_case(1, number), number);
            let (columns, rows, answers) = (case.columns.len(), case.rows.len(), case.length);
            seen.insert((columns.cmp(&rows), rows.cmp(&answers), answers.cmp(&columns)));
        }
        // Of the 27 only those are possible that are no circle.
        assert_eq!(seen.len(), 13);
    }
}
