//! Words that are no pair, through every call that takes words. All of them refuse these under 1,
//! before anything else that is wrong, and write nothing.

use reference::pair::Pair;
use reference::trial::splitmix::Splitmix;
use vektrid::{Cell, Cells, Refusal, Walk};

use crate::case::Case;
use crate::limits::{wild, wild_count};
use crate::scrambles::{self, Scrambled};
use crate::{same, text};

const LENGTHS: [usize; 12] = [0, 1, 2, 31, 32, 33, 62, 63, 65, 96, 104, 128];

/// What the lent buffers hold.
const MARK: u32 = 0xDEAD_BEEF;

#[derive(Clone, Copy)]
pub struct WordCount {
    length: usize,
    scramble: Scrambled,
    level: u32,
    walk: Walk,
    cell: Cell,
}

/// The answers of the calls in turn, and the buffers of those that write words.
#[derive(Debug, PartialEq)]
pub struct Answer {
    calls: [Result<(), Refusal>; 9],
    standard: Vec<u32>,
    filled: ([u32; 3], [u32; 4]),
    overviewed: [u32; 2],
}

impl Case for WordCount {
    const NAME: &'static str = "words that are not 64";
    const COUNT: u64 = 6_000;
    const OUTCOMES: &'static [u32] = &[1];
    type Answer = Answer;

    fn make(random: &mut Splitmix, number: u64) -> WordCount {
        let (m, a, column) = (wild(random), wild(random), wild(random));
        WordCount {
            length: LENGTHS[number as usize % LENGTHS.len()],
            scramble: scrambles::any(random),
            level: wild(random),
            walk: Walk { next: wild(random), left: wild_count(random) },
            cell: Cell { m, a, column, row: wild(random), block: wild(random) },
        }
    }

    fn expected(&self) -> Answer {
        let refused = Pair::from_words(&self.words()).map(|_| ()).map_err(same::refusal);
        let standard = vec![MARK; self.length];
        let (filled, overviewed) = (([MARK; 3], [MARK; 4]), [MARK; 2]);
        Answer { calls: [refused; 9], standard, filled, overviewed }
    }

    fn given(&self) -> Answer {
        let WordCount { ref scramble, level, walk, cell, .. } = *self;
        let (words, scramble) = (self.words(), scramble.bytes());
        let mut standard = vec![MARK; self.length];
        let (mut filled, mut overviewed) = (([MARK; 3], [MARK; 4]), [MARK; 2]);
        let Cell { m, a, column, row, block } = cell;
        let cells = Cells { m, a, columns: &[column], rows: &[row, row, row], block };
        let calls = [
            vektrid::standard_words(&mut standard),
            vektrid::check_words(&words, level),
            vektrid::point_words(&words, scramble, walk.next).map(|_| ()),
            vektrid::point_singles_words(&words, scramble, walk.next).map(|_| ()),
            vektrid::fill_words(&words, scramble, walk.next, &mut filled.0, &mut filled.1),
            walk.step_words(&words, scramble).map(|_| ()),
            walk.step_singles_words(&words, scramble).map(|_| ()),
            vektrid::query_words(&words, scramble, level, cell).map(|_| ()),
            vektrid::overview_words(&words, scramble, level, cells, &mut overviewed),
        ];
        Answer { calls, standard, filled, overviewed }
    }

    fn outcome(answer: &Answer) -> u32 {
        same::outcome(&answer.calls[0])
    }

    /// Nothing in it is large.
    fn simpler(&self) -> Vec<WordCount> {
        Vec::new()
    }

    fn test(&self) -> String {
        let WordCount { length, scramble, level, walk, cell } = self;
        let (index, Cell { m, a, column, row, block }) = (walk.next, cell);
        let refused = "Some(Refusal::WordCount)";
        format!(
            "{}\n\
             let mut words = [{MARK}; {length}];\n\
             let (mut xs, mut ys) = ([{MARK}; 3], [{MARK}; 4]);\n\
             assert_eq!(standard_words(&mut words).err(), {refused});\n\
             assert_eq!(check_words(&words, {level}).err(), {refused});\n\
             assert_eq!(point_words(&words, scramble, {index}).err(), {refused});\n\
             assert_eq!(point_singles_words(&words, scramble, {index}).err(), {refused});\n\
             let filled = fill_words(&words, scramble, {index}, &mut xs, &mut ys);\n\
             assert_eq!(filled.err(), {refused});\n\
             assert_eq!({walk:?}.step_words(&words, scramble).err(), {refused});\n\
             assert_eq!({walk:?}.step_singles_words(&words, scramble).err(), {refused});\n\
             let answer = query_words(&words, scramble, {level}, {cell:?});\n\
             assert_eq!(answer.err(), {refused});\n\
             let (columns, rows, mut answers) = (&[{column}], &[{row}; 3], [{MARK}; 2]);\n\
             let cells = Cells {{ m: {m}, a: {a}, columns, rows, block: {block} }};\n\
             let answer = overview_words(&words, scramble, {level}, cells, &mut answers);\n\
             assert_eq!(answer.err(), {refused});\n\
             assert_eq!((words, xs, ys), ([{MARK}; {length}], [{MARK}; 3], [{MARK}; 4]));\n\
             assert_eq!(answers, [{MARK}; 2]);",
            text::let_bytes(scramble)
        )
    }
}

impl WordCount {
    fn words(&self) -> Vec<u32> {
        vec![MARK; self.length]
    }
}
