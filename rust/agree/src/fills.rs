//! Fills, into the middle of larger buffers whose other places are compared too.

use reference::trial::splitmix::Splitmix;
use vektrid::{fill_words, Refusal};

use crate::case::Case;
use crate::pairs::{self, Words};
use crate::scrambles::{self, Scrambled};
use crate::simpler::{simpler_number, simpler_pair, simpler_scramble, simpler_word};
use crate::{same, text};

/// What the buffers hold before a fill.
const MARK: u32 = 0xDEAD_BEEF;

const SHORT: u64 = 60_000;
const ACROSS: u64 = 400;
const TABLES: u64 = 300;
const LONG: u64 = 20;

#[derive(Clone, Copy)]
pub struct Fill {
    words: Words,
    scramble: Scrambled,
    start: u32,
    x_length: usize,
    y_length: usize,
    /// The places before those lent, so that these lie anywhere in memory.
    before: usize,
    /// The places behind them.
    behind: usize,
}

/// The answer and the whole buffers.
type Answer = (Result<(), Refusal>, Vec<u32>, Vec<u32>);

impl Case for Fill {
    const NAME: &'static str = "fill";
    const COUNT: u64 = SHORT + ACROSS + TABLES + LONG;
    const OUTCOMES: &'static [u32] = &[0, 8, 9, 17, 18];
    type Answer = Answer;

    fn make(random: &mut Splitmix, number: u64) -> Fill {
        // The long ones come last, so that a plain fault is met in a short one.
        let (start, x_length) = if number < SHORT {
            short(random, number)
        } else if number < SHORT + ACROSS {
            across_a_power(random)
        } else if number < SHORT + ACROSS + TABLES {
            about_the_tables(random)
        } else {
            long(random)
        };
        let y_length = match random.below(20) {
            0 => x_length + 1,
            1 => x_length.saturating_sub(1),
            2 => random.below(300) as usize,
            _ => x_length,
        };
        let (words, scramble) = (pairs::of_turn(random, number), scrambles::any(random));
        let before = 8 + random.below(16) as usize;
        Fill { words, scramble, start, x_length, y_length, before, behind: 20 }
    }

    fn expected(&self) -> Answer {
        let (pair, scramble) = (same::pair(&self.words), self.scramble.reference());
        self.answer(|xs, ys| {
            reference::fill::fill(&pair, scramble, self.start, xs, ys).map_err(same::refusal)
        })
    }

    fn given(&self) -> Answer {
        self.answer(|xs, ys| fill_words(&self.words, self.scramble.bytes(), self.start, xs, ys))
    }

    fn outcome((answer, _, _): &Answer) -> u32 {
        same::outcome(answer)
    }

    fn simpler(&self) -> Vec<Fill> {
        let mut simpler = self.shorter();
        simpler.extend((self.before > 0).then_some(Fill { before: 0, ..*self }));
        simpler.extend((self.behind > 0).then_some(Fill { behind: 0, ..*self }));
        simpler.extend(simpler_word(self.start).into_iter().map(|start| Fill { start, ..*self }));
        let scrambles = simpler_scramble(self.scramble).into_iter();
        simpler.extend(scrambles.map(|scramble| Fill { scramble, ..*self }));
        simpler.extend(simpler_pair(&self.words).into_iter().map(|words| Fill { words, ..*self }));
        simpler
    }

    fn test(&self) -> String {
        let Fill { words, scramble, start, x_length, y_length, before, .. } = self;
        let (answer, xs, ys) = self.expected();
        let (x_end, y_end) = (before + x_length, before + y_length);
        format!(
            "{}\n\
             {}\n\
             let (mut xs, mut ys) = (vec![{MARK}; {}], vec![{MARK}; {}]);\n\
             let (x_part, y_part) = (&mut xs[{before}..{x_end}], &mut ys[{before}..{y_end}]);\n\
             let answer = fill_words(pair.words(), scramble, {start}, x_part, y_part);\n\
             assert_eq!(answer, {});\n\
             assert_eq!(xs, {xs:?});\n\
             assert_eq!(ys, {ys:?});",
            text::let_pair(words),
            text::let_bytes(scramble),
            xs.len(),
            ys.len(),
            text::answer(&answer)
        )
    }
}

impl Fill {
    fn answer(&self, fill: impl Fn(&mut [u32], &mut [u32]) -> Result<(), Refusal>) -> Answer {
        let (x_end, y_end) = (self.before + self.x_length, self.before + self.y_length);
        let (mut xs, mut ys) = (vec![MARK; x_end + self.behind], vec![MARK; y_end + self.behind]);
        let answer = fill(&mut xs[self.before..x_end], &mut ys[self.before..y_end]);
        (answer, xs, ys)
    }

    /// With both buffers shorter by the same, or a fill would become one that is refused under 8.
    fn shorter(&self) -> Vec<Fill> {
        let common = self.x_length.min(self.y_length);
        let lengths = simpler_number(common as u64).into_iter();
        let cuts = lengths.map(|length| common - length as usize);
        let (x, y) = (self.x_length, self.y_length);
        cuts.map(|cut| Fill { x_length: x - cut, y_length: y - cut, ..*self }).collect()
    }
}

/// A start and a length: in turn near the last index, anywhere, and about multiples of 64.
fn short(random: &mut Splitmix, number: u64) -> (u32, usize) {
    match number % 3 {
        0 => {
            // The count just fits, or is one less or one more.
            let places = 1 + random.below(200);
            (u32::MAX - places + 1, (places + random.below(3)) as usize - 1)
        }
        1 => (random.word() >> random.below(32), random.below(201) as usize),
        _ => {
            let multiple = 64 * (random.word() >> 6 >> random.below(26));
            let start = multiple.wrapping_add(random.below(3)).wrapping_sub(1);
            let length = (64 * random.below(5) + random.below(3)).saturating_sub(1);
            (start, length as usize)
        }
    }
}

/// Some thousand places that pass a power of two from 2^12 to 2^32 on the way.
fn across_a_power(random: &mut Splitmix) -> (u32, usize) {
    let power = 1u64 << (12 + random.below(21));
    let start = power - u64::from(1 + random.below(3_000));
    (start as u32, random.below(6_000) as usize)
}

/// From 2^15 places on the library fills under flips in another way: lengths about that, in groups
/// of 64 that begin anywhere.
fn about_the_tables(random: &mut Splitmix) -> (u32, usize) {
    let length = (1 << 15) - 3 + random.below(200);
    ((random.word() >> random.below(20)).min(u32::MAX - length), length as usize)
}

/// Across the middle of the indexes, or near their end, where half do not fit.
fn long(random: &mut Splitmix) -> (u32, usize) {
    if random.one_in(2) {
        (u32::MAX / 2 - random.below(600_000), 1_000_000)
    } else {
        (u32::MAX - random.below(600_000), 300_000)
    }
}
