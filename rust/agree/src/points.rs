//! Points of single indexes: as words, as singles, and of the standard pair by the fast way; and flips
//! judged alone.

use reference::pair::Pair;
use reference::trial::splitmix::Splitmix;
use reference::unit;
use vektrid::{point_singles_words, point_words, standard_point_bytes, Point, Refusal, Singles};

use crate::case::Case;
use crate::limits::wild;
use crate::pairs::{self, Words};
use crate::scrambles::{self, Scrambled};
use crate::simpler::{simpler_pair, simpler_scramble, simpler_word};
use crate::{same, text};

#[derive(Clone, Copy)]
pub struct PointOf {
    words: Words,
    scramble: Scrambled,
    index: u32,
}

/// The bits of two singles, which tell +0.0 from -0.0.
pub type Bits = (u32, u32);

#[derive(Debug, PartialEq)]
pub struct Answer {
    point: Result<Point, Refusal>,
    singles: Result<Bits, Refusal>,
    standard: Result<Point, Refusal>,
    judged: Result<(), Refusal>,
}

impl Case for PointOf {
    const NAME: &'static str = "point";
    const COUNT: u64 = 300_000;
    const OUTCOMES: &'static [u32] = &[0, 17, 18];
    type Answer = Answer;

    fn make(random: &mut Splitmix, number: u64) -> PointOf {
        let (words, scramble) = (pairs::of_turn(random, number), scrambles::any(random));
        PointOf { words, scramble, index: wild(random) }
    }

    fn expected(&self) -> Answer {
        let scramble = self.scramble.reference();
        let point = same::pair(&self.words).point(self.index, scramble).map_err(same::refusal);
        let standard = Pair::standard().point(self.index, scramble).map_err(same::refusal);
        Answer {
            point: point.map(same::point),
            singles: point.map(expected_bits),
            standard: standard.map(same::point),
            judged: scramble.judge().map_err(same::refusal),
        }
    }

    fn given(&self) -> Answer {
        let PointOf { ref words, ref scramble, index } = *self;
        Answer {
            point: point_words(words, scramble.bytes(), index),
            singles: point_singles_words(words, scramble.bytes(), index).map(bits),
            standard: standard_point_bytes(scramble.bytes(), index),
            judged: scramble.judged().map(|_| ()),
        }
    }

    fn outcome(answer: &Answer) -> u32 {
        same::outcome(&answer.point)
    }

    fn simpler(&self) -> Vec<PointOf> {
        let mut simpler = Vec::new();
        let indexes = simpler_word(self.index).into_iter();
        simpler.extend(indexes.map(|index| PointOf { index, ..*self }));
        let scrambles = simpler_scramble(self.scramble).into_iter();
        simpler.extend(scrambles.map(|scramble| PointOf { scramble, ..*self }));
        let pairs = simpler_pair(&self.words).into_iter();
        simpler.extend(pairs.map(|words| PointOf { words, ..*self }));
        simpler
    }

    fn test(&self) -> String {
        let (index, Answer { point, singles, standard, judged }) = (self.index, self.expected());
        format!(
            "{}\n\
             {}\n\
             assert_eq!(point_words(pair.words(), scramble, {index}), {});\n\
             assert_eq!(standard_point_bytes(scramble, {index}), {});\n\
             let singles = point_singles_words(pair.words(), scramble, {index});\n\
             let bits = singles.map(|singles| (singles.x.to_bits(), singles.y.to_bits()));\n\
             assert_eq!(bits, {});\n\
             let judged = Flips::from_bytes(scramble.flips_x, scramble.flips_y).map(|_| ());\n\
             assert_eq!(judged, {});",
            text::let_pair(&self.words),
            text::let_bytes(&self.scramble),
            text::answer(&point),
            text::answer(&standard),
            text::answer(&singles),
            text::answer(&judged)
        )
    }
}

/// The bits of the reference's singles.
pub fn expected_bits(point: reference::pair::Point) -> Bits {
    let singles = unit::Singles::of(point);
    (singles.x.to_bits(), singles.y.to_bits())
}

pub fn bits(singles: Singles) -> Bits {
    (singles.x.to_bits(), singles.y.to_bits())
}
