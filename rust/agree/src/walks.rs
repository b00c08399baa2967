//! Steps of walks, opened or made by hand, each with words and with singles.

use reference::trial::splitmix::Splitmix;
use reference::walk::{self, Step};
use vektrid::{Refusal, Visit, Walk};

use crate::case::Case;
use crate::limits::{wild, wild_count};
use crate::pairs::{self, Words};
use crate::points::{bits, expected_bits, Bits};
use crate::scrambles::{self, Scrambled};
use crate::simpler::{simpler_number, simpler_pair, simpler_scramble, simpler_word};
use crate::{same, text};

#[derive(Clone, Copy)]
pub struct Steps {
    words: Words,
    scramble: Scrambled,
    walk: Walk,
    steps: u32,
}

/// What a step gives.
#[derive(Clone, Copy, Debug, PartialEq)]
pub struct Stepped {
    words: Result<(Option<Visit>, Walk), Refusal>,
    singles: Result<(Option<(u32, Bits)>, Walk), Refusal>,
}

impl Stepped {
    /// The walk after the step; a refused one leaves it as it was.
    fn after(&self, before: Walk) -> Walk {
        self.words.map_or(before, |(_, after)| after)
    }
}

impl Case for Steps {
    const NAME: &'static str = "walk stepped";
    const COUNT: u64 = 60_000;
    const OUTCOMES: &'static [u32] = &[0, 17, 18];
    type Answer = Vec<Stepped>;

    fn make(random: &mut Splitmix, number: u64) -> Steps {
        let next = match number % 3 {
            0 => u32::MAX - random.below(30),
            _ => wild(random),
        };
        let left = match random.below(4) {
            0 => 0,
            1 => wild_count(random),
            _ => u64::from(random.below(40)),
        };
        let (words, scramble) = (pairs::of_turn(random, number), scrambles::any(random));
        Steps { words, scramble, walk: Walk { next, left }, steps: 1 + random.below(40) }
    }

    fn expected(&self) -> Vec<Stepped> {
        let (pair, scramble) = (same::pair(&self.words), self.scramble.reference());
        self.all(|Walk { next, left }| {
            let (step, after) = walk::Walk { next, left }.step(&pair, scramble);
            let after = Walk { next: after.next, left: after.left };
            match step.map_err(same::refusal) {
                Ok(Step::Ended) => Stepped { words: Ok((None, after)), singles: Ok((None, after)) },
                Ok(Step::Visit { index, point }) => {
                    let visit = Visit { index, point: same::point(point) };
                    let singles = (index, expected_bits(point));
                    Stepped { words: Ok((Some(visit), after)), singles: Ok((Some(singles), after)) }
                }
                Err(refusal) => Stepped { words: Err(refusal), singles: Err(refusal) },
            }
        })
    }

    fn given(&self) -> Vec<Stepped> {
        let (words, scramble) = (&self.words, self.scramble.bytes());
        self.all(|walk| {
            let singles = walk.step_singles_words(words, scramble).map(|(visit, after)| {
                (visit.map(|visit| (visit.index, bits(visit.singles))), after)
            });
            Stepped { words: walk.step_words(words, scramble), singles }
        })
    }

    fn outcome(steps: &Vec<Stepped>) -> u32 {
        same::outcome(&steps[0].words)
    }

    fn simpler(&self) -> Vec<Steps> {
        let mut simpler = self.fewer();
        let Walk { next, left } = self.walk;
        let starts = simpler_word(next).into_iter().map(|next| Walk { next, left });
        let counts = simpler_number(left).into_iter().map(|left| Walk { next, left });
        simpler.extend(starts.chain(counts).map(|walk| Steps { walk, ..*self }));
        let scrambles = simpler_scramble(self.scramble).into_iter();
        simpler.extend(scrambles.map(|scramble| Steps { scramble, ..*self }));
        simpler.extend(simpler_pair(&self.words).into_iter().map(|words| Steps { words, ..*self }));
        simpler
    }

    fn test(&self) -> String {
        let mut walk = self.walk;
        let mut lines = vec![
            text::let_pair(&self.words),
            text::let_bytes(&self.scramble),
            "let bits = |one: SinglesVisit| (one.index, (one.singles.x.to_bits(), \
             one.singles.y.to_bits()));"
                .to_string(),
        ];
        for step in self.expected() {
            lines.push(format!(
                "assert_eq!({walk:?}.step_words(pair.words(), scramble), {});\n\
                 let step = {walk:?}.step_singles_words(pair.words(), scramble);\n\
                 assert_eq!(step.map(|(visit, after)| (visit.map(bits), after)), {});",
                text::answer(&step.words),
                text::answer(&step.singles)
            ));
            walk = step.after(walk);
        }
        lines.join("\n")
    }
}

impl Steps {
    /// All the steps, each from the walk that the one before it handed back.
    fn all(&self, step: impl Fn(Walk) -> Stepped) -> Vec<Stepped> {
        let mut walk = self.walk;
        let mut all = Vec::new();
        for _ in 0..self.steps {
            let stepped = step(walk);
            walk = stepped.after(walk);
            all.push(stepped);
        }
        all
    }

    /// The first step alone, or the steps behind it.
    fn fewer(&self) -> Vec<Steps> {
        if self.steps == 1 {
            return Vec::new();
        }
        let behind = self.expected()[0].after(self.walk);
        vec![Steps { steps: 1, ..*self }, Steps { walk: behind, steps: self.steps - 1, ..*self }]
    }
}
