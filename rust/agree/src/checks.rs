//! The check of a pair.

use reference::trial::splitmix::Splitmix;
use vektrid::Refusal;

use crate::case::Case;
use crate::pairs::{self, Words};
use crate::simpler::{simpler_pair, simpler_word};
use crate::{same, text};

#[derive(Clone, Copy)]
pub struct Check {
    words: Words,
    level: u32,
}

impl Case for Check {
    const NAME: &'static str = "check";
    const COUNT: u64 = 120_000;
    const OUTCOMES: &'static [u32] = &[0, 2, 3];
    type Answer = Result<(), Refusal>;

    /// The reference takes long at level 32, so few of the pairs that pass go there.
    fn make(random: &mut Splitmix, number: u64) -> Check {
        match number {
            0..=35 => Check { words: [0; 64], level: number as u32 },
            36..=435 => Check { words: pairs::scrambled(random), level: 32 },
            _ => {
                let level = if random.one_in(50) {
                    random.pick(&[0, 20, 31, 32, 33, u32::MAX])
                } else {
                    1 + random.below(12)
                };
                Check { words: pairs::of_turn(random, number), level }
            }
        }
    }

    fn expected(&self) -> Result<(), Refusal> {
        reference::check::check(&self.words, self.level).map_err(same::refusal)
    }

    fn given(&self) -> Result<(), Refusal> {
        same::bound(&self.words).check(self.level)
    }

    fn outcome(answer: &Result<(), Refusal>) -> u32 {
        same::outcome(answer)
    }

    fn simpler(&self) -> Vec<Check> {
        let mut simpler = Vec::new();
        simpler.extend(simpler_word(self.level).into_iter().map(|level| Check { level, ..*self }));
        simpler.extend(simpler_pair(&self.words).into_iter().map(|words| Check { words, ..*self }));
        simpler
    }

    fn test(&self) -> String {
        let (pair, answer) = (text::let_pair(&self.words), text::answer(&self.expected()));
        format!("{pair}\nassert_eq!(pair.check({}), {answer});", self.level)
    }
}
