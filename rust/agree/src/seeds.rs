//! The scrambles that seeds name, which the bindings make themselves.

use reference::flips::{random_scramble, OwnedScramble, FLIP_BYTES};
use reference::trial::splitmix::Splitmix;
use vektrid::Scramble;

use crate::case::Case;
use crate::limits::wild_count;
use crate::simpler::simpler_number;

#[derive(Clone, Copy)]
pub struct Seed {
    seed: u64,
}

/// The two words of the shift and the flips of both axes.
type Answer = ([u32; 2], [[u8; FLIP_BYTES]; 2]);

impl Case for Seed {
    const NAME: &'static str = "scramble of a seed";
    const COUNT: u64 = 20_000;
    const OUTCOMES: &'static [u32] = &[0];
    type Answer = Answer;

    fn make(random: &mut Splitmix, number: u64) -> Seed {
        Seed { seed: if number < 1_000 { number } else { wild_count(random) } }
    }

    fn expected(&self) -> Answer {
        let OwnedScramble { shift, flips_x, flips_y } = random_scramble(self.seed);
        ([shift.x, shift.y], [flips_x, flips_y])
    }

    fn given(&self) -> Answer {
        let Scramble { shift, flips } = Scramble::random(self.seed);
        ([shift.x, shift.y], [*flips.x(), *flips.y()])
    }

    fn outcome(_: &Answer) -> u32 {
        0
    }

    fn simpler(&self) -> Vec<Seed> {
        simpler_number(self.seed).into_iter().map(|seed| Seed { seed }).collect()
    }

    fn test(&self) -> String {
        let ([x, y], [flips_x, flips_y]) = self.expected();
        format!(
            "let scramble = Scramble::random({});\n\
             assert_eq!(scramble.shift, Shift {{ x: 0x{x:08X}, y: 0x{y:08X} }});\n\
             assert_eq!(scramble.flips.x(), &{flips_x:?});\n\
             assert_eq!(scramble.flips.y(), &{flips_y:?});",
            self.seed
        )
    }
}
