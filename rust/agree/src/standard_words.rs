//! The words of the standard pair.

use reference::pair::Pair;
use reference::trial::splitmix::Splitmix;

use crate::case::Case;

#[derive(Clone, Copy)]
pub struct StandardWord {
    at: usize,
}

impl Case for StandardWord {
    const NAME: &'static str = "word of the standard pair";
    const COUNT: u64 = 64;
    const OUTCOMES: &'static [u32] = &[0];
    type Answer = u32;

    fn make(_: &mut Splitmix, number: u64) -> StandardWord {
        StandardWord { at: number as usize }
    }

    fn expected(&self) -> u32 {
        Pair::standard().words()[self.at]
    }

    fn given(&self) -> u32 {
        vektrid::Pair::standard().words()[self.at]
    }

    fn outcome(_: &u32) -> u32 {
        0
    }

    /// The first that differs is the simplest.
    fn simpler(&self) -> Vec<StandardWord> {
        Vec::new()
    }

    fn test(&self) -> String {
        format!("assert_eq!(Pair::standard().words()[{}], 0x{:08X});", self.at, self.expected())
    }
}
