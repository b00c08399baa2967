//! Walks opened at any start with any count.

use reference::trial::splitmix::Splitmix;
use vektrid::{Refusal, Walk};

use crate::case::Case;
use crate::limits::{wild, wild_count};
use crate::simpler::{simpler_number, simpler_word};
use crate::{same, text};

#[derive(Clone, Copy)]
pub struct Opening {
    start: u32,
    count: u64,
}

impl Case for Opening {
    const NAME: &'static str = "walk opened";
    const COUNT: u64 = 200_000;
    const OUTCOMES: &'static [u32] = &[0, 9];
    type Answer = Result<Walk, Refusal>;

    fn make(random: &mut Splitmix, number: u64) -> Opening {
        let start = wild(random);
        let places = (1u64 << 32) - u64::from(start);
        let count = match number % 4 {
            0 => places - 1,
            1 => places,
            2 => places + 1,
            _ => wild_count(random),
        };
        Opening { start, count }
    }

    fn expected(&self) -> Result<Walk, Refusal> {
        let walk = reference::walk::Walk::open(self.start, self.count).map_err(same::refusal)?;
        Ok(Walk { next: walk.next, left: walk.left })
    }

    fn given(&self) -> Result<Walk, Refusal> {
        Walk::open(self.start, self.count)
    }

    fn outcome(answer: &Result<Walk, Refusal>) -> u32 {
        same::outcome(answer)
    }

    fn simpler(&self) -> Vec<Opening> {
        let counts = simpler_number(self.count).into_iter();
        let starts = simpler_word(self.start).into_iter();
        let fewer = counts.map(|count| Opening { count, ..*self });
        fewer.chain(starts.map(|start| Opening { start, ..*self })).collect()
    }

    fn test(&self) -> String {
        let answer = text::answer(&self.expected());
        format!("assert_eq!(Walk::open({}, {}), {answer});", self.start, self.count)
    }
}
