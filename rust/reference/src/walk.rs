//! The walk: visits one by one, each step handing back the walk after it.

use crate::fill::judge_count;
use crate::flips::Scramble;
use crate::pair::{Pair, Point};
use crate::refusal::Refusal;

/// The next index and the number of visits left. The fields are open, so a
/// walk may also be made by hand; a step takes any of them.
#[derive(Clone, Copy, Debug, PartialEq, Eq)]
pub struct Walk {
    pub next: u32,
    pub left: u64,
}

/// What a step gives.
#[derive(Clone, Copy, Debug, PartialEq, Eq)]
pub enum Step {
    Visit { index: u32, point: Point },
    Ended,
}

impl Walk {
    /// Refusal 9, or the walk at its start.
    pub fn open(start: u32, count: u64) -> Result<Walk, Refusal> {
        judge_count(start, count)?;
        Ok(Walk { next: start, left: count })
    }

    /// One step, and the walk after it. Refusals 17 and 18, in this order, come
    /// first, also for a walk that has ended; they hand it back as it was.
    pub fn step(self, pair: &Pair, scramble: Scramble<'_>) -> (Result<Step, Refusal>, Walk) {
        if let Err(refusal) = scramble.judge() {
            return (Err(refusal), self);
        }
        if self.left == 0 {
            return (Ok(Step::Ended), self);
        }
        let index = self.next;
        let point = scramble.scrambled(pair.product(index));
        // No index follows the last one, so it ends the walk.
        let after = match index.checked_add(1) {
            Some(next) => Walk { next, left: self.left - 1 },
            None => Walk { next: index, left: 0 },
        };
        (Ok(Step::Visit { index, point }), after)
    }
}

#[cfg(test)]
mod tests {
    use super::*;
    use crate::flips::refused;
    use crate::pair::NO_SHIFT;
    use crate::random::Random;

    fn visit(pair: &Pair, scramble: Scramble<'_>, index: u32) -> Result<Step, Refusal> {
        let point = pair.point(index, scramble)?;
        Ok(Step::Visit { index, point })
    }

    #[test]
    fn opening_is_judged_by_nine() {
        assert_eq!(Walk::open(u32::MAX, 2), Err(Refusal::Count));
        assert_eq!(Walk::open(0, u64::MAX), Err(Refusal::Count));
        assert_eq!(Walk::open(u32::MAX, 1), Ok(Walk { next: u32::MAX, left: 1 }));
        assert_eq!(Walk::open(u32::MAX, 0), Ok(Walk { next: u32::MAX, left: 0 }));
        assert_eq!(Walk::open(0, 1 << 32), Ok(Walk { next: 0, left: 1 << 32 }));
    }

    #[test]
    fn three_cases_of_a_step() {
        let (pair, plain) = (Pair::standard(), Scramble::of_shift(NO_SHIFT));
        let ended = Walk { next: 7, left: 0 };
        assert_eq!(ended.step(&pair, plain), (Ok(Step::Ended), ended));
        let within = Walk { next: 7, left: 3 };
        let after = Walk { next: 8, left: 2 };
        assert_eq!(within.step(&pair, plain), (visit(&pair, plain, 7), after));
        for left in [1, 9, u64::MAX] {
            let last = Walk { next: u32::MAX, left };
            let after = Walk { next: u32::MAX, left: 0 };
            let expected = (visit(&pair, plain, u32::MAX), after);
            assert_eq!(last.step(&pair, plain), expected);
        }
    }

    /// Whether it has ended or not, at the last index too. A step in order from
    /// the walk handed back gives what it would have given before.
    #[test]
    fn refused_step_hands_the_walk_back_as_it_was() {
        let (pair, plain) = (Pair::standard(), Scramble::of_shift(NO_SHIFT));
        for next in [0, 7, u32::MAX] {
            for left in [0, 1, 3, u64::MAX] {
                let walk = Walk { next, left };
                for (scramble, number) in refused::all() {
                    let (step, after) = walk.step(&pair, scramble);
                    assert_eq!(step.map_err(Refusal::number), Err(number));
                    assert_eq!(after, Walk { next, left });
                    assert_eq!(after.step(&pair, plain), walk.step(&pair, plain));
                }
            }
        }
    }

    /// After n steps the visits are those of the first min(n, count) indexes,
    /// and every further step says that the walk has ended.
    #[test]
    fn list_of_steps() {
        let mut random = Random::from_seed(55);
        for turn in 0..60 {
            let (pair, owned) = (random.pair(turn), random.scramble());
            let scramble = owned.lent();
            let count = u64::from(random.word() % 20);
            // Half of the walks end exactly at the last index.
            let start = if turn % 2 == 0 { random.word() >> 1 } else { u32::MAX - 20 };
            let count = if turn % 2 == 0 { count } else { 21 };
            let mut walk = Walk::open(start, count).unwrap();
            for n in 0..count + 5 {
                let (step, after) = walk.step(&pair, scramble);
                let index = u64::from(start) + n;
                match step {
                    Ok(Step::Ended) => assert!(n >= count),
                    given => {
                        assert!(n < count);
                        assert_eq!(given, visit(&pair, scramble, index as u32));
                    }
                }
                walk = after;
            }
        }
    }
}
