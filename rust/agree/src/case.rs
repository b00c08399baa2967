//! What a case is, and how all the cases of a kind are compared.

use std::fmt::Debug;
use std::time::{Duration, Instant};

use reference::trial::splitmix::Splitmix;

use crate::tally::Tally;

/// The search for a smaller case ends then even if more could be found.
const PATIENCE: Duration = Duration::from_secs(15);

/// How much of an answer is shown.
const SHOWN: usize = 800;

/// One input of a call, to which both planners give an answer.
pub trait Case: Clone {
    /// What is printed for the kind.
    const NAME: &'static str;
    /// How many cases there are.
    const COUNT: u64;
    /// The refusals that must come up, or the cases would say too little. 0 is accepted.
    const OUTCOMES: &'static [u32];
    type Answer: PartialEq + Debug;

    /// The case of a number. It depends on the number and the seed alone.
    fn make(random: &mut Splitmix, number: u64) -> Self;

    /// The answer of rust/reference.
    fn expected(&self) -> Self::Answer;

    /// The answer of the proved library.
    fn given(&self) -> Self::Answer;

    /// The number of the refusal in an answer, or 0.
    fn outcome(answer: &Self::Answer) -> u32;

    /// Simpler cases, the simplest first. Each must be simpler by a measure that cannot fall for
    /// ever, so that the search ends.
    fn simpler(&self) -> Vec<Self>;

    /// The body of a test that fails as long as the two differ.
    fn test(&self) -> String;

    fn differs(&self) -> bool {
        self.expected() != self.given()
    }

    /// A small case that differs as this one does.
    fn smallest(self) -> Self {
        simplified(self)
    }
}

/// Takes the first simpler case that still differs, until there is none.
pub fn simplified<C: Case>(mut case: C) -> C {
    let start = Instant::now();
    while start.elapsed() < PATIENCE {
        match case.simpler().into_iter().find(Case::differs) {
            Some(simpler) => case = simpler,
            None => break,
        }
    }
    case
}

/// Compares all cases of a kind and prints how many there were, or says where the two differ.
pub fn compare<C: Case>(seed: u64) -> Result<(), String> {
    let start = Instant::now();
    let mut tally = Tally::default();
    for number in 0..C::COUNT {
        let case = C::make(&mut Splitmix::of_case(seed, number), number);
        let expected = case.expected();
        if expected != case.given() {
            return Err(report(&case.smallest(), number));
        }
        tally.add(C::outcome(&expected));
    }
    tally.judge(C::OUTCOMES).map_err(|missing| format!("{}: {missing}", C::NAME))?;
    println!("{}: {tally}; {:.1} s", C::NAME, start.elapsed().as_secs_f64());
    Ok(())
}

fn report<C: Case>(smallest: &C, number: u64) -> String {
    format!(
        "{}: case {number} differs; the smallest one found, as the body of a test:\n\n{}\n\n\
         reference: {}\nlibrary:   {}",
        C::NAME,
        smallest.test(),
        shown(&smallest.expected()),
        shown(&smallest.given())
    )
}

/// An answer, cut where it is long.
fn shown(answer: &impl Debug) -> String {
    let text = format!("{answer:?}");
    match text.char_indices().nth(SHOWN) {
        Some((end, _)) => format!("{}..", &text[..end]),
        None => text,
    }
}

#[cfg(test)]
mod tests {
    use super::*;
    use crate::simpler::simpler_word;

    /// A planner that doubles, and one that is wrong from 77 on but for even numbers.
    #[derive(Clone, Debug, PartialEq)]
    struct Doubled(u32);

    impl Case for Doubled {
        const NAME: &'static str = "doubled";
        const COUNT: u64 = 200;
        const OUTCOMES: &'static [u32] = &[0];
        type Answer = u32;

        fn make(_: &mut Splitmix, number: u64) -> Doubled {
            Doubled(number as u32 + 20)
        }

        fn expected(&self) -> u32 {
            2 * self.0
        }

        fn given(&self) -> u32 {
            2 * self.0 + u32::from(self.0 >= 77 && self.0 % 2 == 1)
        }

        fn outcome(_: &u32) -> u32 {
            0
        }

        fn simpler(&self) -> Vec<Doubled> {
            simpler_word(self.0).into_iter().map(Doubled).collect()
        }

        fn test(&self) -> String {
            format!("assert_eq!(doubled({}), {});", self.0, self.expected())
        }
    }

    #[test]
    fn case_shrinks_to_the_smallest() {
        for number in [77, 79, 1_001, 0x7FFF_FFFF] {
            assert_eq!(Doubled(number).smallest(), Doubled(77));
        }
    }

    #[test]
    fn first_difference_is_reported() {
        let text = compare::<Doubled>(1).unwrap_err();
        assert!(text.starts_with("doubled: case 57 differs"));
        assert!(text.contains("assert_eq!(doubled(77), 154);"));
        assert!(text.ends_with("reference: 154\nlibrary:   155"));
    }
}
