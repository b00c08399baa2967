//! Walks: cursors over visits, stepped by value.

use std::iter::FusedIterator;

use crate::library;
use crate::pair::Pair;
use crate::points::{Point, JUDGED};
use crate::raw;
use crate::refusal::{judged, Refusal};
use crate::scramble::{Scramble, ScrambleBytes};
use crate::unit::Singles;

/// A cursor over visits (a walk). The fields are open: a walk made by hand is stepped too.
///
/// ```
/// use vektrid::{Pair, Point, Refusal, Shift, Visit, Walk};
///
/// let (pair, shift) = (Pair::standard(), Shift::default());
/// let walk = Walk::open(2, 1)?;
/// let (visit, walk) = walk.step(&pair, shift);
/// let point = Point { x: 0x4000_0000, y: 0xC000_0000 };
/// assert_eq!(visit, Some(Visit { index: 2, point }));
/// assert_eq!(walk.step(&pair, shift), (None, Walk { next: 3, left: 0 }));
/// # Ok::<(), Refusal>(())
/// ```
#[derive(Clone, Copy, Debug, PartialEq, Eq, Hash)]
pub struct Walk {
    /// The next index.
    pub next: u32,
    /// How many visits are left.
    pub left: u64,
}

/// An index with its point.
#[derive(Clone, Copy, Debug, PartialEq, Eq, Hash)]
pub struct Visit {
    /// The index.
    pub index: u32,
    /// Its point.
    pub point: Point,
}

/// An index with its point as two singles.
#[derive(Clone, Copy, Debug, PartialEq)]
pub struct SinglesVisit {
    /// The index.
    pub index: u32,
    /// Its point.
    pub singles: Singles,
}

impl Walk {
    /// A walk over `count` visits from `start` on. Refused under 9.
    pub fn open(start: u32, count: u64) -> Result<Walk, Refusal> {
        let mut walk = Walk { next: 0, left: 0 };
        // SAFETY: two fields of one variable.
        judged(library::call(|| unsafe {
            raw::vektrid_walk_open(start, count, &mut walk.next, &mut walk.left)
        }))?;
        Ok(walk)
    }

    /// The next visit, or none where the walk has ended, and the walk after the step.
    pub fn step(self, pair: &Pair, scramble: impl Into<Scramble>) -> (Option<Visit>, Walk) {
        let scramble = scramble.into();
        self.step_words(pair.words(), &scramble).expect(JUDGED)
    }

    /// The same with the point as two singles.
    pub fn step_singles(
        self,
        pair: &Pair,
        scramble: impl Into<Scramble>,
    ) -> (Option<SinglesVisit>, Walk) {
        let scramble = scramble.into();
        self.step_singles_words(pair.words(), &scramble).expect(JUDGED)
    }

    /// The visits that are left, one for each step.
    ///
    /// ```
    /// use vektrid::{Pair, Refusal, Shift, Walk};
    ///
    /// let pair = Pair::standard();
    /// let steps = Walk::open(4_294_967_293, 3)?.steps(&pair, Shift::default());
    /// let indexes: Vec<u32> = steps.map(|visit| visit.index).collect();
    /// assert_eq!(indexes, [4_294_967_293, 4_294_967_294, 4_294_967_295]);
    /// # Ok::<(), Refusal>(())
    /// ```
    pub fn steps(self, pair: &Pair, scramble: impl Into<Scramble>) -> Steps<'_> {
        Steps { walk: self, pair, scramble: scramble.into() }
    }

    /// A step for any number of words and bytes. Refused under 1, 17 or 18, in this order, also where
    /// the walk has ended.
    pub fn step_words<'a>(
        mut self,
        words: &[u32],
        scramble: impl Into<ScrambleBytes<'a>>,
    ) -> Result<(Option<Visit>, Walk), Refusal> {
        let ScrambleBytes { shift, flips_x, flips_y } = scramble.into();
        let (mut given, mut index, mut point) = (0, 0, Point { x: 0, y: 0 });
        // SAFETY: three lent slices with their lengths; the others are variables and fields, all
        // apart.
        judged(library::call(|| unsafe {
            raw::vektrid_walk_step(
                words.as_ptr(),
                words.len(),
                shift.x,
                shift.y,
                flips_x.as_ptr(),
                flips_x.len(),
                flips_y.as_ptr(),
                flips_y.len(),
                &mut self.next,
                &mut self.left,
                &mut given,
                &mut index,
                &mut point.x,
                &mut point.y,
            )
        }))?;
        Ok(((given != 0).then_some(Visit { index, point }), self))
    }

    /// A step with two singles for any number of words and bytes. Refused as [`Walk::step_words`] is.
    pub fn step_singles_words<'a>(
        mut self,
        words: &[u32],
        scramble: impl Into<ScrambleBytes<'a>>,
    ) -> Result<(Option<SinglesVisit>, Walk), Refusal> {
        let ScrambleBytes { shift, flips_x, flips_y } = scramble.into();
        let (mut given, mut index, mut singles) = (0, 0, Singles { x: 0.0, y: 0.0 });
        // SAFETY: as in `step_words`.
        judged(library::call(|| unsafe {
            raw::vektrid_walk_step_singles(
                words.as_ptr(),
                words.len(),
                shift.x,
                shift.y,
                flips_x.as_ptr(),
                flips_x.len(),
                flips_y.as_ptr(),
                flips_y.len(),
                &mut self.next,
                &mut self.left,
                &mut given,
                &mut index,
                &mut singles.x,
                &mut singles.y,
            )
        }))?;
        Ok(((given != 0).then_some(SinglesVisit { index, singles }), self))
    }
}

/// The visits of a walk, given by [`Walk::steps`].
#[derive(Clone, Debug)]
pub struct Steps<'a> {
    walk: Walk,
    pair: &'a Pair,
    scramble: Scramble,
}

impl Steps<'_> {
    /// The walk over the visits not given yet.
    pub fn walk(&self) -> Walk {
        self.walk
    }
}

impl Iterator for Steps<'_> {
    type Item = Visit;

    fn next(&mut self) -> Option<Visit> {
        let (visit, after) = self.walk.step(self.pair, self.scramble);
        self.walk = after;
        visit
    }
}

/// With no visits left a step changes nothing, so the end stays the end.
impl FusedIterator for Steps<'_> {}
