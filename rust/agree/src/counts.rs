//! Counts that stop anywhere (C-15): how many of n consecutive visits each cell of a shape holds,
//! in what point calls, a fill and a walk give. Both planners must count the same, and the counts
//! of the library must lie within the bounds of the reference.

use std::ops::RangeInclusive;

use reference::counts::{cell_counts, count_bounds, count_bounds_from};
use reference::pair;
use reference::trial::splitmix::Splitmix;
use vektrid::{Pair, Point, Refusal, Walk};

use crate::case::Case;
use crate::pairs::{self, Words};
use crate::scrambles::{self, Scrambled};
use crate::simpler::{simpler_number, simpler_scramble};
use crate::{same, text};

const INDEXES: u64 = 1 << 32;

/// The largest shapes have 2^8 cells, so that a few hundred visits are fewer and more than a block.
const LARGEST_SIZE: u32 = 8;

#[derive(Clone, Copy)]
pub struct Count {
    /// Of a pair that the library accepts to the level m, where m is not 0.
    words: Words,
    /// Accepted.
    scramble: Scrambled,
    m: u32,
    a: u32,
    start: u64,
    n: u64,
    way: Way,
}

/// What gives the visits. A fill may begin before the first of them and end behind the last, and a
/// walk may be stepped on after its end, or have visits left.
#[derive(Clone, Copy, Debug)]
enum Way {
    Points,
    Fill { before: u64, behind: u64 },
    Walk { count: u64, steps: u64 },
}

/// The count of each cell, and the cells whose count leaves the bounds.
#[derive(Debug, PartialEq)]
pub struct Answer {
    counts: Vec<u64>,
    outside: Vec<usize>,
}

impl Case for Count {
    const NAME: &'static str = "count";
    const COUNT: u64 = 120_000;
    const OUTCOMES: &'static [u32] = &[0];
    type Answer = Answer;

    fn make(random: &mut Splitmix, number: u64) -> Count {
        let words = pairs::mostly_nets(random);
        let m = pairs::accepted_size(&words, random.below(LARGEST_SIZE + 1));
        let n = length(random, m);
        let start = start(random, m, n);
        let way = match number % 3 {
            0 => Way::Points,
            1 => Way::Fill {
                before: u64::from(random.below(90)).min(start),
                behind: u64::from(random.below(90)).min(INDEXES - start - n),
            },
            _ if random.one_in(2) => Way::Walk { count: n, steps: n + u64::from(random.below(3)) },
            _ => Way::Walk { count: INDEXES - start, steps: n },
        };
        let scramble = scrambles::accepted(random);
        Count { words, scramble, m, a: random.below(m + 1), start, n, way }
    }

    fn expected(&self) -> Answer {
        let (pair, scramble) = (same::pair(&self.words), self.scramble.reference());
        let points = (self.start..self.start + self.n)
            .map(|index| pair.point(index as u32, scramble).expect("the scramble is accepted"));
        let points: Vec<pair::Point> = points.collect();
        Answer { counts: cell_counts(&points, self.m, self.a), outside: Vec::new() }
    }

    fn given(&self) -> Answer {
        let points =
            self.points(&same::bound(&self.words)).expect("range and scramble are accepted");
        let points: Vec<pair::Point> =
            points.iter().map(|point| pair::Point { x: point.x, y: point.y }).collect();
        let (counts, bounds) = (cell_counts(&points, self.m, self.a), self.bounds());
        let outside = (0..counts.len()).filter(|&cell| !bounds.contains(&counts[cell])).collect();
        Answer { counts, outside }
    }

    fn outcome(_: &Answer) -> u32 {
        0
    }

    /// Nothing but the standard pair comes in the place of a pair, or it might not be accepted.
    fn simpler(&self) -> Vec<Count> {
        let Count { start, n, .. } = *self;
        let mut simpler = Vec::new();
        if !matches!(self.way, Way::Points) {
            simpler.push(Count { way: Way::Points, ..*self });
        }
        if self.words != pairs::standard() {
            simpler.push(Count { words: pairs::standard(), ..*self });
        }
        let lengths = simpler_number(n).into_iter().filter(|&n| n > 0);
        simpler.extend(lengths.map(|n| self.moved(start, n)));
        simpler.extend(simpler_number(start).into_iter().map(|start| self.moved(start, n)));
        let scrambles = simpler_scramble(self.scramble).into_iter();
        simpler.extend(scrambles.map(|scramble| Count { scramble, ..*self }));
        simpler
    }

    fn test(&self) -> String {
        let Count { words, scramble, m, a, .. } = self;
        let (column_shift, row_shift, row_bits) = (32 - a, 32 - (m - a), m - a);
        format!(
            "{}\n\
             {}\n\
             {}\n\
             let mut counts = vec![0; {}];\n\
             for point in points {{\n    \
                 let column = u64::from(point.x) >> {column_shift};\n    \
                 let row = u64::from(point.y) >> {row_shift};\n    \
                 counts[(column << {row_bits} | row) as usize] += 1;\n\
             }}\n\
             assert!(counts.iter().all(|count| ({:?}).contains(count)));\n\
             assert_eq!(counts, {:?});",
            text::let_pair(words),
            text::let_scramble(scramble),
            self.let_points(),
            1 << m,
            self.bounds(),
            self.expected().counts
        )
    }
}

impl Count {
    /// The counts that the bounds for any start and those for this one allow.
    fn bounds(&self) -> RangeInclusive<u64> {
        let anywhere = count_bounds(self.n, self.m);
        let from_here = count_bounds_from(self.start, self.n, self.m);
        anywhere.0.max(from_here.0)..=anywhere.1.min(from_here.1)
    }

    /// The same for another range, where a fill is cut to the indexes and a walk just long enough.
    fn moved(&self, start: u64, n: u64) -> Count {
        let way = match self.way {
            Way::Points => Way::Points,
            Way::Fill { before, behind } => {
                Way::Fill { before: before.min(start), behind: behind.min(INDEXES - start - n) }
            }
            Way::Walk { .. } => Way::Walk { count: n, steps: n },
        };
        Count { start, n, way, ..*self }
    }

    /// The points of the range, by the library.
    fn points(&self, pair: &Pair) -> Result<Vec<Point>, Refusal> {
        let scramble = self.scramble.judged()?;
        match self.way {
            Way::Points => {
                let indexes = self.start..self.start + self.n;
                Ok(indexes.map(|index| pair.point(scramble, index as u32)).collect())
            }
            Way::Fill { before, behind } => {
                let (first, length) = (self.start - before, (before + self.n + behind) as usize);
                let (mut xs, mut ys) = (vec![0; length], vec![0; length]);
                pair.fill(scramble, first as u32, &mut xs, &mut ys)?;
                let filled = xs.iter().zip(&ys).map(|(&x, &y)| Point { x, y });
                Ok(filled.skip(before as usize).take(self.n as usize).collect())
            }
            Way::Walk { count, steps } => {
                let mut walk = Walk::open(self.start as u32, count)?;
                let mut points = Vec::new();
                for _ in 0..steps {
                    let (visit, after) = walk.step(pair, scramble);
                    points.extend(visit.map(|visit| visit.point));
                    walk = after;
                }
                Ok(points)
            }
        }
    }

    /// `let points = ..` of a test.
    fn let_points(&self) -> String {
        let Count { start, n, .. } = self;
        match self.way {
            Way::Points => format!(
                "let indexes = {start}u64..{};\n\
                 let points = indexes.map(|index| pair.point(scramble, index as u32));",
                start + n
            ),
            Way::Fill { before, behind } => format!(
                "let (mut xs, mut ys) = (vec![0; {length}], vec![0; {length}]);\n\
                 pair.fill(scramble, {}, &mut xs, &mut ys).unwrap();\n\
                 let filled = xs.iter().zip(&ys).map(|(&x, &y)| Point {{ x, y }});\n\
                 let points = filled.skip({before}).take({n});",
                start - before,
                length = before + n + behind
            ),
            Way::Walk { count, steps } => format!(
                "let mut walk = Walk::open({start}, {count}).unwrap();\n\
                 let points = (0..{steps}).filter_map(|_| {{\n    \
                     let (visit, after) = walk.step(&pair, scramble);\n    \
                     walk = after;\n    \
                     visit.map(|visit| visit.point)\n\
                 }});"
            ),
        }
    }
}

/// Lengths next to a multiple of a block, and any.
fn length(random: &mut Splitmix, m: u32) -> u64 {
    let near = (u64::from(random.below(5)) << m) + u64::from(random.below(4));
    let length =
        if random.one_in(2) { near.saturating_sub(2) } else { u64::from(random.below(400)) };
    length.max(1)
}

/// Starts next to the first index of a block, at both ends of the indexes, and any.
fn start(random: &mut Splitmix, m: u32, n: u64) -> u64 {
    let word = u64::from(random.word());
    let start = match random.below(4) {
        0 => (word >> m << m) + u64::from(random.below(3)),
        1 => (word >> m << m).saturating_sub(u64::from(random.below(3))),
        2 => random.pick(&[0, 1, INDEXES - n]),
        _ => word >> random.below(32),
    };
    start.min(INDEXES - n)
}

#[cfg(test)]
mod tests {
    use super::*;

    /// A shape whose determinant is even may leave the bounds, and no one would be at fault.
    #[test]
    fn sizes_are_accepted() {
        for number in 0..2_000 {
            let count = Count::make(&mut Splitmix::of_case(3, number), number);
            assert!(count.m == 0 || same::bound(&count.words).check(count.m) == Ok(()));
            assert!(count.a <= count.m && count.m <= LARGEST_SIZE);
            assert!(count.n > 0 && count.start + count.n <= INDEXES);
        }
    }

    /// Both bounds are met, so that the comparison feels one that is too narrow by 1.
    #[test]
    fn bounds_are_met() {
        let (mut least_met, mut most_met) = (0, 0);
        for number in 0..2_000 {
            let count = Count::make(&mut Splitmix::of_case(4, number), number);
            let (least, most) = count_bounds(count.n, count.m);
            if count.m > 0 && least > 0 {
                let counts = count.expected().counts;
                least_met += u32::from(counts.contains(&least));
                most_met += u32::from(counts.contains(&most));
            }
        }
        assert!(least_met >= 40 && most_met >= 40, "{least_met} {most_met}");
    }
}
