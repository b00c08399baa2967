//! A region file in order, still as fields, so that it can be damaged.

use crate::region_file::{file_of, Fields};
use crate::trial::splitmix::Splitmix;

/// The places of the fields in a record. The first record's number stands in
/// record 0 where the others have the next one's.
pub const NEXT: usize = 0;
pub const LEVEL: usize = 1;
/// The reader's field, in record 0.
pub const FIELD_WIDTH: usize = 2;
pub const FIELD_HEIGHT: usize = 3;
pub const LEFT: usize = 1;
pub const TOP: usize = 2;
pub const WIDTH: usize = 3;
pub const HEIGHT: usize = 4;
pub const COUNT: usize = 7;

/// The records, and the numbers of the chain in its order.
pub struct Draft {
    pub records: Vec<Fields>,
    pub chain: Vec<u32>,
}

impl Draft {
    /// A chain in shuffled order, with a field that fits into all its regions.
    /// The records off the chain hold junk, which would be refused if anyone
    /// looked at it. Half of the drafts have a least extent, or the field of a
    /// long chain could only be small.
    pub fn new(random: &mut Splitmix, on_chain: u32, off_chain: u32) -> Draft {
        let mut chain: Vec<u32> = (1..=on_chain + off_chain).collect();
        random.shuffle(&mut chain);
        let mut records: Vec<Fields> = (0..=chain.len()).map(|_| junk(random)).collect();
        records[0] = [0, 1 + random.below(32), 0, 0, 0, 0, 0, 0];
        chain.truncate(on_chain as usize);
        let least = if random.one_in(2) { 1 } else { 1 + random.below(2_000) };
        let mut last = 0;
        for &number in &chain {
            records[last][NEXT] = number;
            last = number as usize;
            records[last] = in_order(random, least);
        }
        let mut draft = Draft { records, chain };
        draft.records[0][FIELD_WIDTH] = field(random, draft.smallest(WIDTH));
        draft.records[0][FIELD_HEIGHT] = field(random, draft.smallest(HEIGHT));
        draft
    }

    /// The smallest width or height on the chain, by its place in a record. No
    /// record limits the field where the chain has none.
    pub fn smallest(&self, extent: usize) -> u32 {
        let extents = self.chain.iter().map(|&number| self.records[number as usize][extent]);
        extents.min().unwrap_or(u32::MAX)
    }

    /// Up to twelve records on the chain, and sometimes none.
    pub fn any(random: &mut Splitmix) -> Draft {
        let on_chain = if random.one_in(16) { 0 } else { 1 + random.below(12) };
        let off_chain = if random.one_in(2) { 0 } else { random.below(5) };
        Draft::new(random, on_chain, off_chain)
    }

    /// At least one record on the chain, so that there is one to damage.
    pub fn chained(random: &mut Splitmix) -> Draft {
        let (on_chain, off_chain) = (1 + random.below(6), random.below(4));
        Draft::new(random, on_chain, off_chain)
    }

    /// A chain of all the 2,047 records there can be. The counts are cut to 0
    /// or 1, or its listing would be longer than all the others.
    pub fn full(random: &mut Splitmix) -> Draft {
        let mut draft = Draft::new(random, 2_047, 0);
        for record in &mut draft.records[1..] {
            record[COUNT] &= 1;
        }
        draft
    }

    pub fn bytes(&self) -> Vec<u8> {
        file_of(&self.records)
    }
}

fn junk(random: &mut Splitmix) -> Fields {
    std::array::from_fn(|_| random.word())
}

/// A record in order, at the end of the chain, with at least these extents.
fn in_order(random: &mut Splitmix, least: u32) -> Fields {
    let (left, top) = (edge(random), edge(random));
    let (width, height) = (extent(random).max(least), extent(random).max(least));
    let (x, y) = (shift(random), shift(random));
    [0, left as u32, top as u32, width, height, x, y, count(random)]
}

fn edge(random: &mut Splitmix) -> i32 {
    match random.below(8) {
        0 => random.pick(&[-1_000_000, 1_000_000]),
        1 => random.below(7) as i32 - 3,
        _ => random.below(2_000_001) as i32 - 1_000_000,
    }
}

fn extent(random: &mut Splitmix) -> u32 {
    match random.below(8) {
        0 => random.pick(&[1, 1_000_000]),
        1 => 1 + random.below(5),
        _ => 1 + random.below(1_000_000),
    }
}

/// A width or height of the field, up to the largest that fits. Often it is 0,
/// as in older files, and often small.
fn field(random: &mut Splitmix, largest: u32) -> u32 {
    match random.below(8) {
        0..=2 => 0,
        3 | 4 => largest.min(1 + random.below(400)),
        5 => largest,
        _ => 1 + random.below(largest),
    }
}

fn shift(random: &mut Splitmix) -> u32 {
    match random.below(4) {
        0 => 0,
        1 => 1 << random.below(32),
        _ => random.word(),
    }
}

/// Mostly small, or the listings would be long for little gain.
fn count(random: &mut Splitmix) -> u32 {
    match random.below(400) {
        0 => 1_000 + random.below(3_097),
        1..=15 => random.below(120),
        _ => random.below(9),
    }
}

#[cfg(test)]
mod tests {
    use super::*;
    use crate::region_file::chain;

    #[test]
    fn drafts_are_accepted_with_their_chain() {
        for number in 0..500 {
            let draft = Draft::any(&mut Splitmix::of_case(7, number));
            let records = chain(&draft.bytes()).unwrap().records;
            let numbers: Vec<u32> = records.iter().map(|record| record.number).collect();
            assert_eq!(numbers, draft.chain);
        }
    }

    /// Each axis of many drafts: the field, and the smallest extent on the chain.
    fn fields_and_limits() -> Vec<(u32, u32)> {
        let drafts = (0..500).map(|number| Draft::any(&mut Splitmix::of_case(7, number)));
        let axes = drafts.flat_map(|draft| {
            let axis = |field: usize, extent| (draft.records[0][field], draft.smallest(extent));
            [axis(FIELD_WIDTH, WIDTH), axis(FIELD_HEIGHT, HEIGHT)]
        });
        axes.collect()
    }

    #[test]
    fn fields_are_of_every_kind() {
        let all = fields_and_limits();
        let count = |is_so: fn(u32, u32) -> bool| {
            all.iter().filter(|&&(field, limit)| is_so(field, limit)).count()
        };
        assert!(count(|field, _| field == 0) > 200);
        assert!(count(|field, _| (1..=400).contains(&field)) > 200);
        assert!(count(|field, limit| field == limit && (2..=1_000_000).contains(&field)) > 50);
        assert!(count(|field, limit| 400 < field && field < limit) > 50);
        // Without records on the chain.
        assert!(count(|field, limit| field > 1_000_000 && limit == u32::MAX) > 10);
    }

    #[test]
    fn full_draft_has_the_largest_length() {
        let file = Draft::full(&mut Splitmix::of_case(7, 7)).bytes();
        assert_eq!(file.len(), 65_536);
        assert_eq!(chain(&file).unwrap().records.len(), 2_047);
    }
}
