//! The files to try, each made from the seed and its number alone.

use crate::region_file::RECORD_BYTES;
use crate::trial::damage::Damage;
use crate::trial::draft::Draft;
use crate::trial::splitmix::Splitmix;

/// Lengths about the limits. The last but one is of whole records.
const LENGTHS: [usize; 10] = [0, 31, 32, 33, 65_535, 65_536, 65_537, 65_568, 100_000, 100_001];

/// Of a hundred files one has a length of the list and one is a full chain;
/// more of them would only take time. They come last, so that a plain fault
/// is met in a small file.
pub fn make(seed: u64, number: u64) -> Vec<u8> {
    let mut random = Splitmix::of_case(seed, number);
    match number % 100 {
        0..=27 => Draft::any(&mut random).bytes(),
        28..=34 => random_bytes(&mut random),
        35..=41 => cut_anywhere(&mut random),
        42..=48 => cut_to_records(&mut random),
        49..=58 => flipped(&mut random),
        59..=77 => one_fault(&mut random, number),
        78..=97 => two_faults(&mut random, number),
        98 => of_length(&mut random, LENGTHS[(number / 100) as usize % LENGTHS.len()]),
        _ => full_chain(&mut random),
    }
}

/// Cut, or filled up with junk. Half of them name no first record, so that a
/// file of record 0 alone is accepted too.
fn of_length(random: &mut Splitmix, length: usize) -> Vec<u8> {
    let mut draft = Draft::any(random);
    if random.one_in(2) {
        draft.records[0][0] = 0;
    }
    let mut file = draft.bytes();
    file.resize_with(length, || random.word() as u8);
    file
}

/// Half of them are damaged, most of these a long way down the chain.
fn full_chain(random: &mut Splitmix) -> Vec<u8> {
    let mut draft = Draft::full(random);
    if random.one_in(2) {
        random.pick(&Damage::all()).put(&mut draft, random);
    }
    draft.bytes()
}

/// Half of them begin with a record 0 in order, or few would get past it.
fn random_bytes(random: &mut Splitmix) -> Vec<u8> {
    let more = if random.one_in(3) { random.below(32) } else { 0 };
    let length = random.below(8) * RECORD_BYTES as u32 + more;
    let mut file: Vec<u8> = (0..length).map(|_| random.word() as u8).collect();
    if random.one_in(2) && file.len() >= RECORD_BYTES {
        file[..RECORD_BYTES].fill(0);
        file[0] = random.below(8) as u8;
        file[4] = 1 + random.below(32) as u8;
    }
    file
}

fn cut_anywhere(random: &mut Splitmix) -> Vec<u8> {
    let mut file = Draft::any(random).bytes();
    file.truncate(random.below(file.len() as u32) as usize);
    file
}

fn cut_to_records(random: &mut Splitmix) -> Vec<u8> {
    let mut draft = Draft::any(random);
    draft.records.truncate(random.below(draft.records.len() as u32) as usize);
    draft.bytes()
}

fn flipped(random: &mut Splitmix) -> Vec<u8> {
    let mut file = Draft::any(random).bytes();
    for _ in 0..=random.below(4) {
        let at = random.below(file.len() as u32) as usize;
        file[at] ^= 1 << random.below(8);
    }
    file
}

/// The kinds of damage in turn, so that none is left out.
fn one_fault(random: &mut Splitmix, number: u64) -> Vec<u8> {
    let all = Damage::all();
    let mut draft = Draft::chained(random);
    all[number as usize % all.len()].put(&mut draft, random);
    draft.bytes()
}

/// A damage in turn and any other; now and then the file is cut as well.
fn two_faults(random: &mut Splitmix, number: u64) -> Vec<u8> {
    let all = Damage::all();
    let mut draft = Draft::chained(random);
    all[number as usize % all.len()].put(&mut draft, random);
    random.pick(&all).put(&mut draft, random);
    let mut file = draft.bytes();
    if random.one_in(8) {
        file.truncate(random.below(file.len() as u32) as usize);
    }
    file
}

#[cfg(test)]
mod tests {
    use super::*;
    use crate::refusal::Refusal;
    use crate::region_file::{chain, judged, Stopped};
    use crate::stage::LARGEST_EXTENT;
    use std::collections::BTreeSet;

    #[test]
    fn same_seed_and_number_make_the_same_file() {
        for number in 0..200 {
            assert_eq!(make(5, number), make(5, number));
        }
        assert_ne!(make(5, 2), make(6, 2));
        assert_ne!(make(5, 2), make(5, 3));
    }

    #[test]
    fn lengths_are_as_listed() {
        for (turn, length) in LENGTHS.into_iter().enumerate() {
            assert_eq!(make(5, 100 * turn as u64 + 98).len(), length);
        }
    }

    /// Every kind of damage comes up alone and as the first of two.
    #[test]
    fn damages_take_turns() {
        let all = Damage::all().len() as u64;
        for kinds in [59..78, 78..98] {
            let numbers = (0..2_000).filter(|number| kinds.contains(&(number % 100)));
            let turns: BTreeSet<u64> = numbers.map(|number| number % all).collect();
            assert_eq!(turns.len() as u64, all);
        }
    }

    #[test]
    fn first_files_have_every_outcome() {
        let outcome = |number| chain(&make(1, number)).map_or_else(Refusal::number, |_| 0);
        let outcomes: BTreeSet<u32> = (0..1_000).map(outcome).collect();
        assert_eq!(outcomes, BTreeSet::from([0, 2, 10, 11, 12, 13, 14, 15, 16]));
    }

    /// Among the accepted files some have no record and a field that fits
    /// nowhere, and some have records and a field that is felt.
    #[test]
    fn first_files_have_fields_of_every_kind() {
        let accepted = (0..1_000).filter_map(|number| chain(&make(1, number)).ok());
        let (mut wild, mut felt) = (0, 0);
        for chain in accepted {
            let largest = chain.field.width.max(chain.field.height);
            wild += u32::from(chain.records.is_empty() && largest > LARGEST_EXTENT);
            felt += u32::from(!chain.records.is_empty() && largest > 1);
        }
        assert!(wild > 5 && felt > 100, "{wild} {felt}");
    }

    /// How many links the chain has up to the one that this record holds.
    fn links_up_to(file: &[u8], holder: u32) -> u32 {
        let (mut links, mut at) = (1, 0);
        while at != holder {
            let link = &file[at as usize * RECORD_BYTES..][..4];
            at = u32::from_le_bytes([link[0], link[1], link[2], link[3]]);
            links += 1;
        }
        links
    }

    #[test]
    fn field_is_too_large_far_down_some_full_chains() {
        let full = (0..200).map(|turn| make(1, 100 * turn + 99));
        let far_down = full.filter(|file| match judged(file) {
            Err(Stopped { refusal: Refusal::Field, holder, .. }) => links_up_to(file, holder) > 200,
            _ => false,
        });
        let times = far_down.count();
        assert!(times > 0, "{times}");
    }
}
