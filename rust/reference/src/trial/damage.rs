//! Damage to single fields: each set at its limit and just past it.

use crate::trial::draft::{
    Draft, COUNT, FIELD_HEIGHT, FIELD_WIDTH, HEIGHT, LEFT, LEVEL, NEXT, TOP, WIDTH,
};
use crate::trial::splitmix::Splitmix;

const LEVELS: [u32; 5] = [0, 1, 32, 33, u32::MAX];
const EDGES: [i32; 6] = [-1_000_001, -1_000_000, 1_000_000, 1_000_001, i32::MIN, i32::MAX];
const EXTENTS: [u32; 6] = [0, 1, 1_000_000, 1_000_001, 1 << 31, u32::MAX];
const COUNTS: [u32; 4] = [0, 4_096, 4_097, u32::MAX];
const SIZES: [Size; 8] = [
    Size::Word(0),
    Size::Word(1),
    Size::Extent,
    Size::PastExtent,
    Size::Word(1_000_000),
    Size::Word(1_000_001),
    Size::Word(1 << 31),
    Size::Word(u32::MAX),
];
const LINKS: [Link; 7] =
    [Link::Own, Link::Earlier, Link::Any, Link::RecordCount, Link::End, Link::Wrapping, Link::Huge];

#[derive(Clone, Copy, Debug)]
pub enum Damage {
    Level(u32),
    /// One of the bytes 16 to 31 of record 0.
    HeadByte,
    /// The width of the reader's field, in record 0.
    FieldWidth(Size),
    /// The height of the reader's field.
    FieldHeight(Size),
    /// A field of some record on the chain.
    Field(usize, u32),
    /// The number of the first record.
    First(Link),
    /// The next number in some record on the chain.
    Next(Link),
}

/// What is put for the width or the height of the reader's field.
#[derive(Clone, Copy, Debug)]
pub enum Size {
    Word(u32),
    /// The extent of some record on the chain.
    Extent,
    PastExtent,
}

/// Where a damaged link leads.
#[derive(Clone, Copy, Debug)]
pub enum Link {
    Own,
    /// A record before it on the chain, or itself.
    Earlier,
    /// Any record of the file, on the chain or off it.
    Any,
    /// The first number that no record has.
    RecordCount,
    End,
    /// A number whose byte offset, cut to 32 bits, is that of a record.
    Wrapping,
    Huge,
}

impl Damage {
    pub fn all() -> Vec<Damage> {
        let mut all = vec![Damage::HeadByte];
        all.extend(LEVELS.map(Damage::Level));
        all.extend(SIZES.map(Damage::FieldWidth));
        all.extend(SIZES.map(Damage::FieldHeight));
        for field in [LEFT, TOP] {
            all.extend(EDGES.map(|edge| Damage::Field(field, edge as u32)));
        }
        for field in [WIDTH, HEIGHT] {
            all.extend(EXTENTS.map(|extent| Damage::Field(field, extent)));
        }
        all.extend(COUNTS.map(|count| Damage::Field(COUNT, count)));
        all.extend(LINKS.map(Damage::First));
        all.extend(LINKS.map(Damage::Next));
        all
    }

    /// The chain of the draft has at least one record.
    pub fn put(self, draft: &mut Draft, random: &mut Splitmix) {
        let place = random.below(draft.chain.len() as u32) as usize;
        let record = draft.chain[place] as usize;
        match self {
            Damage::Level(level) => draft.records[0][LEVEL] = level,
            Damage::HeadByte => {
                let at = 16 + random.below(16) as usize;
                let byte = random.pick(&[0x01, 0x80, 0xFF]);
                draft.records[0][at / 4] |= byte << (8 * (at % 4));
            }
            Damage::FieldWidth(size) => {
                draft.records[0][FIELD_WIDTH] = size.beside(draft.records[record][WIDTH]);
            }
            Damage::FieldHeight(size) => {
                draft.records[0][FIELD_HEIGHT] = size.beside(draft.records[record][HEIGHT]);
            }
            Damage::Field(field, value) => draft.records[record][field] = value,
            Damage::First(link) => draft.records[0][NEXT] = link.number(draft, &[0], random),
            Damage::Next(link) => {
                draft.records[record][NEXT] = link.number(draft, &draft.chain[..=place], random);
            }
        }
    }
}

impl Size {
    /// The number to put beside this extent, which may be damaged itself: no
    /// word is past the largest.
    fn beside(self, extent: u32) -> u32 {
        match self {
            Size::Word(word) => word,
            Size::Extent => extent,
            Size::PastExtent => extent.saturating_add(1),
        }
    }
}

impl Link {
    /// The number to put into the last of the records that lead up to it.
    fn number(self, draft: &Draft, up_to: &[u32], random: &mut Splitmix) -> u32 {
        let record_count = draft.records.len() as u32;
        match self {
            Link::Own => up_to[up_to.len() - 1],
            Link::Earlier => random.pick(up_to),
            Link::Any => 1 + random.below(record_count - 1),
            Link::RecordCount => record_count,
            Link::End => 0,
            Link::Wrapping => random.below(record_count) | 1 << (27 + random.below(5)),
            Link::Huge => random.pick(&[u32::MAX, 1 << 31, 2_048, 65_536]),
        }
    }
}

#[cfg(test)]
mod tests {
    use super::*;
    use crate::refusal::Refusal;
    use crate::region_file::chain;

    /// The refusals that a damage gives over many drafts; 0 is accepted.
    fn outcomes(damage: Damage) -> Vec<u32> {
        let judge = |number| {
            let mut random = Splitmix::of_case(11, number);
            let mut draft = Draft::chained(&mut random);
            damage.put(&mut draft, &mut random);
            chain(&draft.bytes()).map_or_else(Refusal::number, |_| 0)
        };
        let mut numbers: Vec<u32> = (0..200).map(judge).collect();
        numbers.sort();
        numbers.dedup();
        numbers
    }

    #[test]
    fn limits_are_accepted_and_what_is_past_them_refused() {
        let expected = [
            (Damage::FieldWidth(Size::Word(0)), 0),
            (Damage::FieldHeight(Size::Word(1)), 0),
            (Damage::FieldWidth(Size::PastExtent), 16),
            (Damage::FieldHeight(Size::PastExtent), 16),
            (Damage::FieldWidth(Size::Word(1_000_001)), 16),
            (Damage::FieldHeight(Size::Word(u32::MAX)), 16),
            (Damage::HeadByte, 12),
            (Damage::Level(1), 0),
            (Damage::Level(33), 2),
            (Damage::Field(LEFT, 1_000_000), 0),
            (Damage::Field(LEFT, 1_000_001), 10),
            (Damage::Field(HEIGHT, 1_000_000), 0),
            (Damage::Field(HEIGHT, 0), 10),
            (Damage::Field(COUNT, 4_096), 0),
            (Damage::Field(COUNT, 4_097), 15),
            (Damage::First(Link::End), 0),
            (Damage::First(Link::RecordCount), 13),
            (Damage::Next(Link::Own), 14),
            (Damage::Next(Link::Earlier), 14),
            (Damage::Next(Link::RecordCount), 13),
            (Damage::Next(Link::End), 0),
            (Damage::Next(Link::Wrapping), 13),
            (Damage::Next(Link::Huge), 13),
        ];
        for (damage, outcome) in expected {
            assert_eq!(outcomes(damage), [outcome], "{damage:?}");
        }
    }

    /// A region shrunk to 1 is accepted where the field is not above it, and a
    /// field as large as one region where the others are no smaller.
    #[test]
    fn fields_and_regions_are_judged_together() {
        let either = [
            Damage::Field(WIDTH, 1),
            Damage::Field(HEIGHT, 1),
            Damage::FieldWidth(Size::Extent),
            Damage::FieldHeight(Size::Extent),
        ];
        for damage in either {
            assert_eq!(outcomes(damage), [0, 16], "{damage:?}");
        }
    }

    /// Of two damages the second may meet what the first has put.
    #[test]
    fn size_past_the_largest_extent_is_the_largest() {
        assert_eq!(Size::PastExtent.beside(u32::MAX), u32::MAX);
        assert_eq!(Size::PastExtent.beside(0), 1);
    }

    #[test]
    fn every_field_and_limit_is_there() {
        assert_eq!(Damage::all().len(), 1 + 5 + 2 * 8 + 2 * 6 + 2 * 6 + 4 + 2 * 7);
    }
}
