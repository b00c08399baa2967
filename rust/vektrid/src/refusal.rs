//! The refusals, each with its number and its words. Both are those of the table in
//! `docs/REFUSALS.md`, against which `tools/refusals` holds this file.

use std::error::Error;
use std::fmt;

/// Why a call was refused: an error with its number in the refusal table, `docs/REFUSALS.md` of the
/// repository.
///
/// ```
/// let refusal = vektrid::Walk::open(4_294_967_295, 2).unwrap_err();
/// assert_eq!(refusal, vektrid::Refusal::IndexRange);
/// assert_eq!(refusal.number(), 9);
/// assert_eq!(refusal.to_string(), "refusal 9: start + count is above 2^32");
/// ```
#[derive(Clone, Copy, Debug, PartialEq, Eq, Hash)]
// Later requests bring more of them.
#[non_exhaustive]
pub enum Refusal {
    /// 1: a pair is not 64 words.
    WordCount,
    /// 2: a level is not 1 to 32.
    Level,
    /// 3: not a net.
    ///
    /// An elementary interval (cell) holds two visits.
    NotNet {
        /// The size of the shape: 2^m visits and as many cells.
        m: u32,
        /// The shape has 2^a columns.
        a: u32,
        /// The least index above 0 in the cell of index 0.
        j: u32,
    },
    /// 4: m is above the level.
    Size,
    /// 5: a is above m.
    Shape,
    /// 6: the column or the row is outside the shape.
    Cell,
    /// 7: the block lies beyond the last index.
    Block,
    /// 8: two buffers differ in length.
    BufferLengths,
    /// 9: start + count is above 2^32.
    IndexRange,
    /// 10: an edge or an extent of a region is outside its limits.
    Region,
    /// 11: a file is empty, over 65,536 bytes, or not whole records of 32 bytes.
    FileLength,
    /// 12: bytes 16 to 31 of record 0 are not all zero.
    ReservedBytes,
    /// 13: the chain names a record that the file lacks.
    MissingRecord,
    /// 14: the chain returns to a record.
    ChainReturns,
    /// 15: a record has more than 4,096 visits.
    VisitCount,
    /// 16: the reader's field is wider or taller than a region.
    Field,
    /// 17: the flips of an axis are not 32 bytes.
    FlipBytes,
    /// 18: flip bit 255 of an axis is set.
    FlipBit,
}

/// The refusals without values.
const PLAIN: [Refusal; 17] = [
    Refusal::WordCount,
    Refusal::Level,
    Refusal::Size,
    Refusal::Shape,
    Refusal::Cell,
    Refusal::Block,
    Refusal::BufferLengths,
    Refusal::IndexRange,
    Refusal::Region,
    Refusal::FileLength,
    Refusal::ReservedBytes,
    Refusal::MissingRecord,
    Refusal::ChainReturns,
    Refusal::VisitCount,
    Refusal::Field,
    Refusal::FlipBytes,
    Refusal::FlipBit,
];

/// What a call without refusal 3 answered.
pub(crate) fn judged(number: u32) -> Result<(), Refusal> {
    if number == 0 {
        return Ok(());
    }
    match PLAIN.into_iter().find(|refusal| refusal.number() == number) {
        Some(refusal) => Err(refusal),
        // The proofs rule it out, so the archive is not the one of this crate.
        None => panic!("the archive is another one: it answered {number}"),
    }
}

/// What a call answered that has put the values of refusal 3 into these words.
pub(crate) fn judged_net(number: u32, m: u32, a: u32, j: u32) -> Result<(), Refusal> {
    let not_net = Refusal::NotNet { m, a, j };
    if number == not_net.number() {
        return Err(not_net);
    }
    judged(number)
}

impl Refusal {
    /// The number in the refusal table, 1 to 18.
    pub fn number(self) -> u32 {
        match self {
            Refusal::WordCount => 1,
            Refusal::Level => 2,
            Refusal::NotNet { .. } => 3,
            Refusal::Size => 4,
            Refusal::Shape => 5,
            Refusal::Cell => 6,
            Refusal::Block => 7,
            Refusal::BufferLengths => 8,
            Refusal::IndexRange => 9,
            Refusal::Region => 10,
            Refusal::FileLength => 11,
            Refusal::ReservedBytes => 12,
            Refusal::MissingRecord => 13,
            Refusal::ChainReturns => 14,
            Refusal::VisitCount => 15,
            Refusal::Field => 16,
            Refusal::FlipBytes => 17,
            Refusal::FlipBit => 18,
        }
    }

    fn words(self) -> &'static str {
        match self {
            Refusal::WordCount => "a pair is not 64 words",
            Refusal::Level => "a level is not 1 to 32",
            Refusal::NotNet { .. } => "not a net",
            Refusal::Size => "m is above the level",
            Refusal::Shape => "a is above m",
            Refusal::Cell => "the column or the row is outside the shape",
            Refusal::Block => "the block lies beyond the last index",
            Refusal::BufferLengths => "two buffers differ in length",
            Refusal::IndexRange => "start + count is above 2^32",
            Refusal::Region => "an edge or an extent of a region is outside its limits",
            Refusal::FileLength => {
                "a file is empty, over 65,536 bytes, or not whole records of 32 bytes"
            }
            Refusal::ReservedBytes => "bytes 16 to 31 of record 0 are not all zero",
            Refusal::MissingRecord => "the chain names a record that the file lacks",
            Refusal::ChainReturns => "the chain returns to a record",
            Refusal::VisitCount => "a record has more than 4,096 visits",
            Refusal::Field => "the reader's field is wider or taller than a region",
            Refusal::FlipBytes => "the flips of an axis are not 32 bytes",
            Refusal::FlipBit => "flip bit 255 of an axis is set",
        }
    }
}

impl fmt::Display for Refusal {
    fn fmt(&self, formatter: &mut fmt::Formatter<'_>) -> fmt::Result {
        write!(formatter, "refusal {}: {}", self.number(), self.words())?;
        if let Refusal::NotNet { m, a, j } = self {
            write!(formatter, ": index {j} shares a cell of the shape ({m}, {a}) with index 0")?;
        }
        Ok(())
    }
}

impl Error for Refusal {}
