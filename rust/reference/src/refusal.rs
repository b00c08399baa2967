//! The refusals 1 to 15 of document 01, and 16 (C-12), 17 and 18 (C-16) of
//! document 02, each with its number.

use std::fmt;

/// Why a call was refused. Only refusal 3 carries values.
#[derive(Clone, Copy, Debug, PartialEq, Eq)]
pub enum Refusal {
    /// 1: the pair has not 64 words.
    WordCount,
    /// 2: the level is not 1 to 32.
    Level,
    /// 3: not a net. The shape (m, a) has an even determinant, and j is the
    /// smallest index above 0 that shares the cell of index 0.
    NotNet { m: u32, a: u32, j: u32 },
    /// 4: m is above the level.
    SizeAboveLevel,
    /// 5: a is above m.
    ColumnBitsAboveSize,
    /// 6: the column or the row is outside the shape.
    Cell,
    /// 7: the block lies beyond the last index.
    Block,
    /// 8: the lent buffers differ in length.
    BufferLengths,
    /// 9: start + count is above 2^32.
    Count,
    /// 10: an edge or an extent of the region is outside its limits.
    Region,
    /// 11: the file is empty, over 65,536 bytes, or not whole records.
    FileLength,
    /// 12: bytes 16 to 31 of record 0 are not all zero.
    HeadBytes,
    /// 13: the chain names a record that the file lacks.
    MissingRecord,
    /// 14: the chain returns to a record.
    Return,
    /// 15: the count of visits is above 4,096.
    VisitCount,
    /// 16: the reader's field is wider or taller than the region.
    Field,
    /// 17: the flips of an axis are not 32 bytes.
    FlipBytes,
    /// 18: flip bit 255 of either axis is set.
    FlipBit,
}

impl Refusal {
    /// The number in the refusal table.
    pub fn number(self) -> u32 {
        match self {
            Refusal::WordCount => 1,
            Refusal::Level => 2,
            Refusal::NotNet { .. } => 3,
            Refusal::SizeAboveLevel => 4,
            Refusal::ColumnBitsAboveSize => 5,
            Refusal::Cell => 6,
            Refusal::Block => 7,
            Refusal::BufferLengths => 8,
            Refusal::Count => 9,
            Refusal::Region => 10,
            Refusal::FileLength => 11,
            Refusal::HeadBytes => 12,
            Refusal::MissingRecord => 13,
            Refusal::Return => 14,
            Refusal::VisitCount => 15,
            Refusal::Field => 16,
            Refusal::FlipBytes => 17,
            Refusal::FlipBit => 18,
        }
    }
}

impl fmt::Display for Refusal {
    fn fmt(&self, formatter: &mut fmt::Formatter<'_>) -> fmt::Result {
        write!(formatter, "refused {}", self.number())?;
        if let Refusal::NotNet { m, a, j } = self {
            write!(formatter, " {m} {a} {j}")?;
        }
        Ok(())
    }
}

#[cfg(test)]
mod tests {
    use super::*;

    #[test]
    fn written_with_number_and_values() {
        assert_eq!(Refusal::Cell.to_string(), "refused 6");
        let not_net = Refusal::NotNet { m: 2, a: 1, j: 2 };
        assert_eq!(not_net.to_string(), "refused 3 2 1 2");
    }

    #[test]
    fn numbers_run_from_one_to_eighteen() {
        let all = [
            Refusal::WordCount,
            Refusal::Level,
            Refusal::NotNet { m: 1, a: 0, j: 1 },
            Refusal::SizeAboveLevel,
            Refusal::ColumnBitsAboveSize,
            Refusal::Cell,
            Refusal::Block,
            Refusal::BufferLengths,
            Refusal::Count,
            Refusal::Region,
            Refusal::FileLength,
            Refusal::HeadBytes,
            Refusal::MissingRecord,
            Refusal::Return,
            Refusal::VisitCount,
            Refusal::Field,
            Refusal::FlipBytes,
            Refusal::FlipBit,
        ];
        let numbers: Vec<u32> = all.iter().map(|refusal| refusal.number()).collect();
        assert_eq!(numbers, (1..=18).collect::<Vec<u32>>());
    }
}
