//! What the reference says, in the words of the bindings, and the pair as each takes it.

use reference::{pair, refusal};
use vektrid::{Pair, Point, Refusal};

use crate::pairs::Words;

/// The refusal of the same meaning. Named one by one, so that a wrong number shows.
pub fn refusal(refusal: refusal::Refusal) -> Refusal {
    match refusal {
        refusal::Refusal::WordCount => Refusal::WordCount,
        refusal::Refusal::Level => Refusal::Level,
        refusal::Refusal::NotNet { m, a, j } => Refusal::NotNet { m, a, j },
        refusal::Refusal::SizeAboveLevel => Refusal::Size,
        refusal::Refusal::ColumnBitsAboveSize => Refusal::Shape,
        refusal::Refusal::Cell => Refusal::Cell,
        refusal::Refusal::Block => Refusal::Block,
        refusal::Refusal::BufferLengths => Refusal::BufferLengths,
        refusal::Refusal::Count => Refusal::IndexRange,
        refusal::Refusal::Region => Refusal::Region,
        refusal::Refusal::FileLength => Refusal::FileLength,
        refusal::Refusal::HeadBytes => Refusal::ReservedBytes,
        refusal::Refusal::MissingRecord => Refusal::MissingRecord,
        refusal::Refusal::Return => Refusal::ChainReturns,
        refusal::Refusal::VisitCount => Refusal::VisitCount,
        refusal::Refusal::Field => Refusal::Field,
        refusal::Refusal::FlipBytes => Refusal::FlipBytes,
        refusal::Refusal::FlipBit => Refusal::FlipBit,
    }
}

pub fn point(point: pair::Point) -> Point {
    Point { x: point.x, y: point.y }
}

/// The pair as the reference takes it.
pub fn pair(words: &Words) -> pair::Pair {
    pair::Pair::from_words(words).expect("these are 64 words")
}

/// The pair as the bindings take it.
pub fn bound(words: &Words) -> Pair {
    Pair::from_words(words).expect("these are 64 words")
}

/// The number of the refusal in an answer, or 0.
pub fn outcome<T>(answer: &Result<T, Refusal>) -> u32 {
    match answer {
        Ok(_) => 0,
        Err(refusal) => refusal.number(),
    }
}
