//! Unit numbers: a word as a double or as a single from 0 up to 1.

use crate::pair::Point;

/// Both coordinates of a visit as singles.
#[derive(Clone, Copy, Debug, PartialEq)]
pub struct Singles {
    pub x: f32,
    pub y: f32,
}

impl Singles {
    pub fn of(point: Point) -> Singles {
        Singles { x: single(point.x), y: single(point.y) }
    }
}

/// The word divided by 2^32. A double holds every word, and the division by a
/// power of two only lowers the exponent, so nothing is lost.
pub fn double(word: u32) -> f64 {
    f64::from(word) / 4_294_967_296.0
}

/// The largest single not above the quotient. The cast rounds to nearest, so
/// its answer is that single or the next one up, whose bits are one more: no
/// single here is negative. Document 003 puts the bits together instead; that
/// way is kept for the tests.
pub fn single(word: u32) -> f32 {
    let quotient = double(word);
    let nearest = quotient as f32;
    if f64::from(nearest) > quotient {
        f32::from_bits(nearest.to_bits() - 1)
    } else {
        nearest
    }
}

#[cfg(test)]
mod tests {
    use super::*;
    use crate::random::some_words;

    /// No single here is negative, so the next one up has the next bits.
    fn one_above(single: f32) -> f32 {
        f32::from_bits(single.to_bits() + 1)
    }

    /// Algorithm 1 of document 003.
    fn single_by_bits(word: u32) -> u32 {
        match word {
            0 => 0,
            1 => (126 - 31) << 23,
            _ => {
                let z = word.leading_zeros();
                (126 - z) << 23 | (word << (z + 1)) >> 9
            }
        }
    }

    #[test]
    fn known_singles() {
        let known = [
            (0, 0),
            (1, 0x2F80_0000),
            (0x7FFF_FFFF, 0x3EFF_FFFF),
            (0x8000_0000, 0x3F00_0000),
            (0xFFFF_FFFF, 0x3F7F_FFFF),
        ];
        for (word, bits) in known {
            assert_eq!(single(word).to_bits(), bits);
        }
        let both = Singles::of(Point { x: 1, y: 0x7FFF_FFFF });
        assert_eq!((both.x.to_bits(), both.y.to_bits()), (0x2F80_0000, 0x3EFF_FFFF));
    }

    /// The third wrong turn.
    #[test]
    fn nearest_would_leave_the_strip() {
        assert_eq!(double(0x7FFF_FFFF) as f32, 0.5);
        assert_eq!(double(0xFFFF_FFFF) as f32, 1.0);
    }

    #[test]
    fn double_is_exact() {
        assert_eq!(double(0).to_bits(), 0);
        assert_eq!(double(1).to_bits(), 0x3DF0_0000_0000_0000);
        assert_eq!(double(0xFFFF_FFFF).to_bits(), 0x3FEF_FFFF_FFE0_0000);
        for word in some_words() {
            assert_eq!(double(word) * 4_294_967_296.0, f64::from(word));
        }
    }

    #[test]
    fn single_is_the_largest_not_above() {
        for word in some_words() {
            let single = single(word);
            assert!(f64::from(single) <= double(word));
            assert!(f64::from(one_above(single)) > double(word));
        }
    }

    #[test]
    fn shortfall_is_bounded() {
        for word in some_words() {
            let z = word.leading_zeros();
            let parts = f64::from(single(word)) * 4_294_967_296.0;
            // Both are whole numbers, so the difference is the shortfall.
            assert_eq!(parts.fract(), 0.0);
            let shortfall = word - parts as u32;
            let bound = if z < 8 { 1 << (8 - z) } else { 1 };
            assert!(shortfall < bound);
        }
    }

    /// The bound is met as nearly as whole numbers allow.
    #[test]
    fn shortfall_reaches_its_bound() {
        for z in 0..8 {
            let word = u32::MAX >> z;
            let parts = f64::from(single(word)) * 4_294_967_296.0;
            assert_eq!(word - parts as u32, (1 << (8 - z)) - 1);
        }
    }

    #[test]
    fn single_lies_in_the_strip_of_its_word() {
        for word in some_words() {
            for n in 0..=24 {
                let strips = f64::from(1u32 << n);
                let strip = (f64::from(single(word)) * strips).floor();
                assert_eq!(strip as u64, u64::from(word) >> (32 - n));
            }
        }
    }

    #[test]
    fn single_equals_the_bits_of_document_003() {
        for word in some_words() {
            assert_eq!(single(word).to_bits(), single_by_bits(word));
        }
    }
}
