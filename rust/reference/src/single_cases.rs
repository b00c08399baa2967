//! The singles by cases (02, C-13): the exponent field for each count of leading
//! zeros, and the words that have that count. `single` does not use the table,
//! so that the one can be held against the other.

use crate::unit::single;

/// Each count z of leading zeros, with the exponent field of the singles of the
/// words that have it. The fields are written out and not computed, because
/// laboratories compare them with the IEEE 754 layout by eye.
pub const CASES: [(u32, u32); 33] = [
    (0, 126),
    (1, 125),
    (2, 124),
    (3, 123),
    (4, 122),
    (5, 121),
    (6, 120),
    (7, 119),
    (8, 118),
    (9, 117),
    (10, 116),
    (11, 115),
    (12, 114),
    (13, 113),
    (14, 112),
    (15, 111),
    (16, 110),
    (17, 109),
    (18, 108),
    (19, 107),
    (20, 106),
    (21, 105),
    (22, 104),
    (23, 103),
    (24, 102),
    (25, 101),
    (26, 100),
    (27, 99),
    (28, 98),
    (29, 97),
    (30, 96),
    (31, 95),
    (32, 0),
];

/// The smallest word with z leading zeros, for z from 0 to 32. A word cannot be
/// shifted by 32, so that case gives 0, the only word with 32 leading zeros.
pub fn smallest_word(z: u32) -> u32 {
    0x8000_0000_u32.checked_shr(z).unwrap_or(0)
}

/// The largest word with z leading zeros, for z from 0 to 32 as above.
pub fn largest_word(z: u32) -> u32 {
    u32::MAX.checked_shr(z).unwrap_or(0)
}

/// A case as the row of a Markdown table: z, the field in decimal and in binary,
/// and the smallest and the largest word, each with the bits of its single.
pub fn row(z: u32, field: u32) -> String {
    let with_bits = |word: u32| format!("{word:#010X} | {:#010X}", single(word).to_bits());
    let (smallest, largest) = (with_bits(smallest_word(z)), with_bits(largest_word(z)));
    format!("| {z} | {field} | {field:08b} | {smallest} | {largest} |")
}

#[cfg(test)]
mod tests {
    use super::*;
    use crate::random::some_words;

    /// The 23 digits after the leading one, or zeros for word 0, which has no
    /// one. Its shift is by 32 and so needs the longer number.
    fn digits_after_the_leading_one(word: u32) -> u32 {
        let from_the_top = u64::from(word) << word.leading_zeros();
        (from_the_top >> 8) as u32 % (1 << 23)
    }

    /// The rule makes 33 cases, in the order of z.
    #[test]
    fn field_is_126_less_z_or_0_at_32() {
        let rule: Vec<(u32, u32)> = (0..32).map(|z| (z, 126 - z)).chain([(32, 0)]).collect();
        assert_eq!(CASES[..], rule);
    }

    /// Sign, exponent field and digits are all 32 bits, so nothing is left out.
    #[test]
    fn single_has_the_field_of_its_case() {
        for word in some_words() {
            let bits = single(word).to_bits();
            let layout = (bits >> 31, (bits >> 23) & 0xFF, bits & 0x7F_FFFF);
            let (_, field) = CASES[word.leading_zeros() as usize];
            assert_eq!(layout, (0, field, digits_after_the_leading_one(word)), "{word:#010X}");
        }
    }

    #[test]
    fn ends_have_z_leading_zeros() {
        for (z, _) in CASES {
            assert_eq!(smallest_word(z).leading_zeros(), z);
            assert_eq!(largest_word(z).leading_zeros(), z);
        }
    }

    /// From word 0 on, each range begins where the one before it has ended. The
    /// difference would overflow if a range had its ends the wrong way round.
    #[test]
    fn ranges_cover_every_word_once() {
        let mut covered = 0;
        for (z, _) in CASES.into_iter().rev() {
            assert_eq!(u64::from(smallest_word(z)), covered);
            covered += u64::from(largest_word(z) - smallest_word(z)) + 1;
        }
        assert_eq!(covered, 1 << 32);
    }

    #[test]
    fn row_keeps_all_digits() {
        let first = "| 0 | 126 | 01111110 | 0x80000000 | 0x3F000000 | 0xFFFFFFFF | 0x3F7FFFFF |";
        assert_eq!(row(0, 126), first);
        let last = "| 32 | 0 | 00000000 | 0x00000000 | 0x00000000 | 0x00000000 | 0x00000000 |";
        assert_eq!(row(32, 0), last);
    }
}
