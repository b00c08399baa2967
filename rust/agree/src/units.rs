//! Singles and doubles of words with every number of leading zeros.

use reference::trial::splitmix::Splitmix;

use crate::case::Case;
use crate::simpler::simpler_word;

/// The numbers of leading zeros, 0 to 32.
const ZEROS: u64 = 33;

/// The lowest byte of a word without leading zeros is what a single drops.
const DROPPED: [u32; 8] = [0x00, 0x01, 0x7E, 0x7F, 0x80, 0x81, 0xFE, 0xFF];

/// What the upper three bytes can be, apart from any: so that a carry would go far, or not at all.
const KEPT: [u32; 4] = [0x8000_0000, 0x8000_0100, 0xFFFF_FE00, 0xFFFF_FF00];

const PATTERNS: u64 = ZEROS * (DROPPED.len() * KEPT.len()) as u64;

/// 2^k - 1, 2^k and 2^k + 1.
const LIMITS: u64 = 32 * 3;

const RANDOM: u64 = ZEROS * 30_000;

#[derive(Clone, Copy)]
pub struct Unit {
    word: u32,
}

impl Case for Unit {
    const NAME: &'static str = "single and double";
    const COUNT: u64 = LIMITS + PATTERNS + RANDOM;
    const OUTCOMES: &'static [u32] = &[0];
    /// The bits of both.
    type Answer = (u32, u64);

    fn make(random: &mut Splitmix, number: u64) -> Unit {
        if number < LIMITS {
            let power = 1u32 << (number / 3);
            return Unit { word: power - 1 + (number % 3) as u32 };
        }
        let zeros = (number % ZEROS) as u32;
        let pattern = ((number - LIMITS) / ZEROS) as usize;
        let full = if number < LIMITS + PATTERNS {
            KEPT[pattern / DROPPED.len()] | DROPPED[pattern % DROPPED.len()]
        } else {
            random.word() | 0x8000_0000
        };
        // A shift by 32 is none in Rust; the word with 32 leading zeros is 0.
        Unit { word: full.checked_shr(zeros).unwrap_or(0) }
    }

    fn expected(&self) -> (u32, u64) {
        use reference::unit::{double, single};
        (single(self.word).to_bits(), double(self.word).to_bits())
    }

    fn given(&self) -> (u32, u64) {
        (vektrid::single(self.word).to_bits(), vektrid::double(self.word).to_bits())
    }

    fn outcome(_: &(u32, u64)) -> u32 {
        0
    }

    fn simpler(&self) -> Vec<Unit> {
        simpler_word(self.word).into_iter().map(|word| Unit { word }).collect()
    }

    fn test(&self) -> String {
        let (word, (single, double)) = (self.word, self.expected());
        format!(
            "assert_eq!(single({word}).to_bits(), 0x{single:08X});\n\
             assert_eq!(double({word}).to_bits(), 0x{double:016X});"
        )
    }
}

#[cfg(test)]
mod tests {
    use super::*;

    /// Each pattern comes up with each number of leading zeros.
    #[test]
    fn every_number_of_leading_zeros_comes_up() {
        let mut counts = [0; ZEROS as usize];
        for number in LIMITS..LIMITS + PATTERNS {
            let unit = Unit::make(&mut Splitmix::of_case(1, number), number);
            counts[unit.word.leading_zeros() as usize] += 1;
        }
        assert_eq!(counts, [32; ZEROS as usize]);
    }
}
