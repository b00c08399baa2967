//! Numbers at limits and past them.

use reference::trial::splitmix::Splitmix;

/// A number that is to be below 2^bits: 0, the last, one past the last, or a random one. Where one
/// past the last does not fit the word, it is the last.
pub fn at_limit(choice: u64, bits: u32, random: &mut Splitmix) -> u32 {
    let count = 1u64 << bits;
    let number = match choice {
        0 => 0,
        1 => count - 1,
        2 => count.min(u64::from(u32::MAX)),
        _ => u64::from(random.word()) & (count - 1),
    };
    number as u32
}

/// Words of every size, many of them next to a power of two.
pub fn wild(random: &mut Splitmix) -> u32 {
    let power = 1u32 << random.below(32);
    match random.below(6) {
        0 => random.below(40),
        1 => power - 1,
        2 => power,
        3 => power + 1,
        4 => u32::MAX - random.below(3),
        _ => random.word() >> random.below(32),
    }
}

/// Two wild words as one number, or one alone.
pub fn wild_count(random: &mut Splitmix) -> u64 {
    let low = u64::from(wild(random));
    match random.below(4) {
        0 => u64::MAX - u64::from(random.below(3)),
        1 => u64::from(wild(random)) << 32 | low,
        _ => low,
    }
}

#[cfg(test)]
mod tests {
    use super::*;

    #[test]
    fn limits_of_bits() {
        let mut random = Splitmix::of_case(1, 1);
        let mut limits = |bits| [0, 1, 2].map(|choice| at_limit(choice, bits, &mut random));
        assert_eq!(limits(0), [0, 0, 1]);
        assert_eq!(limits(5), [0, 31, 32]);
        assert_eq!(limits(31), [0, 0x7FFF_FFFF, 0x8000_0000]);
        assert_eq!(limits(32), [0, u32::MAX, u32::MAX]);
        assert!((0..1_000).all(|_| at_limit(3, 5, &mut random) < 32));
    }
}
