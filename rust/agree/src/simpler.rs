//! Simpler numbers, scrambles, pairs and files, for the search for a small case.

use vektrid::Shift;

use crate::pairs::{standard, Words};
use crate::scrambles::{Axis, Scrambled};

/// Smaller numbers: 0 first, then nearer and nearer ones, and the number without one of its bits.
pub fn simpler_number(number: u64) -> Vec<u64> {
    let steps = (0..64).map(|k| number >> k).take_while(|&step| step > 0);
    let bits = (0..64).map(|k| 1 << k).filter(|bit| number & bit != 0);
    steps.chain(bits).map(|less| number - less).collect()
}

pub fn simpler_word(word: u32) -> Vec<u32> {
    simpler_number(u64::from(word)).into_iter().map(|number| number as u32).collect()
}

/// Numbers nearer to 0 from either side.
pub fn simpler_signed(number: i32) -> Vec<i32> {
    let magnitudes = simpler_word(number.unsigned_abs()).into_iter();
    // A simpler magnitude is below 2^31, so the cast keeps it.
    magnitudes.map(|magnitude| magnitude as i32 * number.signum()).collect()
}

fn simpler_shift(shift: Shift) -> Vec<Shift> {
    let xs = simpler_word(shift.x).into_iter().map(|x| Shift { x, ..shift });
    xs.chain(simpler_word(shift.y).into_iter().map(|y| Shift { y, ..shift })).collect()
}

/// Flips that change nothing first, then those without one of their bytes or bits. All have the same
/// length, or a refusal under 18 would become one under 17; so accepted flips stay accepted.
fn simpler_axis(axis: Axis) -> Vec<Axis> {
    let bytes = axis.lent();
    if bytes == Axis::NONE.lent() {
        return Vec::new();
    }
    let ones = |at: &usize| bytes[*at] != 0;
    let fewer_bytes = (0..bytes.len()).filter(ones).map(|at| axis.without(at, 0xFF));
    let bits = (0..8 * bytes.len()).filter(|bit| bytes[bit / 8] >> (bit % 8) & 1 > 0);
    let fewer_bits = bits.map(|bit| axis.without(bit / 8, 1 << (bit % 8)));
    [Axis::NONE].into_iter().chain(fewer_bytes).chain(fewer_bits).collect()
}

/// Scrambles with simpler flips, or with a simpler shift.
pub fn simpler_scramble(scramble: Scrambled) -> Vec<Scrambled> {
    let mut simpler = Vec::new();
    simpler.extend(simpler_axis(scramble.x).into_iter().map(|x| Scrambled { x, ..scramble }));
    simpler.extend(simpler_axis(scramble.y).into_iter().map(|y| Scrambled { y, ..scramble }));
    let shifts = simpler_shift(scramble.shift).into_iter();
    simpler.extend(shifts.map(|shift| Scrambled { shift, ..scramble }));
    simpler
}

/// Pairs nearer to the standard pair, or else with fewer ones. A word of the standard pair is
/// simplest, then 0, then words by their ones; each change makes one word simpler.
pub fn simpler_pair(words: &Words) -> Vec<Words> {
    let standard = standard();
    let mut simpler = Vec::new();
    if *words != standard {
        simpler.push(standard);
    }
    for (at, (&word, &plain)) in words.iter().zip(&standard).enumerate() {
        for value in simpler_column(word, plain) {
            let mut changed = *words;
            changed[at] = value;
            simpler.push(changed);
        }
    }
    simpler
}

fn simpler_column(word: u32, plain: u32) -> Vec<u32> {
    if word == plain {
        return Vec::new();
    }
    let fewer = (0..32).map(|k| word & !(1 << k)).filter(|&fewer| fewer != word && fewer != 0);
    let zero = (word != 0).then_some(0);
    [plain].into_iter().chain(zero).chain(fewer).collect()
}

/// Files with one word smaller.
pub fn simpler_file(file: &[u8]) -> Vec<Vec<u8>> {
    let mut simpler = Vec::new();
    for (at, word) in file.chunks_exact(4).enumerate() {
        let number = u32::from_le_bytes([word[0], word[1], word[2], word[3]]);
        for less in simpler_word(number) {
            let mut changed = file.to_vec();
            changed[4 * at..][..4].copy_from_slice(&less.to_le_bytes());
            simpler.push(changed);
        }
    }
    simpler
}

#[cfg(test)]
mod tests {
    use super::*;
    use crate::scrambles;
    use reference::trial::splitmix::Splitmix;

    #[test]
    fn simpler_numbers_are_smaller() {
        assert_eq!(simpler_number(0), []);
        assert_eq!(simpler_number(6)[..3], [0, 3, 5]);
        for number in [1, 77, 1 << 40, u64::MAX] {
            assert!(simpler_number(number).iter().all(|&simpler| simpler < number));
        }
        assert!(simpler_signed(i32::MIN).iter().all(|&simpler| simpler > i32::MIN && simpler <= 0));
        assert!(simpler_signed(9).iter().all(|simpler| (0..9).contains(simpler)));
    }

    fn rank(words: &Words) -> u32 {
        let ranks =
            words.iter().zip(standard()).map(
                |(&word, plain)| {
                    if word == plain {
                        0
                    } else {
                        1 + word.count_ones()
                    }
                },
            );
        ranks.sum()
    }

    #[test]
    fn simpler_pairs_fall_in_rank() {
        let words: Words = std::array::from_fn(|at| at as u32 * 0x0123_4567);
        let simpler = simpler_pair(&words);
        assert!(simpler.len() > 200);
        assert!(simpler.iter().all(|simpler| rank(simpler) < rank(&words)));
        assert!(simpler_pair(&standard()).is_empty());
    }

    /// No flips come first, then fewer bytes and bits; both measures of a scramble, the other length
    /// and the bits, cannot fall for ever.
    #[test]
    fn simpler_scrambles_fall_in_rank() {
        let rank = |axis: &Axis| {
            let ones: u32 = axis.lent().iter().map(|byte| byte.count_ones()).sum();
            ones + u32::from(axis.lent().len() != Axis::NONE.lent().len())
        };
        for number in 0..200 {
            let scramble = scrambles::any(&mut Splitmix::of_case(1, number));
            let whole = |Scrambled { shift, x, y }: Scrambled| {
                u64::from(shift.x) + u64::from(shift.y) + u64::from(rank(&x) + rank(&y))
            };
            assert!(simpler_scramble(scramble)
                .into_iter()
                .all(|less| whole(less) < whole(scramble)));
        }
        let plain = Scrambled { shift: Shift::default(), x: Axis::NONE, y: Axis::NONE };
        assert!(simpler_scramble(plain).is_empty());
    }

    #[test]
    fn simpler_files_have_one_field_smaller() {
        let file = [0, 1, 0, 0, 2, 0, 0, 0, 9];
        let expected = [
            [0, 0, 0, 0, 2, 0, 0, 0, 9],
            [0x80, 0, 0, 0, 2, 0, 0, 0, 9],
            [0, 1, 0, 0, 0, 0, 0, 0, 9],
            [0, 1, 0, 0, 1, 0, 0, 0, 9],
        ];
        let simpler = simpler_file(&file);
        assert!(expected.iter().all(|file| simpler.contains(&file.to_vec())));
    }
}
