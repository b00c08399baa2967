//! The fill: points from a start index into two lent buffers.

use crate::flips::Scramble;
use crate::pair::Pair;
use crate::refusal::Refusal;

/// Refusals 17, 18, 8 and 9, in this order, leave both buffers as they were;
/// otherwise every element is written.
pub fn fill(
    pair: &Pair,
    scramble: Scramble<'_>,
    start: u32,
    x_buffer: &mut [u32],
    y_buffer: &mut [u32],
) -> Result<(), Refusal> {
    scramble.judge()?;
    if x_buffer.len() != y_buffer.len() {
        return Err(Refusal::BufferLengths);
    }
    judge_count(start, x_buffer.len() as u64)?;
    // The count is judged, so the indexes never run out before the buffers.
    for ((index, x), y) in (start..=u32::MAX).zip(x_buffer).zip(y_buffer) {
        let point = scramble.scrambled(pair.product(index));
        *x = point.x;
        *y = point.y;
    }
    Ok(())
}

/// Refusal 9: start + count must not be above 2^32. Written as a difference,
/// because the sum might not fit.
pub(crate) fn judge_count(start: u32, count: u64) -> Result<(), Refusal> {
    if count > (1u64 << 32) - u64::from(start) {
        return Err(Refusal::Count);
    }
    Ok(())
}

#[cfg(test)]
mod tests {
    use super::*;
    use crate::flips::refused::{under_17, under_18};
    use crate::pair::NO_SHIFT;
    use crate::random::Random;

    const MARK: u32 = 0xDEAD_BEEF;

    fn plain() -> Scramble<'static> {
        Scramble::of_shift(NO_SHIFT)
    }

    /// The refusal of a fill. That the buffers keep their content is looked at
    /// here, and so at every refusal of these tests.
    fn refused(scramble: Scramble<'_>, start: u32, x_length: usize, y_length: usize) -> Refusal {
        let (mut x, mut y) = (vec![MARK; x_length], vec![MARK; y_length]);
        let answer = fill(&Pair::standard(), scramble, start, &mut x, &mut y);
        assert_eq!((x, y), (vec![MARK; x_length], vec![MARK; y_length]));
        answer.unwrap_err()
    }

    #[test]
    fn refusals_leave_the_buffers_alone() {
        assert_eq!(refused(plain(), 0, 4, 5), Refusal::BufferLengths);
        assert_eq!(refused(plain(), u32::MAX, 4, 5), Refusal::BufferLengths);
        assert_eq!(refused(plain(), u32::MAX, 2, 2), Refusal::Count);
        assert_eq!(refused(plain(), u32::MAX - 5, 7, 7), Refusal::Count);
    }

    /// Flips are judged first: beside buffers in order, beside empty ones, and
    /// where 8 or 9 or both are due too.
    #[test]
    fn flips_are_judged_before_the_buffers() {
        for (start, x_length, y_length) in
            [(0, 3, 3), (7, 0, 0), (0, 4, 5), (0, 1, 0), (u32::MAX, 2, 2), (u32::MAX, 4, 5)]
        {
            for scramble in under_17() {
                assert_eq!(refused(scramble, start, x_length, y_length), Refusal::FlipBytes);
            }
            for scramble in under_18() {
                assert_eq!(refused(scramble, start, x_length, y_length), Refusal::FlipBit);
            }
        }
    }

    #[test]
    fn length_zero_is_accepted() {
        for start in [0, 7, u32::MAX] {
            let answer = fill(&Pair::standard(), plain(), start, &mut [], &mut []);
            assert_eq!(answer, Ok(()));
        }
    }

    #[test]
    fn last_index_with_one_point_is_accepted() {
        let (mut x, mut y) = ([MARK], [MARK]);
        let pair = Pair::standard();
        assert_eq!(fill(&pair, plain(), u32::MAX, &mut x, &mut y), Ok(()));
        let point = pair.product(u32::MAX);
        assert_eq!((x[0], y[0]), (point.x, point.y));
    }

    #[test]
    fn fill_writes_the_points_in_order() {
        let mut random = Random::from_seed(8);
        for turn in 0..60 {
            let (pair, owned) = (random.pair(turn), random.scramble());
            let scramble = owned.lent();
            let length = (random.word() % 100) as usize;
            // The first turns end exactly at the last index.
            let last_start = (length as u32).wrapping_neg();
            let start = if turn < 20 { last_start } else { random.word() >> 1 };
            let (mut x, mut y) = (vec![MARK; length], vec![MARK; length]);
            assert_eq!(fill(&pair, scramble, start, &mut x, &mut y), Ok(()));
            for i in 0..length {
                let point = pair.point(start + i as u32, scramble).unwrap();
                assert_eq!((x[i], y[i]), (point.x, point.y));
            }
        }
    }

    #[test]
    fn count_is_judged_at_its_limits() {
        assert_eq!(judge_count(0, 1 << 32), Ok(()));
        assert_eq!(judge_count(0, (1 << 32) + 1), Err(Refusal::Count));
        assert_eq!(judge_count(u32::MAX, 1), Ok(()));
        assert_eq!(judge_count(u32::MAX, u64::MAX), Err(Refusal::Count));
    }
}
