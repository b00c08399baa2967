//! A refused call leaves every lent word and buffer as it was, but for the values that refusal 3
//! gives. The safe calls keep most of these words to themselves, so the C calls are used here.

mod common;

use common::flips::{EIGHTEEN, REFUSED, SEVENTEEN};
use vektrid::{
    fill_words, raw, standard_words, Flips, Pair, Refusal, Scramble, ScrambleBytes, Shift,
};

const MARK: u32 = 0xDEAD_BEEF;
const NO_SHIFT: Shift = Shift { x: 0, y: 0 };

fn single_mark() -> f32 {
    f32::from_bits(MARK)
}

#[test]
fn standard_pair_needs_all_its_words() {
    for length in [0, 1, 63, 65, 128] {
        let mut words = vec![MARK; length];
        assert_eq!(standard_words(&mut words), Err(Refusal::WordCount));
        assert_eq!(words, vec![MARK; length]);
    }
}

/// Buffers in the middle of larger ones; the places around are looked at too.
#[test]
fn refused_fill_writes_nothing() {
    let good = ScrambleBytes::from(NO_SHIFT);
    let cases = [
        (63, good, 0, 4, 4, Refusal::WordCount),
        (64, SEVENTEEN, 0, 100, 100, Refusal::FlipBytes),
        (64, EIGHTEEN, 0, 100, 100, Refusal::FlipBit),
        (64, good, 0, 4, 5, Refusal::BufferLengths),
        (64, good, 0, 0, 1, Refusal::BufferLengths),
        (64, good, u32::MAX, 2, 2, Refusal::IndexRange),
        (64, good, u32::MAX - 99, 101, 101, Refusal::IndexRange),
    ];
    let pair = Pair::standard();
    for (count, flips, start, x_length, y_length, refusal) in cases {
        let words = &pair.words()[..count];
        let (mut xs, mut ys) = ([MARK; 128], [MARK; 128]);
        let (x_part, y_part) = (&mut xs[8..8 + x_length], &mut ys[8..8 + y_length]);
        assert_eq!(fill_words(words, flips, start, x_part, y_part), Err(refusal));
        assert_eq!((xs, ys), ([MARK; 128], [MARK; 128]));
    }
}

#[test]
fn accepted_fill_writes_its_places_only() {
    for scramble in [Scramble::default(), Scramble::random(5)] {
        let (mut xs, mut ys) = ([MARK; 128], [MARK; 128]);
        Pair::standard().fill(scramble, 0, &mut xs[8..108], &mut ys[8..108]).unwrap();
        for (at, (x, y)) in xs.into_iter().zip(ys).enumerate() {
            let point = Pair::standard().point(scramble, (at as u32).wrapping_sub(8));
            let expected = if (8..108).contains(&at) { (point.x, point.y) } else { (MARK, MARK) };
            assert_eq!((x, y), expected);
        }
    }
}

#[test]
fn refused_check_keeps_its_words() {
    let pair = Pair::standard();
    let words = pair.words();
    for (count, level, number) in [(63, 2, 1), (64, 0, 2), (64, 33, 2)] {
        let (mut m, mut a, mut j) = (MARK, MARK, MARK);
        // SAFETY: at most 64 words of an array of 64, and three variables.
        let answer =
            unsafe { raw::vektrid_check(words.as_ptr(), count, level, &mut m, &mut a, &mut j) };
        assert_eq!((answer, m, a, j), (number, MARK, MARK, MARK));
    }
}

/// The answer of a point call and its two words.
fn point(words: &[u32], flips: ScrambleBytes) -> [u32; 3] {
    let ScrambleBytes { flips_x, flips_y, .. } = flips;
    let (mut x, mut y) = (MARK, MARK);
    // SAFETY: three lent slices with their lengths, and two variables.
    let answer = unsafe {
        raw::vektrid_point(
            words.as_ptr(),
            words.len(),
            0,
            0,
            flips_x.as_ptr(),
            flips_x.len(),
            flips_y.as_ptr(),
            flips_y.len(),
            5,
            &mut x,
            &mut y,
        )
    };
    [answer, x, y]
}

/// The same with singles, as their bits.
fn point_singles(words: &[u32], flips: ScrambleBytes) -> [u32; 3] {
    let ScrambleBytes { flips_x, flips_y, .. } = flips;
    let (mut x, mut y) = (single_mark(), single_mark());
    // SAFETY: as in `point`.
    let answer = unsafe {
        raw::vektrid_point_singles(
            words.as_ptr(),
            words.len(),
            0,
            0,
            flips_x.as_ptr(),
            flips_x.len(),
            flips_y.as_ptr(),
            flips_y.len(),
            5,
            &mut x,
            &mut y,
        )
    };
    [answer, x.to_bits(), y.to_bits()]
}

/// The same of the standard pair by the fast way.
fn standard_point(flips: ScrambleBytes) -> [u32; 3] {
    let ScrambleBytes { flips_x, flips_y, .. } = flips;
    let (mut x, mut y) = (MARK, MARK);
    // SAFETY: two lent slices with their lengths, and two variables.
    let answer = unsafe {
        raw::vektrid_standard_point(
            0,
            0,
            flips_x.as_ptr(),
            flips_x.len(),
            flips_y.as_ptr(),
            flips_y.len(),
            5,
            &mut x,
            &mut y,
        )
    };
    [answer, x, y]
}

#[test]
fn refused_point_keeps_its_words() {
    assert_eq!(point(&[0; 63], NO_SHIFT.into()), [1, MARK, MARK]);
    assert_eq!(point_singles(&[0; 63], NO_SHIFT.into()), [1, MARK, MARK]);
    for (refusal, bad) in REFUSED {
        let kept = [refusal.number(), MARK, MARK];
        assert_eq!(point(&[0; 64], bad), kept);
        assert_eq!(point_singles(&[0; 64], bad), kept);
        assert_eq!(standard_point(bad), kept);
    }
}

/// Bytes need not be aligned, and one slice may serve both axes.
#[test]
fn flips_lie_anywhere() {
    let pair = Pair::standard();
    let flips = Scramble::random(3).flips;
    let twice = Flips::from_bytes(flips.x(), flips.x()).unwrap();
    let expected = pair.point(twice, 5);
    for place in 0..16 {
        let mut bytes = [0xFF; 48];
        bytes[place..place + 32].copy_from_slice(flips.x());
        let lent = &bytes[place..place + 32];
        let bytes = ScrambleBytes { shift: NO_SHIFT, flips_x: lent, flips_y: lent };
        assert_eq!(point(pair.words(), bytes), [0, expected.x, expected.y]);
        assert_eq!(standard_point(bytes), [0, expected.x, expected.y]);
    }
}

#[test]
fn refused_opening_keeps_its_words() {
    let (mut next, mut left) = (MARK, 77);
    // SAFETY: two variables.
    let answer = unsafe { raw::vektrid_walk_open(u32::MAX, 2, &mut next, &mut left) };
    assert_eq!((answer, next, left), (9, MARK, 77));
}

/// The answer of a step, and then all its words, from a walk of `left` visits at index 3.
fn step(words: &[u32], flips: ScrambleBytes, left: u64) -> (u32, [u32; 5], u64) {
    let ScrambleBytes { flips_x, flips_y, .. } = flips;
    let (mut next, mut after) = (3, left);
    let (mut given, mut index, mut x, mut y) = (MARK, MARK, MARK, MARK);
    // SAFETY: three lent slices with their lengths, and six variables.
    let answer = unsafe {
        raw::vektrid_walk_step(
            words.as_ptr(),
            words.len(),
            0,
            0,
            flips_x.as_ptr(),
            flips_x.len(),
            flips_y.as_ptr(),
            flips_y.len(),
            &mut next,
            &mut after,
            &mut given,
            &mut index,
            &mut x,
            &mut y,
        )
    };
    (answer, [next, given, index, x, y], after)
}

/// The same with singles, as their bits.
fn step_singles(words: &[u32], flips: ScrambleBytes, left: u64) -> (u32, [u32; 5], u64) {
    let ScrambleBytes { flips_x, flips_y, .. } = flips;
    let (mut next, mut after) = (3, left);
    let (mut given, mut index, mut x, mut y) = (MARK, MARK, single_mark(), single_mark());
    // SAFETY: as in `step`.
    let answer = unsafe {
        raw::vektrid_walk_step_singles(
            words.as_ptr(),
            words.len(),
            0,
            0,
            flips_x.as_ptr(),
            flips_x.len(),
            flips_y.as_ptr(),
            flips_y.len(),
            &mut next,
            &mut after,
            &mut given,
            &mut index,
            &mut x,
            &mut y,
        )
    };
    (answer, [next, given, index, x.to_bits(), y.to_bits()], after)
}

#[test]
fn refused_step_keeps_its_words() {
    for left in [0, 1, u64::MAX] {
        let kept = |number| (number, [3, MARK, MARK, MARK, MARK], left);
        assert_eq!(step(&[0; 63], NO_SHIFT.into(), left), kept(1));
        assert_eq!(step_singles(&[0; 63], NO_SHIFT.into(), left), kept(1));
        for (refusal, bad) in REFUSED {
            assert_eq!(step(&[0; 64], bad, left), kept(refusal.number()));
            assert_eq!(step_singles(&[0; 64], bad, left), kept(refusal.number()));
        }
    }
}

#[test]
fn ended_walk_keeps_the_visit() {
    let (pair, flips) = (Pair::standard(), ScrambleBytes::from(NO_SHIFT));
    let kept = (0, [3, 0, MARK, MARK, MARK], 0);
    assert_eq!(step(pair.words(), flips, 0), kept);
    assert_eq!(step_singles(pair.words(), flips, 0), kept);
    let given = (0, [4, 1, 3, 0xC000_0000, 0x4000_0000], 6);
    assert_eq!(step(pair.words(), flips, 7), given);
    let singles = (0, [4, 1, 3, 0.75_f32.to_bits(), 0.25_f32.to_bits()], 6);
    assert_eq!(step_singles(pair.words(), flips, 7), singles);
}

/// The answer of a query and its two words.
fn query(
    words: &[u32],
    flips: ScrambleBytes,
    level: u32,
    [m, a, column, row, block]: [u32; 5],
) -> [u32; 3] {
    let ScrambleBytes { flips_x, flips_y, .. } = flips;
    let (mut index, mut j) = (MARK, MARK);
    // SAFETY: three lent slices with their lengths, and two variables.
    let answer = unsafe {
        raw::vektrid_query(
            words.as_ptr(),
            words.len(),
            0,
            0,
            flips_x.as_ptr(),
            flips_x.len(),
            flips_y.as_ptr(),
            flips_y.len(),
            level,
            m,
            a,
            column,
            row,
            block,
            &mut index,
            &mut j,
        )
    };
    [answer, index, j]
}

#[test]
fn refused_query_keeps_its_words() {
    let (zero, flips) = ([0; 64], ScrambleBytes::from(NO_SHIFT));
    assert_eq!(query(&[0; 63], flips, 2, [2, 1, 1, 0, 0]), [1, MARK, MARK]);
    assert_eq!(query(&zero, flips, 33, [2, 1, 1, 0, 0]), [2, MARK, MARK]);
    for (refusal, bad) in REFUSED {
        assert_eq!(query(&zero, bad, 2, [2, 1, 1, 0, 0]), [refusal.number(), MARK, MARK]);
    }
    assert_eq!(query(&zero, flips, 2, [3, 1, 1, 0, 0]), [4, MARK, MARK]);
    assert_eq!(query(&zero, flips, 2, [2, 3, 1, 0, 0]), [5, MARK, MARK]);
    assert_eq!(query(&zero, flips, 2, [2, 1, 2, 0, 0]), [6, MARK, MARK]);
    assert_eq!(query(&zero, flips, 4, [4, 1, 1, 0, 1 << 28]), [7, MARK, MARK]);
    // 3 gives the least index and no answer, whatever the flips are.
    assert_eq!(query(&zero, flips, 2, [2, 1, 1, 0, 0]), [3, MARK, 1]);
    let random = Scramble::random(2);
    assert_eq!(query(&zero, (&random).into(), 2, [2, 1, 1, 0, 0]), [3, MARK, 1]);
}

/// The answer of an overview of the cells of the columns and rows given, and its words: the whole
/// buffer around the answers, of which those from place 8 on are lent, and j.
fn overview(
    words: &[u32],
    flips: ScrambleBytes,
    level: u32,
    [m, a, block]: [u32; 3],
    (columns, rows): (&[u32], &[u32]),
    answers_count: usize,
) -> (u32, [u32; 24], u32) {
    let ScrambleBytes { flips_x, flips_y, .. } = flips;
    let (mut answers, mut j) = ([MARK; 24], MARK);
    let lent = &mut answers[8..8 + answers_count];
    // SAFETY: six lent slices with their lengths, and a variable.
    let answer = unsafe {
        raw::vektrid_overview(
            words.as_ptr(),
            words.len(),
            0,
            0,
            flips_x.as_ptr(),
            flips_x.len(),
            flips_y.as_ptr(),
            flips_y.len(),
            level,
            m,
            a,
            block,
            columns.as_ptr(),
            columns.len(),
            rows.as_ptr(),
            rows.len(),
            lent.as_mut_ptr(),
            lent.len(),
            &mut j,
        )
    };
    (answer, answers, j)
}

#[test]
fn refused_overview_keeps_its_words() {
    let (zero, kept, flips) = ([0; 64], [MARK; 24], ScrambleBytes::from(NO_SHIFT));
    let (inside, outside): (&[u32], &[u32]) = (&[0, 1, 1], &[0, 1, 2]);
    let cells = (inside, inside);
    assert_eq!(overview(&[0; 63], flips, 2, [2, 1, 0], cells, 3), (1, kept, MARK));
    assert_eq!(overview(&zero, flips, 2, [2, 1, 0], cells, 4), (8, kept, MARK));
    assert_eq!(overview(&zero, flips, 2, [2, 1, 0], (inside, &[]), 3), (8, kept, MARK));
    assert_eq!(overview(&zero, flips, 33, [2, 1, 0], cells, 3), (2, kept, MARK));
    // The standard pair, so that nothing else is refused.
    let standard = *Pair::standard().words();
    for (refusal, bad) in REFUSED {
        let refused = overview(&standard, bad, 2, [2, 1, 0], cells, 3);
        assert_eq!(refused, (refusal.number(), kept, MARK));
    }
    assert_eq!(overview(&zero, flips, 2, [3, 1, 0], cells, 3), (4, kept, MARK));
    assert_eq!(overview(&zero, flips, 2, [2, 3, 0], cells, 3), (5, kept, MARK));
    assert_eq!(overview(&zero, flips, 4, [4, 1, 1 << 28], cells, 3), (7, kept, MARK));
    // The cells before the one that is refused are not written either.
    assert_eq!(overview(&standard, flips, 2, [2, 1, 0], (inside, outside), 3), (6, kept, MARK));
    assert_eq!(overview(&standard, flips, 2, [2, 1, 0], (outside, inside), 3), (6, kept, MARK));
    // 3 gives the least index and no answer.
    assert_eq!(overview(&zero, flips, 2, [2, 1, 0], cells, 3), (3, kept, 1));
    assert_eq!(overview(&zero, flips, 2, [2, 1, 0], (&[], &[]), 0), (3, kept, 1));
}

#[test]
fn accepted_overview_writes_its_places_only() {
    let (pair, flips) = (Pair::standard(), ScrambleBytes::from(NO_SHIFT));
    let cells: (&[u32], &[u32]) = (&[0, 1, 0], &[0, 0, 1]);
    let (answer, answers, j) = overview(pair.words(), flips, 2, [2, 1, 1], cells, 3);
    assert_eq!((answer, &answers[8..11], j), (0, &[6, 5, 4][..], MARK));
    assert!(answers[..8].iter().chain(&answers[11..]).all(|&word| word == MARK));
    assert_eq!(overview(pair.words(), flips, 2, [2, 1, 1], (&[], &[]), 0), (0, [MARK; 24], MARK));
}

#[test]
fn refused_position_keeps_its_words() {
    let (mut x, mut y) = (-77, -78);
    // SAFETY: two variables.
    let answer = unsafe { raw::vektrid_position(0, 0, 0, 1, 0, 0, 9, 9, &mut x, &mut y) };
    assert_eq!((answer, x, y), (10, -77, -78));
    for (width, height) in [(6, 1), (1, 8), (u32::MAX, u32::MAX)] {
        // SAFETY: as above.
        let answer =
            unsafe { raw::vektrid_position(0, 0, 5, 7, width, height, 9, 9, &mut x, &mut y) };
        assert_eq!((answer, x, y), (16, -77, -78));
    }
}
