//! Flips and scrambles (C-16): known points and cells under flips, which bytes are accepted, and the
//! scrambles that seeds name.

use vektrid::{
    single, standard_point, Cell, Cells, Flips, Pair, Point, Scramble, Shift, SinglesVisit, Visit,
    Walk,
};

/// Flips with only these flip bits set.
fn with_bits(x: &[usize], y: &[usize]) -> Flips {
    let axis = |bits: &[usize]| {
        let mut bytes = [0; Flips::BYTES];
        for bit in bits {
            bytes[bit / 8] |= 1 << (bit % 8);
        }
        bytes
    };
    Flips::from_bytes(&axis(x), &axis(y)).unwrap()
}

/// In x the second bit is flipped behind a 1. In y it is flipped behind a 0, and the third bit behind
/// 11. Bits behind which a flip is chosen are those of the product: before the shift, and in y before
/// the second bit is flipped.
#[test]
fn flips_come_between_product_and_shift() {
    let (pair, shift) = (Pair::standard(), Shift { x: 0x8000_0001, y: 0x0000_0010 });
    let scramble = Scramble { shift, flips: with_bits(&[2], &[1, 6]) };
    let known = [
        (0, 0x8000_0001, 0x4000_0010),
        (1, 0x4000_0001, 0x8000_0010),
        (2, 0xC000_0001, 0xE000_0010),
        (3, 0x0000_0001, 0x0000_0010),
    ];
    let (mut xs, mut ys) = ([0; 4], [0; 4]);
    pair.fill(scramble, 0, &mut xs, &mut ys).unwrap();
    for (index, x, y) in known {
        let point = Point { x, y };
        assert_eq!(pair.point(scramble, index), point);
        assert_eq!(standard_point(scramble, index), point);
        assert_eq!((xs[index as usize], ys[index as usize]), (x, y));
        let (walk, after) = (Walk { next: index, left: 1 }, Walk { next: index + 1, left: 0 });
        assert_eq!(walk.step(&pair, scramble), (Some(Visit { index, point }), after));
        let singles = pair.point_singles(scramble, index);
        assert_eq!((singles.x, singles.y), (single(x), single(y)));
        let visit = SinglesVisit { index, singles };
        assert_eq!(walk.step_singles(&pair, scramble), (Some(visit), after));
    }
    let steps = Walk { next: 0, left: 4 }.steps(&pair, scramble);
    let given: Vec<_> = steps.map(|visit| (visit.index, visit.point.x, visit.point.y)).collect();
    assert_eq!(given, known);
}

/// The last flip bit that may be set turns the eighth bit behind seven ones.
#[test]
fn flip_bits_reach_to_254() {
    let (pair, flips) = (Pair::standard(), with_bits(&[254], &[]));
    assert_eq!((flips.x()[31], flips.y()), (0x40, &[0; 32]));
    for (index, x) in [(0x7F, 0xFF00_0000), (0xFF, 0xFE00_0000), (0x3F, 0xFC00_0000)] {
        assert_eq!(pair.point(flips, index), Point { x, ..pair.point(Shift::default(), index) });
    }
}

/// Flip bit 1 exchanges the columns 0 and 1 of four and leaves the others. Added to the first
/// visit's column, as without flips, column 2 would lead to visit 3.
#[test]
fn cells_under_flips() {
    let (pair, flips) = (Pair::standard(), with_bits(&[1], &[]));
    let columns = [0, 1, 2, 3];
    let cells = Cells { m: 2, a: 2, columns: &columns, rows: &[0; 4], block: 0 };
    let mut answers = [0; 4];
    pair.overview(flips, 2, cells, &mut answers).unwrap();
    assert_eq!(answers, [2, 0, 1, 3]);
    for (column, index) in columns.into_iter().zip(answers) {
        let cell = Cell { m: 2, a: 2, column, row: 0, block: 0 };
        assert_eq!(pair.query(flips, 2, cell), Ok(index));
        assert_eq!(pair.point(flips, index).x >> 30, column);
    }
}

/// All flip bits but the last set turn the first eight bits of every product.
#[test]
fn all_other_flip_bits_may_be_set() {
    let mut most = [0xFF; Flips::BYTES];
    most[31] = 0x7F;
    let flips = Flips::from_bytes(&most, &most).unwrap();
    assert_eq!((flips.x(), flips.y()), (&most, &most));
    let shift = Shift { x: 0xFF00_0000, y: 0xFF00_0000 };
    for index in [0, 5, 0x1234_5678, u32::MAX] {
        assert_eq!(Pair::standard().point(flips, index), Pair::standard().point(shift, index));
    }
}

#[test]
fn scrambles_without_flips_are_shifts() {
    let shift = Shift { x: 0x1234_5678, y: 0x9ABC_DEF0 };
    let scramble = Scramble::from(shift);
    assert_eq!((scramble.shift, scramble.flips), (shift, Flips::default()));
    assert_eq!(Flips::from_bytes(&[0; 32], &[0; 32]), Ok(Flips::default()));
    assert_eq!(Scramble::from(Flips::default()), Scramble::default());
}

/// The bytes as hexadecimal digits, byte 0 first.
fn digits(bytes: &[u8]) -> String {
    bytes.iter().map(|byte| format!("{byte:02x}")).collect()
}

/// The values come from a script in Python. Without the last step, flip bit 255 of both axes would
/// be set for the last seed.
#[test]
fn known_random_scrambles() {
    let known = [
        (
            0,
            Shift { x: 0x7B1D_CDAF, y: 0xE220_A839 },
            "f465b9a16a9e786e4f450980185dc406ec814c72a8b88bf89b74a8516a89391b",
            "eaa27e740c9fcb53e132451fbe9a822c3cab16c93a1384c5c38ac9419078e53e",
        ),
        (
            2_047,
            Shift { x: 0xD828_D698, y: 0xB317_6756 },
            "0d2ea1e3543da67d84c316f8977c13ac1334e94d1580d8a8b1accbdfdad2fb5e",
            "e382bb2d68ac56f31ecb814415470cd008b4adb649591400afb58e707728ea4d",
        ),
        (
            u64::MAX,
            Shift { x: 0x1B65_2C20, y: 0xE4D9_7177 },
            "c982f6db67f89fe9e98172b24cf82f38d282a9cb6cb31d6dae6980572e47a034",
            "33bb38a4bdad1dd3a53f0802f82c4ff164809ea338a45d40840c6e1508a7fe44",
        ),
    ];
    for (seed, shift, x, y) in known {
        let scramble = Scramble::random(seed);
        assert_eq!(scramble.shift, shift);
        assert_eq!(digits(scramble.flips.x()), x);
        assert_eq!(digits(scramble.flips.y()), y);
    }
}

#[test]
fn random_scrambles_are_accepted() {
    for seed in 0..1_000 {
        let flips = Scramble::random(seed).flips;
        assert_eq!(Flips::from_bytes(flips.x(), flips.y()), Ok(flips));
    }
}
