//! The known points of the requirements, and the wrong turns that they name.

use vektrid::{
    check_words, double, overview_words, query_words, single, standard_point, Cell, Cells, Field,
    Pair, Point, Position, Refusal, Region, Scramble, Shift, Singles, SinglesVisit, Visit, Walk,
};

const NO_SHIFT: Shift = Shift { x: 0, y: 0 };

const POINTS: [(u32, u32, u32); 5] = [
    (0, 0, 0),
    (1, 0x8000_0000, 0x8000_0000),
    (2, 0x4000_0000, 0xC000_0000),
    (3, 0xC000_0000, 0x4000_0000),
    (5, 0xA000_0000, 0x2000_0000),
];

const CELL: Cell = Cell { m: 2, a: 1, column: 1, row: 0, block: 0 };

#[test]
fn points_of_the_standard_pair() {
    let pair = Pair::standard();
    for (index, x, y) in POINTS {
        assert_eq!(pair.point(NO_SHIFT, index), Point { x, y });
        assert_eq!(standard_point(NO_SHIFT, index), Point { x, y });
        let walk = Walk { next: index, left: 1 };
        let visit = Visit { index, point: Point { x, y } };
        let after = Walk { next: index + 1, left: 0 };
        assert_eq!(walk.step(&pair, NO_SHIFT), (Some(visit), after));
        let mut filled = ([0], [0]);
        pair.fill(NO_SHIFT, index, &mut filled.0, &mut filled.1).unwrap();
        assert_eq!(filled, ([x], [y]));
    }
}

/// X column c is 2^(31-c); each Y column is the one before it, exclusive or the same a row down.
#[test]
fn words_of_the_standard_pair() {
    let pair = Pair::standard();
    let (x, y) = pair.words().split_at(32);
    for (c, &column) in x.iter().enumerate() {
        assert_eq!(column, 0x8000_0000 >> c);
    }
    assert_eq!(y[..4], [0x8000_0000, 0xC000_0000, 0xA000_0000, 0xF000_0000]);
    for c in 1..32 {
        assert_eq!(y[c], y[c - 1] ^ (y[c - 1] >> 1));
    }
}

#[test]
fn shifts_are_added_last() {
    let shift = Shift { x: 0x1234_5678, y: 0x9ABC_DEF0 };
    let point = Point { x: 0xD234_5678, y: 0xDABC_DEF0 };
    assert_eq!(Pair::standard().point(shift, 3), point);
    assert_eq!(standard_point(shift, 3), point);
}

/// The answer for block 1 is 5, not the 7 that adding the block's first index to 3 would give.
#[test]
fn cells_of_the_standard_pair() {
    let pair = Pair::standard();
    assert_eq!(pair.query(NO_SHIFT, 2, CELL), Ok(3));
    assert_eq!(pair.query(NO_SHIFT, 2, Cell { block: 1, ..CELL }), Ok(5));
    let shift = Shift { x: 0x8000_0000, y: 0 };
    assert_eq!(pair.query(shift, 2, CELL), Ok(0));
}

/// Block 0 in the shapes (4, 2) and (4, 3), row by row, as the drawings of the README have it.
#[test]
fn overviews_of_the_standard_pair() {
    let drawn = [
        (2, [0, 10, 5, 15, 12, 6, 9, 3, 4, 14, 1, 11, 8, 2, 13, 7]),
        (3, [0, 12, 10, 6, 9, 5, 3, 15, 8, 4, 2, 14, 1, 13, 11, 7]),
    ];
    for (a, indexes) in drawn {
        let columns: Vec<u32> = (0..16).map(|place| place % (1 << a)).collect();
        let rows: Vec<u32> = (0..16).map(|place| place >> a).collect();
        let cells = Cells { m: 4, a, columns: &columns, rows: &rows, block: 0 };
        let mut answers = [0; 16];
        assert_eq!(Pair::standard().overview(NO_SHIFT, 4, cells, &mut answers), Ok(()));
        assert_eq!(answers, indexes);
    }
}

/// Every cell of every shape up to m = 6, scrambled and in other blocks than the first.
#[test]
fn overviews_are_queries() {
    let (pair, scramble) = (Pair::standard(), Scramble::random(14));
    for m in 0..=6 {
        for (a, block) in (0..=m).flat_map(|a| [(a, 0), (a, 5), (a, u32::MAX >> m)]) {
            let columns: Vec<u32> = (0..1 << m).map(|place| place >> (m - a)).collect();
            let rows: Vec<u32> = (0..1 << m).map(|place| place & ((1 << (m - a)) - 1)).collect();
            let cells = Cells { m, a, columns: &columns, rows: &rows, block };
            let mut answers = vec![0; 1 << m];
            assert_eq!(pair.overview(scramble, 6, cells, &mut answers), Ok(()));
            for ((column, row), index) in columns.into_iter().zip(rows).zip(answers) {
                let cell = Cell { m, a, column, row, block };
                assert_eq!(pair.query(scramble, 6, cell), Ok(index));
            }
        }
    }
}

#[test]
fn zero_pair() {
    let zero = [0; 64];
    assert_eq!(check_words(&zero, 1), Err(Refusal::NotNet { m: 1, a: 0, j: 1 }));
    for block in [0, 1, 77, u32::MAX] {
        let cell = Cell { m: 0, a: 0, column: 0, row: 0, block };
        assert_eq!(query_words(&zero, NO_SHIFT, 1, cell), Ok(block));
        let cells = Cells { m: 0, a: 0, columns: &[0, 0], rows: &[0, 0], block };
        let mut answers = [0; 2];
        assert_eq!(overview_words(&zero, NO_SHIFT, 1, cells, &mut answers), Ok(()));
        assert_eq!(answers, [block, block]);
    }
}

/// Here the square shape (2, 1) is in order, and only the long strip (2, 2) is not.
#[test]
fn long_strips_are_checked() {
    let mut words = *Pair::standard().words();
    words[1] = 0;
    assert_eq!(check_words(&words, 2), Err(Refusal::NotNet { m: 2, a: 2, j: 2 }));
}

#[test]
fn singles_and_doubles() {
    let known = [
        (0, 0),
        (1, 0x2F80_0000),
        (0x7FFF_FFFF, 0x3EFF_FFFF),
        (0x8000_0000, 0x3F00_0000),
        (0xFFFF_FFFF, 0x3F7F_FFFF),
    ];
    for (word, bits) in known {
        assert_eq!(single(word).to_bits(), bits);
        assert_eq!(double(word) * 4_294_967_296.0, f64::from(word));
    }
    assert_eq!(double(0).to_bits(), 0);
}

/// Index 0 with a shift has the shift's words as coordinates.
#[test]
fn both_singles_of_a_visit() {
    let (pair, shift) = (Pair::standard(), Shift { x: 1, y: 0x7FFF_FFFF });
    let bits = |singles: Singles| (singles.x.to_bits(), singles.y.to_bits());
    assert_eq!(bits(pair.point_singles(shift, 0)), (0x2F80_0000, 0x3EFF_FFFF));
    let (visit, walk) = Walk::open(0, 1).unwrap().step_singles(&pair, shift);
    let SinglesVisit { index, singles } = visit.unwrap();
    assert_eq!((index, bits(singles)), (0, (0x2F80_0000, 0x3EFF_FFFF)));
    assert_eq!(walk.step_singles(&pair, shift), (None, walk));
}

/// Cut toward zero, the sum -1 + 0.75 would be 0.
#[test]
fn positions_are_floors() {
    let (region, field) = (Region { left: -1, top: -1, width: 3, height: 3 }, Field::default());
    assert_eq!(region.position(field, 0x4000_0000, 0xC000_0000), Ok(Position { x: -1, y: 1 }));
    let most = Region { left: 1_000_000, top: -1_000_000, width: 1_000_000, height: 1 };
    let last = Position { x: 1_999_999, y: -1_000_000 };
    assert_eq!(most.position(field, u32::MAX, u32::MAX), Ok(last));
}

/// The example of C-12: the field's corner is 600 right of the edge, and not 750.
#[test]
fn whole_field_lies_in_the_region() {
    let region = Region { left: -500, top: 0, width: 1000, height: 800 };
    let field = Field { width: 200, height: 100 };
    assert_eq!(region.position(field, 0xC000_0000, 0), Ok(Position { x: 100, y: 0 }));
    // The last place for the corner: the field ends where the region does.
    assert_eq!(region.position(field, u32::MAX, u32::MAX), Ok(Position { x: 300, y: 700 }));
    // A field as large as the region has one place.
    let whole = Field { width: 1000, height: 800 };
    assert_eq!(region.position(whole, u32::MAX, u32::MAX), Ok(Position { x: -500, y: 0 }));
}

#[test]
fn field_of_0_counts_as_1() {
    let region = Region { left: -500, top: 0, width: 1000, height: 800 };
    let last = Ok(Position { x: 499, y: 799 });
    for (width, height) in [(0, 0), (0, 1), (1, 0), (1, 1)] {
        assert_eq!(region.position(Field { width, height }, u32::MAX, u32::MAX), last);
    }
    assert_eq!(Field::default(), Field { width: 0, height: 0 });
}

#[test]
fn walk_ends_at_the_last_index() {
    let pair = Pair::standard();
    let point = pair.point(NO_SHIFT, u32::MAX);
    for left in [1, 2, u64::MAX] {
        let walk = Walk { next: u32::MAX, left };
        let (visit, after) = walk.step(&pair, NO_SHIFT);
        assert_eq!(visit, Some(Visit { index: u32::MAX, point }));
        assert_eq!(after, Walk { next: u32::MAX, left: 0 });
        assert_eq!(after.step(&pair, NO_SHIFT), (None, after));
    }
}

#[test]
fn steps_of_a_walk() {
    let pair = Pair::standard();
    let mut steps = Walk { next: u32::MAX - 2, left: 9 }.steps(&pair, NO_SHIFT);
    assert_eq!(steps.next().map(|visit| visit.index), Some(u32::MAX - 2));
    assert_eq!(steps.walk(), Walk { next: u32::MAX - 1, left: 8 });
    assert_eq!(steps.by_ref().count(), 2);
    assert_eq!(steps.next(), None);
    assert_eq!(steps.walk(), Walk { next: u32::MAX, left: 0 });
}
