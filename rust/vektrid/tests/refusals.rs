//! Every refusal with an example, the order of refusals, where a file is refused, and the words.

mod common;

use common::flips::{EIGHTEEN, REFUSED, SEVENTEEN};
use common::{
    changed, example, example_under, example_with, COUNT, FIELD_HEIGHT, FIELD_WIDTH, LEVEL, NEXT,
    RESERVED, WIDTH,
};
use vektrid::{
    check_words, fill_words, judge, judge_link, overview_words, point_singles_words, point_words,
    query_words, standard_point_bytes, standard_words, visits, Cell, Cells, Field, Flips, Pair,
    Refusal, Region, ScrambleBytes, Shift, Stopped, Walk,
};

const NO_SHIFT: Shift = Shift { x: 0, y: 0 };
const CELL: Cell = Cell { m: 2, a: 1, column: 1, row: 0, block: 0 };
const CELLS: Cells = Cells { m: 2, a: 1, columns: &[1, 0, 1], rows: &[0, 0, 1], block: 0 };
const REGION: Region = Region { left: -500, top: 0, width: 1000, height: 800 };

fn twice() -> Pair {
    let mut words = *Pair::standard().words();
    words.copy_within(..32, 32);
    Pair::from_words(&words).unwrap()
}

fn query(level: u32, cell: Cell) -> Result<u32, Refusal> {
    Pair::standard().query(NO_SHIFT, level, cell)
}

/// The overview with three answers.
fn overview(level: u32, cells: Cells) -> Result<[u32; 3], Refusal> {
    let mut answers = [0; 3];
    Pair::standard().overview(NO_SHIFT, level, cells, &mut answers).map(|()| answers)
}

#[test]
fn one_for_63_words_in_every_call() {
    let standard = Pair::standard();
    let long = [standard.words().as_slice(), &[0]].concat();
    for words in [&standard.words()[..63], &long, &[]] {
        let one = Refusal::WordCount;
        assert_eq!(Pair::from_words(words), Err(one));
        assert_eq!(standard_words(&mut words.to_vec()), Err(one));
        assert_eq!(check_words(words, 2), Err(one));
        assert_eq!(point_words(words, NO_SHIFT, 5), Err(one));
        assert_eq!(point_singles_words(words, NO_SHIFT, 5), Err(one));
        assert_eq!(fill_words(words, NO_SHIFT, 0, &mut [0; 4], &mut [0; 4]), Err(one));
        let walk = Walk { next: 0, left: 4 };
        assert_eq!(walk.step_words(words, NO_SHIFT), Err(one));
        assert_eq!(walk.step_singles_words(words, NO_SHIFT), Err(one));
        assert_eq!(query_words(words, NO_SHIFT, 2, CELL), Err(one));
        assert_eq!(overview_words(words, NO_SHIFT, 2, CELLS, &mut [0; 3]), Err(one));
    }
}

/// Every later refusal is due as well.
#[test]
fn one_comes_first() {
    let words = [0; 63];
    assert_eq!(check_words(&words, 33), Err(Refusal::WordCount));
    let cell = Cell { m: 33, a: 34, column: 1, row: 1, block: 1 };
    let cells = Cells { m: 33, a: 34, columns: &[1], rows: &[1, 1], block: 1 };
    for bad in [SEVENTEEN, EIGHTEEN] {
        let one = Refusal::WordCount;
        assert_eq!(point_words(&words, bad, 5), Err(one));
        assert_eq!(point_singles_words(&words, bad, 5), Err(one));
        assert_eq!(fill_words(&words, bad, u32::MAX, &mut [0; 4], &mut [0; 5]), Err(one));
        assert_eq!(Walk { next: 0, left: 0 }.step_words(&words, bad), Err(one));
        assert_eq!(Walk { next: 0, left: 0 }.step_singles_words(&words, bad), Err(one));
        assert_eq!(query_words(&words, bad, 0, cell), Err(one));
        assert_eq!(overview_words(&words, bad, 0, cells, &mut [0; 3]), Err(one));
    }
}

#[test]
fn two_for_a_level_of_33() {
    for level in [0, 33, u32::MAX] {
        assert_eq!(Pair::standard().check(level), Err(Refusal::Level));
        assert_eq!(query(level, CELL), Err(Refusal::Level));
        assert_eq!(overview(level, CELLS), Err(Refusal::Level));
        assert_eq!(judge(&example_with(LEVEL, level)), Err(Refusal::Level));
    }
}

#[test]
fn three_for_the_identity_twice() {
    let not_net = Refusal::NotNet { m: 2, a: 1, j: 2 };
    assert_eq!(twice().check(1), Ok(()));
    assert_eq!(twice().check(2), Err(not_net));
    assert_eq!(twice().check(32), Err(not_net));
    assert_eq!(twice().query(NO_SHIFT, 2, CELL), Err(not_net));
    assert_eq!(twice().overview(NO_SHIFT, 2, CELLS, &mut [0; 3]), Err(not_net));
}

#[test]
fn four_to_seven_of_a_query() {
    assert_eq!(query(2, Cell { m: 3, ..CELL }), Err(Refusal::Size));
    assert_eq!(query(2, Cell { a: 3, ..CELL }), Err(Refusal::Shape));
    assert_eq!(query(2, Cell { column: 2, ..CELL }), Err(Refusal::Cell));
    assert_eq!(query(2, Cell { row: 2, ..CELL }), Err(Refusal::Cell));
    assert_eq!(query(32, Cell { m: 4, block: 268_435_456, ..CELL }), Err(Refusal::Block));
    assert!(query(32, Cell { m: 4, block: 268_435_455, ..CELL }).is_ok());
}

/// With the zero pair every later refusal is due too: 2, 17, 18, 4, 5, 6, 7, 3.
#[test]
fn refusals_of_a_query_come_in_order() {
    let (most, good) = (u32::MAX, ScrambleBytes::from(NO_SHIFT));
    let steps = [
        (33, SEVENTEEN, [most; 5], 2),
        (33, EIGHTEEN, [most; 5], 2),
        (2, SEVENTEEN, [most; 5], 17),
        (2, EIGHTEEN, [most; 5], 18),
        (2, good, [most; 5], 4),
        (2, good, [2, most, most, most, most], 5),
        (2, good, [2, 1, most, most, most], 6),
        (2, good, [2, 1, 1, 1, most], 7),
        (2, good, [2, 1, 1, 1, 0], 3),
    ];
    for (level, flips, [m, a, column, row, block], number) in steps {
        let cell = Cell { m, a, column, row, block };
        let refusal = query_words(&[0; 64], flips, level, cell).unwrap_err();
        assert_eq!(refusal.number(), number);
    }
}

#[test]
fn four_to_seven_of_an_overview() {
    assert_eq!(overview(2, CELLS), Ok([3, 0, 1]));
    assert_eq!(overview(2, Cells { m: 3, ..CELLS }), Err(Refusal::Size));
    assert_eq!(overview(2, Cells { a: 3, ..CELLS }), Err(Refusal::Shape));
    for place in 0..3 {
        let mut outside = [0; 3];
        outside[place] = 2;
        assert_eq!(overview(2, Cells { columns: &outside, ..CELLS }), Err(Refusal::Cell));
        assert_eq!(overview(2, Cells { rows: &outside, ..CELLS }), Err(Refusal::Cell));
    }
    assert_eq!(overview(32, Cells { m: 4, block: 268_435_456, ..CELLS }), Err(Refusal::Block));
    assert!(overview(32, Cells { m: 4, block: 268_435_455, ..CELLS }).is_ok());
}

#[test]
fn eight_of_an_overview() {
    let lengths = [(3, 2, 2), (2, 3, 2), (2, 2, 3), (1, 2, 3), (0, 0, 1), (0, 1, 0), (1, 0, 0)];
    for (columns, rows, answers) in lengths {
        let (columns, rows) = (&vec![0; columns], &vec![0; rows]);
        let cells = Cells { columns, rows, ..CELLS };
        let refused = Pair::standard().overview(NO_SHIFT, 2, cells, &mut vec![0; answers]);
        assert_eq!(refused, Err(Refusal::BufferLengths));
    }
}

/// With the zero pair every later refusal is due too. A cell outside the shape comes before the block
/// where it is the first, and else behind refusal 3; without cells it is not given.
#[test]
fn refusals_of_an_overview_come_in_order() {
    let (most, flips) = (u32::MAX, ScrambleBytes::from(NO_SHIFT));
    let (bad_first, bad_later, good): (&[u32], &[u32], &[u32]) = (&[most, 0], &[0, most], &[0, 0]);
    let steps = [
        (33, SEVENTEEN, [most; 3], bad_first, 1, 8),
        (33, SEVENTEEN, [most; 3], bad_first, 2, 2),
        (33, EIGHTEEN, [most; 3], bad_first, 2, 2),
        (2, SEVENTEEN, [most; 3], bad_first, 2, 17),
        (2, EIGHTEEN, [most; 3], bad_first, 2, 18),
        (2, flips, [most; 3], bad_first, 2, 4),
        (2, flips, [2, most, most], bad_first, 2, 5),
        (2, flips, [2, 1, most], bad_first, 2, 6),
        (2, flips, [2, 1, most], bad_later, 2, 7),
        (2, flips, [2, 1, 0], bad_first, 2, 6),
        (2, flips, [2, 1, 0], bad_later, 2, 3),
        (2, flips, [2, 1, 0], good, 2, 3),
        (0, SEVENTEEN, [2, 1, most], &[], 0, 2),
        (2, SEVENTEEN, [3, most, most], &[], 0, 17),
        (2, EIGHTEEN, [3, most, most], &[], 0, 18),
        (2, flips, [3, most, most], &[], 0, 4),
        (2, flips, [2, 3, most], &[], 0, 5),
        (2, flips, [2, 1, most], &[], 0, 7),
        (2, flips, [2, 1, 0], &[], 0, 3),
    ];
    for (level, flips, [m, a, block], columns, answers, number) in steps {
        let cells = Cells { m, a, columns, rows: columns, block };
        let refused = overview_words(&[0; 64], flips, level, cells, &mut vec![0; answers]);
        assert_eq!(refused.unwrap_err().number(), number);
    }
}

#[test]
fn eight_and_nine_of_a_fill() {
    let pair = Pair::standard();
    let fill = |start, xs: usize, ys: usize| {
        pair.fill(NO_SHIFT, start, &mut vec![0; xs], &mut vec![0; ys])
    };
    assert_eq!(fill(0, 4, 5), Err(Refusal::BufferLengths));
    assert_eq!(fill(u32::MAX, 4, 5), Err(Refusal::BufferLengths));
    assert_eq!(fill(u32::MAX, 2, 2), Err(Refusal::IndexRange));
    assert_eq!(fill(u32::MAX, 1, 1), Ok(()));
    assert_eq!(fill(u32::MAX, 0, 0), Ok(()));
}

/// An ended walk is refused too, and flips come before the buffers and the range of a fill.
#[test]
fn seventeen_and_eighteen_in_every_call() {
    let pair = Pair::standard();
    let words = pair.words();
    for (refusal, bad) in REFUSED {
        assert_eq!(Flips::from_bytes(bad.flips_x, bad.flips_y), Err(refusal));
        assert_eq!(standard_point_bytes(bad, 5), Err(refusal));
        assert_eq!(point_words(words, bad, 5), Err(refusal));
        assert_eq!(point_singles_words(words, bad, 5), Err(refusal));
        for (start, x_length, y_length) in [(0, 4, 4), (0, 4, 5), (u32::MAX, 2, 2)] {
            let (mut xs, mut ys) = (vec![0; x_length], vec![0; y_length]);
            assert_eq!(fill_words(words, bad, start, &mut xs, &mut ys), Err(refusal));
        }
        for left in [0, 1, u64::MAX] {
            let walk = Walk { next: 7, left };
            assert_eq!(walk.step_words(words, bad), Err(refusal));
            assert_eq!(walk.step_singles_words(words, bad), Err(refusal));
        }
        assert_eq!(query_words(words, bad, 2, CELL), Err(refusal));
        assert_eq!(overview_words(words, bad, 2, CELLS, &mut [0; 3]), Err(refusal));
    }
}

#[test]
fn nine_of_a_walk() {
    assert_eq!(Walk::open(u32::MAX, 2), Err(Refusal::IndexRange));
    assert_eq!(Walk::open(0, (1 << 32) + 1), Err(Refusal::IndexRange));
    assert_eq!(Walk::open(1, u64::MAX), Err(Refusal::IndexRange));
    assert_eq!(Walk::open(u32::MAX, 1), Ok(Walk { next: u32::MAX, left: 1 }));
    assert_eq!(Walk::open(0, 1 << 32), Ok(Walk { next: 0, left: 1 << 32 }));
}

#[test]
fn ten_at_every_limit() {
    let refused = [
        Region { width: 0, ..REGION },
        Region { width: 1_000_001, ..REGION },
        Region { height: 0, ..REGION },
        Region { height: 1_000_001, ..REGION },
        Region { left: -1_000_001, ..REGION },
        Region { left: 1_000_001, ..REGION },
        Region { top: i32::MIN, ..REGION },
        Region { top: i32::MAX, ..REGION },
    ];
    // Ten comes before sixteen, which is due too for the largest field.
    for region in refused {
        for field in [Field::default(), Field { width: u32::MAX, height: u32::MAX }] {
            assert_eq!(region.position(field, 0, 0), Err(Refusal::Region));
        }
    }
    assert_eq!(judge(&example_with(WIDTH, 0)), Err(Refusal::Region));
    assert_eq!(judge(&changed(example_under(1, 801), WIDTH, 0)), Err(Refusal::Region));
}

#[test]
fn sixteen_for_a_field_that_does_not_fit() {
    for (width, height) in [(1_001, 0), (0, 801), (1_001, 801), (u32::MAX, 1), (1, u32::MAX)] {
        let field = Field { width, height };
        assert_eq!(REGION.position(field, 0, 0), Err(Refusal::Field));
        assert_eq!(REGION.position(field, u32::MAX, u32::MAX), Err(Refusal::Field));
        assert_eq!(judge(&example_under(width, height)), Err(Refusal::Field));
    }
    assert!(REGION.position(Field { width: 1_000, height: 800 }, 0, 0).is_ok());
    assert_eq!(judge(&example_under(1_000, 800)), Ok(()));
    // A chain without records has no region that the field could be too large for.
    assert_eq!(judge(&changed(example_under(u32::MAX, u32::MAX), 0, 0)), Ok(()));
}

#[test]
fn eleven_to_sixteen_of_a_file() {
    let refused = [
        (example()[..40].to_vec(), Refusal::FileLength),
        (Vec::new(), Refusal::FileLength),
        (vec![0; 65_568], Refusal::FileLength),
        (example_with(RESERVED, 1), Refusal::ReservedBytes),
        (example_with(NEXT, 5), Refusal::MissingRecord),
        (example_with(NEXT, 1), Refusal::ChainReturns),
        (example_with(COUNT, 4_097), Refusal::VisitCount),
        (example_with(FIELD_WIDTH, 1_001), Refusal::Field),
        (example_with(FIELD_HEIGHT, 801), Refusal::Field),
    ];
    for (file, refusal) in refused {
        assert_eq!(judge(&file), Err(refusal));
        assert_eq!(visits(&file).err(), Some(refusal));
    }
    assert_eq!(judge(&example()), Ok(()));
    assert_eq!(judge(&example_with(COUNT, 4_096)), Ok(()));
}

/// Each line makes one thing more wrong: 15, 16, 10, 13, 12, 2, 11.
#[test]
fn refusals_of_a_file_come_in_order() {
    let steps = [
        (COUNT, 4_097, 15),
        (FIELD_WIDTH, 1_001, 16),
        (WIDTH, 0, 10),
        (0, 7, 13),
        (RESERVED, 1, 12),
        (LEVEL, 0, 2),
    ];
    let mut file = example();
    for (place, value, number) in steps {
        file = changed(file, place, value);
        assert_eq!(judge(&file).unwrap_err().number(), number);
    }
    assert_eq!(judge(&file[..63]), Err(Refusal::FileLength));
}

/// Record 0 names record 3, then come 1 and 2; record 2 has the words given, its link first. The
/// reader's field is 200 by 100.
fn chain_of_three(last: [u32; 8]) -> Vec<u8> {
    let through = |next| [next, 0, 0, 1_000, 800, 0, 0, 4];
    let records = [[3, 2, 200, 100, 0, 0, 0, 0], through(2), last, through(1)];
    records.iter().flatten().flat_map(|word: &u32| word.to_le_bytes()).collect()
}

#[test]
fn refused_file_names_the_link() {
    let stopped = |refusal, holder, named| Err(Stopped { refusal, holder, named });
    let missing = chain_of_three([9, 0, 0, 1_000, 800, 0, 0, 4]);
    assert_eq!(judge_link(&missing), stopped(Refusal::MissingRecord, 2, 9));
    let returning = chain_of_three([3, 0, 0, 1_000, 800, 0, 0, 4]);
    assert_eq!(judge_link(&returning), stopped(Refusal::ChainReturns, 2, 3));
    let outside = chain_of_three([9, 0, 0, 1_000, 0, 0, 0, 4]);
    assert_eq!(judge_link(&outside), stopped(Refusal::Region, 1, 2));
    let long = chain_of_three([9, 0, 0, 1_000, 800, 0, 0, 4_097]);
    assert_eq!(judge_link(&long), stopped(Refusal::VisitCount, 1, 2));
    let low = chain_of_three([9, 0, 0, 1_000, 99, 0, 0, 4_097]);
    assert_eq!(judge_link(&low), stopped(Refusal::Field, 1, 2));
    assert_eq!(judge_link(&missing[..40]), stopped(Refusal::FileLength, 0, 0));
    assert_eq!(judge_link(&chain_of_three([0, 0, 0, 1_000, 800, 0, 0, 4])), Ok(()));
}

#[test]
fn refused_file_says_where() {
    let stopped: Box<dyn std::error::Error> =
        Box::new(judge_link(&example_with(NEXT, 1)).unwrap_err());
    assert_eq!(
        stopped.to_string(),
        "refusal 14: the chain returns to a record (record 1 names record 1)"
    );
    for file in [example()[..40].to_vec(), example_with(LEVEL, 33), example_with(RESERVED, 1)] {
        let stopped = judge_link(&file).unwrap_err();
        assert_eq!(stopped.to_string(), stopped.refusal.to_string());
    }
}

#[test]
fn refusals_say_what_was_wrong() {
    let not_net = twice().check(2).unwrap_err().to_string();
    assert_eq!(
        not_net,
        "refusal 3: not a net: index 2 shares a cell of the shape (2, 1) with index 0"
    );
    let region: Box<dyn std::error::Error> = Box::new(Refusal::Region);
    assert_eq!(
        region.to_string(),
        "refusal 10: an edge or an extent of a region is outside its limits"
    );
    assert_eq!(
        Refusal::Field.to_string(),
        "refusal 16: the reader's field is wider or taller than a region"
    );
    assert_eq!(Refusal::FlipBytes.to_string(), "refusal 17: the flips of an axis are not 32 bytes");
    assert_eq!(Refusal::FlipBit.to_string(), "refusal 18: flip bit 255 of an axis is set");
}
