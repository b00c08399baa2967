//! What calls over region files do with the memory lent to them: refused ones keep it, pieces stay
//! within their buffer, and every file walk and cursor is answered.

mod common;

use std::time::{Duration, Instant};

use common::{
    example, example_under, example_with, COUNT, FIELD_HEIGHT, FIELD_WIDTH, LEVEL, NEXT, RESERVED,
    WIDTH,
};
use vektrid::raw::{self, Cursor, FileWalk, SheetCursor};
use vektrid::{visits, Listing, Sheet, Visits, LONGEST_LINE};

const MARK: u32 = 0xDEAD_BEEF;

/// Numbers about the limits of a file's words.
const NUMBERS: [u32; 10] =
    [0, 1, 2, 1_000_000, 1_000_001, 2_048, 4_096, i32::MAX as u32, 1 << 31, u32::MAX];

#[test]
fn refused_file_opens_no_walk() {
    let marked = FileWalk { words: [MARK; 11] };
    let refused = [
        (vec![], 11),
        (vec![0; 40], 11),
        (example_with(WIDTH, 0), 10),
        (example_with(FIELD_WIDTH, 1_001), 16),
    ];
    for (file, number) in refused {
        let mut walk = marked;
        // SAFETY: a slice with its length, and a variable.
        let answer = unsafe { raw::vektrid_file_walk_open(file.as_ptr(), file.len(), &mut walk) };
        assert_eq!((answer, walk), (number, marked));
    }
}

/// The answer of a judgement and its two words.
fn judge_link(file: &[u8]) -> [u32; 3] {
    let (mut holder, mut named) = (MARK, MARK);
    // SAFETY: a lent slice with its length, and two variables.
    let answer =
        unsafe { raw::vektrid_judge_link(file.as_ptr(), file.len(), &mut holder, &mut named) };
    [answer, holder, named]
}

#[test]
fn accepted_file_keeps_the_words_of_the_link() {
    assert_eq!(judge_link(&example()), [0, MARK, MARK]);
    assert_eq!(judge_link(&example_with(COUNT, 4_096)), [0, MARK, MARK]);
    assert_eq!(judge_link(&example_with(0, 0)), [0, MARK, MARK]);
    assert_eq!(judge_link(&example_under(1_000, 800)), [0, MARK, MARK]);
}

#[test]
fn refused_file_writes_both_words_of_the_link() {
    assert_eq!(judge_link(&[]), [11, 0, 0]);
    assert_eq!(judge_link(&example_with(LEVEL, 33)), [2, 0, 0]);
    assert_eq!(judge_link(&example_with(RESERVED, 1)), [12, 0, 0]);
    assert_eq!(judge_link(&example_with(0, u32::MAX)), [13, 0, u32::MAX]);
    assert_eq!(judge_link(&example_with(NEXT, 5)), [13, 1, 5]);
    assert_eq!(judge_link(&example_with(NEXT, 1)), [14, 1, 1]);
    assert_eq!(judge_link(&example_with(WIDTH, 0)), [10, 0, 1]);
    assert_eq!(judge_link(&example_with(COUNT, 4_097)), [15, 0, 1]);
    assert_eq!(judge_link(&example_with(FIELD_WIDTH, 1_001)), [16, 0, 1]);
    assert_eq!(judge_link(&example_with(FIELD_HEIGHT, u32::MAX)), [16, 0, 1]);
}

#[test]
fn ended_visits_keep_their_words() {
    let file = example();
    let mut steps = visits(&file).unwrap();
    assert_eq!(steps.by_ref().count(), 4);
    let mut walk = steps.walk();
    let (mut given, mut record, mut index, mut x, mut y) = (MARK, MARK, MARK, -77, -78);
    // SAFETY: a slice with its length, and six variables.
    unsafe {
        raw::vektrid_file_walk_step(
            file.as_ptr(),
            file.len(),
            &mut walk,
            &mut given,
            &mut record,
            &mut index,
            &mut x,
            &mut y,
        );
    }
    assert_eq!((given, record, index, x, y), (0, MARK, MARK, -77, -78));
}

/// The length of a piece into a buffer of this room. What stands behind the piece keeps its content,
/// in the buffer and past its end.
fn piece_in(room: usize, piece: impl FnOnce(&mut [u8]) -> usize) -> usize {
    let mut memory = vec![0xEE; room + 8];
    let length = piece(&mut memory[..room]);
    assert!(length <= room);
    assert!(memory[length..].iter().all(|&byte| byte == 0xEE));
    length
}

#[test]
fn piece_keeps_the_bytes_behind_it() {
    let file = example();
    for room in 0..200 {
        let length = piece_in(room, |buffer| Listing::open(&file).piece(buffer));
        assert_eq!(length == 0, room < LONGEST_LINE);
        let length = piece_in(room, |buffer| Sheet::open(&file).piece(buffer));
        assert_eq!(length == 0, room < LONGEST_LINE);
    }
}

/// Each of the words changed in turn.
fn changed<const N: usize>(words: [u32; N]) -> impl Iterator<Item = [u32; N]> {
    let places = (0..N).flat_map(|at| NUMBERS.map(|number| (at, number)));
    places.map(move |(at, number)| {
        let mut changed = words;
        changed[at] = number;
        changed
    })
}

/// A file walk in the middle of the example under a reader's field, with changes.
#[test]
fn file_walks_made_by_hand_are_answered() {
    let file = example_under(200, 100);
    let mut opened = visits(&file).unwrap();
    opened.next();
    let stage = -1_000_000..2_000_000;
    let mut given = 0;
    for words in changed(opened.walk().words) {
        for visit in Visits::at(&file, FileWalk { words }).take(5) {
            assert!(stage.contains(&visit.x) && stage.contains(&visit.y));
            given += 1;
        }
    }
    // A walk that has ended is an answer too, but not the only one.
    assert!(given > 100);
}

/// Record 1 has no visits and names itself, and this walk claims that 4,000,000,000 records may still
/// follow. No file has more than 2,048, so a step follows no more links than that and ends at once.
#[test]
fn file_walk_made_by_hand_follows_no_more_links_than_a_file_has_records() {
    let mut file = example_with(NEXT, 1);
    file[4 * COUNT..].fill(0);
    // How many places the corner of the reader's field has, here all of the region.
    let (across, down) = (1_000, 800);
    let (number, next, links) = (1, 1, 4_000_000_000);
    let words = [number, next, 0, 0, across, down, 0, 0, 0, 0, links];
    let start = Instant::now();
    assert_eq!(Visits::at(&file, FileWalk { words }).next(), None);
    assert!(start.elapsed() < Duration::from_secs(5));
}

/// The same with a cursor of a listing.
#[test]
fn cursors_made_by_hand_are_answered() {
    let file = example();
    let mut opened = Listing::open(&file);
    opened.piece(&mut [0; LONGEST_LINE]);
    let lengths = changed(opened.cursor().words)
        .map(|words| piece_in(92, |buffer| Listing::at(&file, Cursor { words }).piece(buffer)));
    assert!(lengths.sum::<usize>() > 1_000);
}

/// And with one of a sheet.
#[test]
fn sheet_cursors_made_by_hand_are_answered() {
    let file = example();
    let mut opened = Sheet::open(&file);
    opened.piece(&mut [0; LONGEST_LINE]);
    let lengths = changed(opened.cursor().words)
        .map(|words| piece_in(92, |buffer| Sheet::at(&file, SheetCursor { words }).piece(buffer)));
    assert!(lengths.sum::<usize>() > 1_000);
}
