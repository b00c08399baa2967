//! The example listing of the requirements, its visits, and its pieces.

mod common;

use common::{
    changed, example, example_under, example_with, COUNT, FIELD_WIDTH, NEXT, SHIFT_X, SHIFT_Y,
};
use vektrid::{listing, visits, FileVisit, Listing, Visits, LONGEST_LINE};

const EXAMPLE: &str = "record visit x y\n1 0 -500 0\n1 1 0 400\n1 2 -250 600\n1 3 250 200\n";

fn text(file: &[u8]) -> String {
    String::from_utf8(listing(file)).unwrap()
}

#[test]
fn listing_of_the_example() {
    assert_eq!(text(&example()), EXAMPLE);
}

#[test]
fn visits_of_the_example() {
    let file = example();
    let positions = [(-500, 0), (0, 400), (-250, 600), (250, 200)];
    let expected = (0..).zip(positions).map(|(index, (x, y))| FileVisit { record: 1, index, x, y });
    assert!(visits(&file).unwrap().eq(expected));
}

/// Of 801 places across and 701 down, those of the points.
#[test]
fn listing_under_a_field() {
    let lines = "record visit x y\n1 0 -500 0\n1 1 -100 350\n1 2 -300 525\n1 3 100 175\n";
    assert_eq!(text(&example_under(200, 100)), lines);
    let at_the_edge = "record visit x y\n1 0 -500 0\n1 1 -500 0\n1 2 -500 0\n1 3 -500 0\n";
    assert_eq!(text(&example_under(1_000, 800)), at_the_edge);
}

/// The first visit of the example under a field, with the shift that makes its words the largest.
fn last_place(width: u32, height: u32) -> (i32, i32) {
    let file = changed(example_under(width, height), SHIFT_X, u32::MAX);
    let file = changed(file, SHIFT_Y, u32::MAX);
    let visit = visits(&file).unwrap().next().unwrap();
    (visit.x, visit.y)
}

#[test]
fn field_ends_where_the_region_does() {
    assert_eq!(last_place(200, 100), (500 - 200, 800 - 100));
    assert_eq!(last_place(1_000, 800), (-500, 0));
}

#[test]
fn field_of_0_counts_as_1() {
    for (width, height) in [(0, 0), (0, 1), (1, 0), (1, 1)] {
        assert_eq!(text(&example_under(width, height)), EXAMPLE);
        assert_eq!(last_place(width, height), (499, 799));
    }
}

#[test]
fn refused_file_has_one_line() {
    assert_eq!(text(&example()[..40]), "refused 11\n");
    assert_eq!(text(&example_with(NEXT, 1)), "refused 14\n");
    assert_eq!(text(&example_with(FIELD_WIDTH, 1_001)), "refused 16\n");
}

#[test]
fn chain_without_visits_has_only_the_header() {
    assert_eq!(text(&example_with(COUNT, 0)), "record visit x y\n");
    assert_eq!(text(&example_with(0, 0)), "record visit x y\n");
}

#[test]
fn file_walks_and_cursors_can_be_kept() {
    let file = example();
    let mut first = visits(&file).unwrap();
    first.next();
    let kept: Vec<FileVisit> = Visits::at(&file, first.walk()).collect();
    assert_eq!(kept, first.collect::<Vec<_>>());
    assert_eq!(kept.len(), 3);
    let mut first = Listing::open(&file);
    let mut piece = [0; LONGEST_LINE];
    let length = first.piece(&mut piece);
    let rest = Listing::at(&file, first.cursor()).flatten();
    let joined: Vec<u8> = piece[..length].iter().copied().chain(rest).collect();
    assert_eq!(joined, EXAMPLE.as_bytes());
}

/// A listing of 4,096 visits takes many pieces, and the pieces make the listing.
#[test]
fn long_listing_comes_in_pieces() {
    let file = example_with(COUNT, 4_096);
    let pieces: Vec<Vec<u8>> = Listing::open(&file).collect();
    assert!(pieces.len() > 10);
    assert!(pieces.iter().all(|piece| piece.ends_with(b"\n")));
    let text = pieces.concat();
    assert_eq!(text, listing(&file));
    let lines: Vec<&[u8]> = text.split(|&byte| byte == b'\n').collect();
    assert_eq!(lines.len(), 4_098);
    assert_eq!(lines[4_096], line(visits(&file).unwrap().last().unwrap()).as_bytes());
}

fn line(visit: FileVisit) -> String {
    format!("{} {} {} {}", visit.record, visit.index, visit.x, visit.y)
}
