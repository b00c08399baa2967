//! The example of the requirements as a visit sheet, its pages and its pieces.

mod common;

use common::{changed, example, example_under, example_with, COUNT, FIELD_WIDTH, NEXT};
use vektrid::{judge, listing, sheet, sheet_pages, Refusal, Sheet, LONGEST_LINE, PAGE};

const HEADING: &str = " rec  vis        x        y";
const BLANK: &str = "                           ";
const FIRST_PAGE: &str = "                          1";

fn lines(file: &[u8]) -> Vec<String> {
    let text = String::from_utf8(sheet(file)).unwrap();
    text.lines().map(str::to_string).collect()
}

#[test]
fn sheet_of_the_example() {
    let visits = [
        "   1    0     -500        0",
        "   1    1        0      400",
        "   1    2     -250      600",
        "   1    3      250      200",
    ];
    let expected = [&[HEADING], &visits[..], &[BLANK; 44], &[FIRST_PAGE]].concat();
    assert_eq!(lines(&example()), expected);
    assert_eq!(sheet(&example()).len(), PAGE);
}

#[test]
fn sheet_under_a_field() {
    let visits = [
        "   1    0     -500        0",
        "   1    1     -100      350",
        "   1    2     -300      525",
        "   1    3      100      175",
    ];
    assert_eq!(lines(&example_under(200, 100))[1..5], visits);
}

#[test]
fn file_without_visits_has_one_page() {
    let expected = [&[HEADING], &[BLANK; 48][..], &[FIRST_PAGE]].concat();
    assert_eq!(lines(&example_with(COUNT, 0)), expected);
    assert_eq!(lines(&example_with(0, 0)), expected);
}

#[test]
fn refused_file_has_the_line_of_the_listing() {
    assert_eq!(sheet(&example()[..40]), b"refused 11\n");
    assert_eq!(sheet(&example_with(NEXT, 1)), b"refused 14\n");
    assert_eq!(sheet(&example_with(FIELD_WIDTH, 1_001)), b"refused 16\n");
}

#[test]
fn refused_file_has_no_pages() {
    for file in [vec![], example_with(NEXT, 1), example_with(COUNT, 4_097)] {
        assert_eq!(sheet_pages(&file).map(Iterator::count), judge(&file).map(|_| 0));
    }
    assert_eq!(sheet_pages(&[]).err(), Some(Refusal::FileLength));
}

/// The pages together are the sheet, and each ends in its number.
#[test]
fn page_is_full_with_48_visits() {
    for (count, expected) in [(0, 1), (1, 1), (48, 1), (49, 2), (96, 2), (97, 3), (4_096, 86)] {
        let file = example_with(COUNT, count);
        let pages: Vec<[u8; PAGE]> = sheet_pages(&file).unwrap().collect();
        assert_eq!(pages.len(), expected);
        assert_eq!(pages.concat(), sheet(&file));
        for (page, number) in pages.iter().zip(1..) {
            assert!(page.starts_with(HEADING.as_bytes()));
            assert!(page.ends_with(format!("{number:>27}\n").as_bytes()));
        }
    }
}

#[test]
fn ended_pages_stay_ended() {
    let file = example();
    let mut pages = sheet_pages(&file).unwrap();
    assert_eq!(pages.by_ref().count(), 1);
    assert_eq!(pages.next(), None);
}

/// Read back by its columns, a sheet gives the listing.
#[test]
fn sheet_reads_back_as_the_listing() {
    for count in [0, 4, 48, 49, 4_096] {
        let file = changed(example_under(200, 100), COUNT, count);
        let mut text = "record visit x y\n".to_string();
        for page in lines(&file).chunks(50) {
            for line in page[1..49].iter().filter(|&line| line != BLANK) {
                let fields = [0..4, 5..9, 10..18, 19..27].map(|columns| line[columns].trim_start());
                text += &(fields.join(" ") + "\n");
            }
        }
        assert_eq!(text.as_bytes(), listing(&file));
    }
}

#[test]
fn cursors_can_be_kept() {
    let file = example();
    let mut first = Sheet::open(&file);
    let mut piece = [0; LONGEST_LINE];
    let length = first.piece(&mut piece);
    let rest = Sheet::at(&file, first.cursor()).flatten();
    let joined: Vec<u8> = piece[..length].iter().copied().chain(rest).collect();
    assert_eq!(joined, sheet(&file));
}

/// A sheet of 4,096 visits takes many pieces, and the pieces make the sheet.
#[test]
fn long_sheet_comes_in_pieces() {
    let file = example_with(COUNT, 4_096);
    let pieces: Vec<Vec<u8>> = Sheet::open(&file).collect();
    assert!(pieces.len() > 10);
    assert!(pieces.iter().all(|piece| piece.ends_with(b"\n")));
    assert_eq!(pieces.concat(), sheet(&file));
}
