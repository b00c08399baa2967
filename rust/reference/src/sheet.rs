//! The visit sheet of a region file (02, C-11): pages of 50 lines, on which
//! readers tick visits off, and the way back from a sheet to the listing.

use std::fmt::{Display, Write};
use std::ops::Range;

use crate::listing::{refused, HEADER};
use crate::region_file::{chain, visits, Visit};

/// The heading, 48 visits and the page number.
pub const PAGE_LINES: usize = 50;
pub const PAGE_VISITS: usize = PAGE_LINES - 2;

/// Widths 4, 4, 8 and 8, and one space between.
pub const COLUMNS: usize = 27;

/// The line feed stands behind the columns.
pub const LINE_BYTES: usize = COLUMNS + 1;
pub const PAGE_BYTES: usize = PAGE_LINES * LINE_BYTES;

/// Where record, visit, x and y stand in a line.
const FIELDS: [Range<usize>; 4] = [0..4, 5..9, 10..18, 19..27];

/// What the sheet program prints for this file. A refused file has no pages,
/// but the line of the listing.
pub fn sheet(file: &[u8]) -> Vec<u8> {
    match chain(file) {
        Ok(chain) => pages(visits(&chain)).into_bytes(),
        Err(refusal) => refused(refusal),
    }
}

/// The next page is begun only where a visit is left for it, and the first one
/// always: a plan without visits has one page.
fn pages(visits: impl Iterator<Item = Visit>) -> String {
    let mut visits = visits.peekable();
    let mut text = String::new();
    for page in 1.. {
        add_line(&mut text, "rec", "vis", "x", "y");
        for _ in 0..PAGE_VISITS {
            match visits.next() {
                Some(Visit { record, index, position }) => {
                    add_line(&mut text, record, index, position.x, position.y)
                }
                None => add_line(&mut text, "", "", "", ""),
            }
        }
        writeln!(text, "{page:>COLUMNS$}").expect("a string takes all text");
        if visits.peek().is_none() {
            break;
        }
    }
    text
}

/// A line of four fields, each right-aligned in its columns. Every visit of an
/// accepted file fits its own: records go to 2,047, indexes to 4,095, and
/// positions from -1,000,000 to 1,999,999.
fn add_line(
    text: &mut String,
    record: impl Display,
    visit: impl Display,
    x: impl Display,
    y: impl Display,
) {
    writeln!(text, "{record:>4} {visit:>4} {x:>8} {y:>8}").expect("a string takes all text");
}

/// The listing that a sheet gives when it is read by its columns alone: no line
/// feed is looked for, and no word or number is understood. The sheet of a
/// refused file is not read back, because it is the listing already.
pub fn read_back(sheet: &[u8]) -> Vec<u8> {
    let mut listing = HEADER.as_bytes().to_vec();
    let lines: Vec<&[u8]> = sheet.chunks_exact(LINE_BYTES).collect();
    for page in lines.chunks(PAGE_LINES) {
        for line in page.iter().take(PAGE_LINES - 1).skip(1) {
            if line[..COLUMNS].iter().any(|&byte| byte != b' ') {
                let fields = FIELDS.map(|columns| without_leading_blanks(&line[columns]));
                listing.extend(fields.join(&b' '));
                listing.push(b'\n');
            }
        }
    }
    listing
}

fn without_leading_blanks(field: &[u8]) -> &[u8] {
    let first = field.iter().position(|&byte| byte != b' ');
    &field[first.unwrap_or(field.len())..]
}

#[cfg(test)]
mod tests {
    use super::*;
    use crate::listing::listing;
    use crate::region_file::{file_of, Fields};
    use crate::trial::files;

    const HEADING: &str = " rec  vis        x        y";
    const BLANK: &str = "                           ";

    /// The file of document 01's example, with this count of visits.
    fn example(count: u32) -> Vec<u8> {
        let head = [1, 2, 0, 0, 0, 0, 0, 0];
        file_of(&[head, [0, (-500i32) as u32, 0, 1000, 800, 0, 0, count]])
    }

    fn text(file: &[u8]) -> String {
        String::from_utf8(sheet(file)).unwrap()
    }

    /// The pages as lines, each cut at its line feed and not by its length.
    fn pages_of(file: &[u8]) -> Vec<Vec<String>> {
        let lines: Vec<String> = text(file).lines().map(str::to_string).collect();
        lines.chunks(50).map(<[String]>::to_vec).collect()
    }

    #[test]
    fn sheet_of_the_example() {
        let visits = [
            "   1    0     -500        0",
            "   1    1        0      400",
            "   1    2     -250      600",
            "   1    3      250      200",
        ];
        let number = "                          1";
        let mut lines = vec![HEADING];
        lines.extend(visits);
        lines.extend([BLANK; 44]);
        lines.push(number);
        assert_eq!(lines.len(), 50);
        assert_eq!(text(&example(4)), lines.join("\n") + "\n");
    }

    #[test]
    fn plan_without_visits_has_one_page() {
        let mut expected = vec![BLANK; 50];
        expected[0] = HEADING;
        expected[49] = "                          1";
        let no_records = file_of(&[[0, 2, 0, 0, 0, 0, 0, 0]]);
        let (first, last) = ([1, 0, 0, 1, 1, 0, 0, 0], [0, 0, 0, 1, 1, 0, 0, 0]);
        let two_records = file_of(&[[2, 2, 0, 0, 0, 0, 0, 0], last, first]);
        for file in [no_records, example(0), two_records] {
            assert_eq!(pages_of(&file), [expected.clone()]);
        }
    }

    /// The number of visits, and of lines that hold one on each page.
    #[test]
    fn page_is_full_with_48_visits() {
        let cases: [(u32, &[usize]); 9] = [
            (1, &[1]),
            (47, &[47]),
            (48, &[48]),
            (49, &[48, 1]),
            (95, &[48, 47]),
            (96, &[48, 48]),
            (97, &[48, 48, 1]),
            (480, &[48; 10]),
            (4_096, &[vec![48; 85], vec![16]].concat()),
        ];
        for (count, visits_of_pages) in cases {
            let file = example(count);
            assert_eq!(sheet(&file).len(), visits_of_pages.len() * 1_400);
            let pages = pages_of(&file);
            assert_eq!(pages.len(), visits_of_pages.len());
            for ((page, visits), number) in pages.iter().zip(visits_of_pages).zip(1..) {
                assert_eq!(page[0], HEADING);
                assert_eq!(page[49], format!("{:>27}", number));
                assert!(page[1..=*visits].iter().all(|line| line.starts_with("   1 ")));
                assert!(page[1 + visits..49].iter().all(|line| line == BLANK));
            }
        }
    }

    #[test]
    fn visits_go_on_over_pages_and_records() {
        let head = [3, 1, 0, 0, 0, 0, 0, 0];
        let record = |next, left, count| [next, left, 0, 1, 1, 0, 0, count];
        let file = file_of(&[head, record(2, 10, 2), record(0, 20, 1), record(1, 30, 47)]);
        let pages = pages_of(&file);
        assert_eq!(pages.len(), 2);
        let ends = [&pages[0][47..], &pages[1][..4]].concat();
        let expected = [
            "   3   46       30        0",
            "   1    0       10        0",
            "                          1",
            HEADING,
            "   1    1       10        0",
            "   2    0       20        0",
            BLANK,
        ];
        assert_eq!(ends, expected);
    }

    #[test]
    fn refused_file_has_the_line_of_the_listing() {
        assert_eq!(sheet(&[]), b"refused 11\n");
        assert_eq!(sheet(&[0; 40]), b"refused 11\n");
        assert_eq!(sheet(&example(4_097)), b"refused 15\n");
        let itself = [[1, 2, 0, 0, 0, 0, 0, 0], [1, 0, 0, 1, 1, 0, 0, 1]];
        assert_eq!(sheet(&file_of(&itself)), b"refused 14\n");
    }

    /// The largest record number and index, and both ends of the positions.
    fn widest() -> Vec<u8> {
        let (left, top) = ((-1_000_000i32) as u32, 1_000_000);
        let mut records: Vec<Fields> = vec![[0; 8]; 2_048];
        records[0] = [2_047, 32, 0, 0, 0, 0, 0, 0];
        records[2_047] = [0, left, top, 1, 1_000_000, 0, u32::MAX, 4_096];
        file_of(&records)
    }

    #[test]
    fn widest_visits_fill_their_columns() {
        let pages = pages_of(&widest());
        assert_eq!(pages[0][1], "2047    0 -1000000  1999999");
        let last = &pages[85][16];
        assert!(last.starts_with("2047 4095 -1000000  1"), "{last}");
        assert_eq!(last.len(), 27);
    }

    fn assert_reads_back(file: &[u8]) {
        let sheet = sheet(file);
        assert_eq!(sheet.len() % 1_400, 0);
        for line in sheet.chunks(28) {
            assert_eq!(line.iter().position(|&byte| byte == b'\n'), Some(27));
        }
        assert_eq!(read_back(&sheet), listing(file));
    }

    #[test]
    fn sheet_reads_back_as_the_listing() {
        for count in [0, 1, 4, 47, 48, 49, 96, 97, 4_096] {
            assert_reads_back(&example(count));
        }
        assert_reads_back(&widest());
    }

    /// Accepted files of all kinds have lines of 27 columns and read back; the
    /// others have the listing itself.
    #[test]
    fn many_sheets_are_the_listing_or_read_back_as_it() {
        let (mut accepted, mut several_pages) = (0, 0);
        for number in 0..1_000 {
            let file = files::make(11, number);
            if chain(&file).is_ok() {
                assert_reads_back(&file);
                accepted += 1;
                several_pages += u32::from(sheet(&file).len() > PAGE_BYTES);
            } else {
                assert_eq!(sheet(&file), listing(&file));
            }
        }
        assert!(accepted > 200 && several_pages > 30, "{accepted} {several_pages}");
    }

    /// Only the columns count: what stands between them, in the heading and in
    /// the line of the page number is not looked at.
    #[test]
    fn reading_back_goes_by_columns() {
        let mut sheet = sheet(&example(48));
        for (at, byte) in sheet.iter_mut().enumerate() {
            let (line, column) = (at / LINE_BYTES, at % LINE_BYTES);
            if line == 0 || line == 49 || [4, 9, 18, 27].contains(&column) {
                *byte = b'7';
            }
        }
        assert_eq!(read_back(&sheet), listing(&example(48)));
    }

    #[test]
    fn nothing_reads_back_as_the_header() {
        assert_eq!(read_back(b""), b"record visit x y\n");
        assert_eq!(read_back(&sheet(&example(0))), b"record visit x y\n");
    }
}
