//! The listing of a region file: a header and a line for each visit, or the
//! refusal.

use std::iter;

use crate::refusal::Refusal;
use crate::region_file::{chain, visits, Visit};

pub(crate) const HEADER: &str = "record visit x y\n";

/// What the listing program prints for this file.
pub fn listing(file: &[u8]) -> Vec<u8> {
    match chain(file) {
        Ok(chain) => {
            let lines = visits(&chain).map(line);
            let text: String = iter::once(HEADER.to_string()).chain(lines).collect();
            text.into_bytes()
        }
        Err(refusal) => refused(refusal),
    }
}

/// What it prints for a refusal.
pub fn refused(refusal: Refusal) -> Vec<u8> {
    format!("{refusal}\n").into_bytes()
}

fn line(visit: Visit) -> String {
    format!("{} {} {} {}\n", visit.record, visit.index, visit.position.x, visit.position.y)
}

#[cfg(test)]
mod tests {
    use super::*;
    use crate::region_file::file_of;

    const HEAD: [u32; 8] = [1, 2, 0, 0, 0, 0, 0, 0];
    const RECORD: [u32; 8] = [0, (-500i32) as u32, 0, 1000, 800, 0, 0, 4];

    fn text(records: &[[u32; 8]]) -> String {
        String::from_utf8(listing(&file_of(records))).unwrap()
    }

    #[test]
    fn listing_of_the_example() {
        let expected = "record visit x y\n1 0 -500 0\n1 1 0 400\n1 2 -250 600\n1 3 250 200\n";
        assert_eq!(text(&[HEAD, RECORD]), expected);
    }

    /// The example with the field of C-12: the last line is 600 right of the
    /// edge.
    #[test]
    fn listing_of_the_example_with_a_field() {
        let head = [1, 2, 200, 0, 0, 0, 0, 0];
        let expected = "record visit x y\n1 0 -500 0\n1 1 -100 400\n1 2 -300 600\n1 3 100 200\n";
        assert_eq!(text(&[head, RECORD]), expected);
    }

    #[test]
    fn chain_without_visits_has_only_the_header() {
        let (mut head, mut record) = (HEAD, RECORD);
        record[7] = 0;
        assert_eq!(text(&[head, record]), "record visit x y\n");
        head[0] = 0;
        assert_eq!(text(&[head, RECORD]), "record visit x y\n");
    }

    #[test]
    fn records_are_listed_in_chain_order() {
        let head = [2, 1, 0, 0, 0, 0, 0, 0];
        let first = [1, 10, 20, 1, 1, 0, 0, 1];
        let second = [0, 0, 0, 2, 2, 0x8000_0000, 0, 2];
        let expected = "record visit x y\n2 0 10 20\n1 0 1 0\n1 1 0 1\n";
        assert_eq!(text(&[head, second, first]), expected);
    }

    #[test]
    fn refused_file_prints_only_the_refusal() {
        assert_eq!(listing(&[0; 40]), b"refused 11\n");
        assert_eq!(text(&[HEAD, [1, 0, 0, 1, 1, 0, 0, 1]]), "refused 14\n");
        assert_eq!(text(&[[1, 2, 1001, 0, 0, 0, 0, 0], RECORD]), "refused 16\n");
        let mut second = RECORD;
        second[7] = 4_097;
        // The visits of the first record are not listed either.
        assert_eq!(text(&[HEAD, [2, 0, 0, 1, 1, 0, 0, 1], second]), "refused 15\n");
    }
}
