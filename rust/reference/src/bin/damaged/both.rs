//! Both programs on one file: each must print what the reference says, and the
//! printed sheet must read back as the listing.

use std::io;

use reference::listing::listing;
use reference::region_file::chain;
use reference::sheet::{read_back, sheet};

use crate::program::{start, Answer};
use crate::report::difference;

/// The programs under trial.
pub struct Programs {
    pub list_visits: String,
    pub print_sheet: String,
}

/// What came of a file.
#[derive(Debug, PartialEq)]
pub enum Outcome {
    /// How many bytes were compared.
    Same(usize),
    /// What differs, in words.
    Differs(String),
}

impl Programs {
    /// Starts both programs before it waits for either, since most of the time
    /// goes by until a program has come up.
    pub fn try_on(&self, file: &[u8]) -> io::Result<Outcome> {
        let (listing, sheet) = (listing(file), sheet(file));
        let list_visits = start(&self.list_visits, file, listing.len())?;
        let print_sheet = start(&self.print_sheet, file, sheet.len())?;
        let (listed, printed) = (list_visits.answer()?, print_sheet.answer()?);
        let back = Answer { output: listed_by(file, &printed.output), status: printed.status };
        let compared = [
            (self.list_visits.as_str(), &listing, listed),
            (&self.print_sheet, &sheet, printed),
            ("the sheet, read back", &listing, back),
        ];
        let differs = compared.iter().find(|(_, expected, answer)| !answer.is(expected));
        Ok(match differs {
            Some((name, expected, answer)) => {
                Outcome::Differs(format!("{name}: {}", difference(expected, answer)))
            }
            None => Outcome::Same(listing.len() + sheet.len()),
        })
    }
}

/// The listing that a sheet stands for. That of a refused file is the listing.
fn listed_by(file: &[u8], sheet: &[u8]) -> Vec<u8> {
    match chain(file) {
        Ok(_) => read_back(sheet),
        Err(_) => sheet.to_vec(),
    }
}

#[cfg(test)]
mod tests {
    use super::*;

    /// A file whose listing and sheet are its own bytes, so that `cat` is right.
    const ITSELF: &[u8] = b"refused 11\n";

    fn programs(list_visits: &str, print_sheet: &str) -> Programs {
        Programs { list_visits: list_visits.to_string(), print_sheet: print_sheet.to_string() }
    }

    #[test]
    fn both_outputs_are_compared() {
        assert_eq!(programs("cat", "cat").try_on(ITSELF).unwrap(), Outcome::Same(22));
    }

    #[test]
    fn first_program_that_differs_is_named() {
        for (list_visits, print_sheet) in [("true", "cat"), ("cat", "true"), ("true", "false")] {
            match programs(list_visits, print_sheet).try_on(ITSELF).unwrap() {
                Outcome::Differs(text) => assert!(text.starts_with("true: line 1\n"), "{text}"),
                same => panic!("{same:?}"),
            }
        }
    }

    #[test]
    fn missing_program_is_an_error_that_names_it() {
        let missing = "./no such program";
        for programs in [programs(missing, "cat"), programs("cat", missing)] {
            let problem = programs.try_on(ITSELF).unwrap_err();
            assert!(problem.to_string().starts_with("./no such program: "));
        }
    }

    #[test]
    fn sheet_stands_for_the_listing() {
        let mut accepted = [0; 32];
        accepted[4] = 1;
        for file in [&accepted[..], &[], ITSELF] {
            assert_eq!(listed_by(file, &sheet(file)), listing(file));
        }
    }
}
