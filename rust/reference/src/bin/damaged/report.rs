//! What is said at the end: the outcomes counted, or the first difference.

use std::collections::BTreeMap;
use std::fmt;

use reference::refusal::Refusal;
use reference::region_file::chain;

use crate::program::Answer;

/// The refusals a region file can meet. Each must have been seen.
const NUMBERS: [u32; 8] = [2, 10, 11, 12, 13, 14, 15, 16];

/// The longest piece of a line that is shown.
const SHOWN: usize = 120;

/// How often each outcome was seen, and how many bytes were compared.
#[derive(Default)]
pub struct Tally {
    accepted: u64,
    refused: BTreeMap<u32, u64>,
    bytes: u64,
}

impl Tally {
    pub fn add(&mut self, file: &[u8], bytes: usize) {
        match chain(file).map_err(Refusal::number) {
            Ok(_) => self.accepted += 1,
            Err(number) => *self.refused.entry(number).or_default() += 1,
        }
        self.bytes += bytes as u64;
    }

    pub fn merge(&mut self, other: Tally) {
        self.accepted += other.accepted;
        for (number, times) in other.refused {
            *self.refused.entry(number).or_default() += times;
        }
        self.bytes += other.bytes;
    }

    /// A trial that missed an outcome says too little.
    pub fn is_whole(&self) -> bool {
        self.accepted > 0 && NUMBERS.iter().all(|number| self.refused.contains_key(number))
    }
}

impl fmt::Display for Tally {
    fn fmt(&self, formatter: &mut fmt::Formatter<'_>) -> fmt::Result {
        let files = self.accepted + self.refused.values().sum::<u64>();
        let times = |number| self.refused.get(number).copied().unwrap_or(0);
        let refused = NUMBERS.iter().map(|number| format!("{number} x {}", times(number)));
        let refused = refused.collect::<Vec<_>>().join(", ");
        write!(formatter, "{files} files, {} accepted, refused: {refused}; ", self.accepted)?;
        write!(formatter, "total bytes compared {}", self.bytes)
    }
}

/// The first line that differs and the exit status, in words.
pub fn difference(expected: &[u8], answer: &Answer) -> String {
    let line_text = match differing_line(expected, &answer.output) {
        Some(text) => text,
        None => "the output is the same".to_string(),
    };
    match answer.status {
        Some(status) => format!("{line_text}\n{status}"),
        None => format!("{line_text}\nstopped, as it printed too much or hung"),
    }
}

fn differing_line(expected: &[u8], printed: &[u8]) -> Option<String> {
    let mut expected = expected.split_inclusive(|&byte| byte == b'\n');
    let mut printed = printed.split_inclusive(|&byte| byte == b'\n');
    for number in 1.. {
        let pair = (expected.next(), printed.next());
        if pair.0 != pair.1 {
            let (expected, printed) = (shown(pair.0), shown(pair.1));
            return Some(format!("line {number}\nexpected {expected}\nprinted  {printed}"));
        }
        if pair == (None, None) {
            break;
        }
    }
    None
}

/// A line with its line feed made visible, or that there is none.
fn shown(line: Option<&[u8]>) -> String {
    match line {
        Some(line) => format!("\"{}\"", line[..line.len().min(SHOWN)].escape_ascii()),
        None => "nothing".to_string(),
    }
}

#[cfg(test)]
mod tests {
    use super::*;

    fn stopped(output: &[u8]) -> Answer {
        Answer { output: output.to_vec(), status: None }
    }

    #[test]
    fn first_differing_line_is_shown() {
        let text = differing_line(b"a\nb\nc\n", b"a\nB\nC\n").unwrap();
        assert_eq!(text, "line 2\nexpected \"b\\n\"\nprinted  \"B\\n\"");
        let text = differing_line(b"a\nb\n", b"a\nb").unwrap();
        assert_eq!(text, "line 2\nexpected \"b\\n\"\nprinted  \"b\"");
        let text = differing_line(b"a\n", b"a\nb\n").unwrap();
        assert_eq!(text, "line 2\nexpected nothing\nprinted  \"b\\n\"");
    }

    #[test]
    fn same_output_may_still_differ_in_its_end() {
        assert_eq!(differing_line(b"a\nb\n", b"a\nb\n"), None);
        let text = difference(b"a\n", &stopped(b"a\n"));
        assert!(text.starts_with("the output is the same\nstopped"));
    }

    #[test]
    fn tally_is_whole_with_every_outcome() {
        let mut tally = Tally::default();
        tally.add(&[], 11);
        assert!(!tally.is_whole());
        let text = "1 files, 0 accepted, refused: 2 x 0, 10 x 0, 11 x 1, 12 x 0, 13 x 0, \
                    14 x 0, 15 x 0, 16 x 0; total bytes compared 11";
        assert_eq!(tally.to_string(), text);
        for number in NUMBERS {
            tally.refused.insert(number, 1);
        }
        assert!(!tally.is_whole());
        tally.accepted = 1;
        assert!(tally.is_whole());
    }
}
