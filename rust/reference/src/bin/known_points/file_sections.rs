//! The sections on region files: their answers, some listings and some sheets.

use std::io::{self, Write};

use reference::listing::listing;
use reference::region_file::{chain, file_of, Fields};
use reference::sheet::{sheet, COLUMNS, LINE_BYTES, PAGE_BYTES};

/// The file that the cases change: two records, both in order.
const BASE: [Fields; 3] = [
    [1, 2, 0, 0, 0, 0, 0, 0],
    [2, (-500i32) as u32, 0, 1000, 800, 0, 0, 4],
    [0, 100, (-200i32) as u32, 300, 400, 2_147_483_648, 1_073_741_824, 3],
];

/// The length kept, and then twice a byte offset with the word put there.
type Case = [u32; 5];

/// Length, level, the zero bytes and the links.
const FIRST_CASES: [Case; 24] = [
    [96, 0, 1, 0, 1],
    [0, 0, 1, 0, 1],
    [31, 0, 1, 0, 1],
    [40, 0, 1, 0, 1],
    [95, 0, 1, 0, 1],
    [32, 0, 0, 0, 0],
    [32, 0, 1, 0, 1],
    [64, 0, 1, 0, 1],
    [96, 0, 0, 0, 0],
    [96, 0, 2, 0, 2],
    [96, 4, 0, 4, 0],
    [96, 4, 1, 4, 1],
    [96, 4, 32, 4, 32],
    [96, 4, 33, 4, 33],
    [96, 4, 4_294_967_295, 4, 4_294_967_295],
    [96, 16, 1, 16, 1],
    [96, 28, 16_777_216, 28, 16_777_216],
    [96, 32, 5, 32, 5],
    [96, 32, 3, 32, 3],
    [96, 32, 1, 32, 1],
    [96, 64, 1, 64, 1],
    [96, 64, 2, 64, 2],
    [96, 0, 3, 0, 3],
    [96, 32, 4_294_967_295, 32, 4_294_967_295],
];

/// Fields of record 1 by their byte offsets, each with the words to try.
const LIMITS: [(u32, &[u32]); 5] = [
    (36, &EDGES),
    (40, &EDGES),
    (44, &EXTENTS),
    (48, &EXTENTS),
    (60, &[0, 4_096, 4_097, 4_294_967_295]),
];
const EDGES: [u32; 5] = [1_000_000, 1_000_001, 4_293_967_296, 4_293_967_295, 2_147_483_648];
const EXTENTS: [u32; 5] = [0, 1, 1_000_000, 1_000_001, 4_294_967_295];

const TWO_FAULTS: [Case; 14] = [
    [96, 4, 33, 16, 1],
    [96, 16, 1, 32, 5],
    [96, 4, 0, 0, 3],
    [96, 32, 5, 60, 4_097],
    [96, 32, 5, 44, 0],
    [96, 44, 0, 60, 4_097],
    [96, 64, 1, 60, 4_097],
    [96, 64, 1, 92, 4_097],
    [96, 32, 1, 76, 0],
    [96, 0, 2, 60, 4_097],
    [96, 0, 2, 44, 0],
    [96, 32, 0, 92, 4_097],
    [96, 64, 5, 92, 4_097],
    [40, 4, 33, 16, 1],
];

/// The reader's field at its limits, and beside other faults.
const FIELD_CASES: [Case; 20] = [
    [96, 8, 1, 12, 1],
    [96, 8, 300, 12, 400],
    [96, 8, 301, 12, 400],
    [96, 8, 300, 12, 401],
    [96, 8, 4_294_967_295, 12, 0],
    [96, 8, 0, 12, 4_294_967_295],
    [96, 8, 400, 12, 300],
    [96, 0, 0, 8, 4_294_967_295],
    [96, 32, 0, 8, 301],
    [96, 32, 0, 8, 1_001],
    [96, 8, 1_001, 44, 0],
    [96, 8, 1_001, 60, 4_097],
    [96, 8, 301, 60, 4_097],
    [96, 8, 1_001, 32, 5],
    [96, 0, 3, 8, 1_001],
    [96, 64, 1, 8, 301],
    [96, 64, 1, 8, 300],
    [96, 8, 1_001, 16, 1],
    [96, 4, 33, 8, 1_001],
    [40, 8, 1_001, 12, 1_001],
];

const LISTED: [Case; 6] = [
    [96, 0, 1, 0, 1],
    [96, 0, 0, 0, 0],
    [96, 32, 1, 32, 1],
    [96, 32, 0, 36, 4_294_966_796],
    [96, 8, 200, 12, 100],
    [96, 8, 300, 12, 400],
];

pub fn all(output: &mut impl Write) -> io::Result<()> {
    files_section(output)?;
    long_section(output)?;
    list_section(output)?;
    sheet_section(output)
}

fn files_section(output: &mut impl Write) -> io::Result<()> {
    writeln!(output, "files")?;
    let with_words =
        LIMITS.iter().flat_map(|&(at, words)| words.iter().map(move |&word| (at, word)));
    let limit_cases = with_words.map(|(at, word)| [96, at, word, at, word]);
    let cases = FIRST_CASES.into_iter().chain(limit_cases).chain(TWO_FAULTS).chain(FIELD_CASES);
    for case in cases {
        let [length, at, word, at_2, word_2] = case;
        write!(output, "{length} {at} {word} {at_2} {word_2} ")?;
        answer(output, &changed(case))?;
    }
    Ok(())
}

/// The base file with both words put in, one after the other, and then cut.
fn changed([length, at, word, at_2, word_2]: Case) -> Vec<u8> {
    let mut file = file_of(&BASE);
    for (at, word) in [(at as usize, word), (at_2 as usize, word_2)] {
        file[at..at + 4].copy_from_slice(&word.to_le_bytes());
    }
    file.truncate(length as usize);
    file
}

fn answer(output: &mut impl Write, file: &[u8]) -> io::Result<()> {
    match chain(file) {
        Ok(_) => writeln!(output, "accepted"),
        Err(refusal) => writeln!(output, "{refusal}"),
    }
}

/// A chain that runs down from record 2,047 through all the others.
fn long_section(output: &mut impl Write) -> io::Result<()> {
    writeln!(output, "long")?;
    let mut records = vec![[2_047, 32, 0, 0, 0, 0, 0, 0]];
    records.extend((1..=2_048).map(|number| [number - 1, 0, 0, 1, 1, 0, 0, 1]));
    let file = file_of(&records);
    for length in [65_536, 65_537, 65_568, 65_504, 32] {
        write!(output, "{length} ")?;
        answer(output, &file[..length])?;
    }
    Ok(())
}

fn list_section(output: &mut impl Write) -> io::Result<()> {
    writeln!(output, "list")?;
    for case in LISTED {
        output.write_all(&listing(&changed(case)))?;
    }
    Ok(())
}

/// Sheets in numbers, with their first visit line and their last line; then
/// some lines of a sheet of two pages, by their numbers from 1; then a refusal.
fn sheet_section(output: &mut impl Write) -> io::Result<()> {
    writeln!(output, "sheet")?;
    for count in [0, 1, 48, 49] {
        sheet_line(output, count, &sheet(&one_record(count)))?;
    }
    sheet_line(output, 2_047 * 4_096, &sheet(&most_visits()))?;
    let two_pages = sheet(&one_record(49));
    for number in [1, 49, 50, 52, 53] {
        writeln!(output, "{number} {}", quoted(&two_pages, number))?;
    }
    output.write_all(&sheet(&changed([96, 32, 1, 32, 1])))
}

/// The base file's record 1 alone, with this count of visits.
fn one_record(count: u32) -> Vec<u8> {
    changed([64, 32, 0, 60, count])
}

/// The largest file, all records on its chain and full of visits. The first
/// one lies at the lowest position to the right and the highest downward.
fn most_visits() -> Vec<u8> {
    let (left, top) = ((-1_000_000i32) as u32, 1_000_000);
    let record = |number: u32| [number - 1, left, top, 1, 1_000_000, 0, u32::MAX, 4_096];
    let mut records = vec![[2_047, 32, 0, 0, 0, 0, 0, 0]];
    records.extend((1..=2_047).map(record));
    file_of(&records)
}

/// Visits, pages, bytes, the second line and the last.
fn sheet_line(output: &mut impl Write, visits: u32, sheet: &[u8]) -> io::Result<()> {
    let (bytes, last) = (sheet.len(), sheet.len() / LINE_BYTES);
    write!(output, "{visits} {} {bytes} ", bytes / PAGE_BYTES)?;
    writeln!(output, "{} {}", quoted(sheet, 2), quoted(sheet, last))
}

/// The columns of a line, the first line being 1.
fn quoted(sheet: &[u8], number: usize) -> String {
    let line = &sheet[(number - 1) * LINE_BYTES..][..COLUMNS];
    format!("\"{}\"", line.escape_ascii())
}
