//! Prints points, checks, queries, fills, walks, unit numbers, positions with
//! and without a field, answers to region files, listings and sheets, and at the
//! end points and queries under flips, to be compared byte by byte with the
//! output of another program.

#![forbid(unsafe_code)]

mod file_sections;
mod flip_section;
mod stage_sections;

use std::io::{self, BufWriter, Write};

use reference::check::check;
use reference::fill::fill;
use reference::flips::Scramble;
use reference::pair::{Pair, Point, Shift, NO_SHIFT};
use reference::query::{query, Query};
use reference::refusal::Refusal;
use reference::walk::{Step, Walk};

/// The shift of all sections but the first points.
const OTHER_SHIFT: Shift = Shift { x: 2_779_096_485, y: 1_515_870_810 };

fn main() -> io::Result<()> {
    let mut output = BufWriter::new(io::stdout().lock());
    points_sections(&mut output)?;
    check_section(&mut output)?;
    query_section(&mut output)?;
    fill_section(&mut output)?;
    walk_section(&mut output)?;
    stage_sections::all(&mut output)?;
    file_sections::all(&mut output)?;
    flip_section::all(&mut output)?;
    output.flush()
}

/// The standard pair with its rows mixed downward, so that it still passes.
fn other_pair() -> Pair {
    let standard = Pair::standard();
    Pair {
        x: standard.x.map(|word| word ^ (word >> 1) ^ (word >> 3)),
        y: standard.y.map(|word| word ^ (word >> 2)),
    }
}

/// The identity twice.
fn twice_pair() -> Pair {
    let x = Pair::standard().x;
    Pair { x, y: x }
}

fn points_sections(output: &mut impl Write) -> io::Result<()> {
    let shift = Shift { x: 305_419_896, y: 2_596_069_104 };
    let (standard, other) = (Pair::standard(), other_pair());
    points(output, "standard", &standard, NO_SHIFT, 1024)?;
    points(output, "standard", &standard, shift, 1024)?;
    points(output, "other", &other, NO_SHIFT, 256)?;
    points(output, "other", &other, OTHER_SHIFT, 256)
}

fn points(
    output: &mut impl Write,
    name: &str,
    pair: &Pair,
    shift: Shift,
    count: u32,
) -> io::Result<()> {
    writeln!(output, "points {name} {} {}", shift.x, shift.y)?;
    for index in 0..count {
        write!(output, "{index} ")?;
        point_line(output, pair.point(index, Scramble::of_shift(shift)))?;
    }
    Ok(())
}

/// Both coordinates, or the refusal.
fn point_line(output: &mut impl Write, point: Result<Point, Refusal>) -> io::Result<()> {
    match point {
        Ok(Point { x, y }) => writeln!(output, "{x} {y}"),
        Err(refusal) => writeln!(output, "{refusal}"),
    }
}

fn check_section(output: &mut impl Write) -> io::Result<()> {
    let standard = Pair::standard().words();
    let twice = twice_pair().words();
    writeln!(output, "check")?;
    for level in [0, 1, 32, 33, u32::MAX] {
        check_line(output, "standard", &standard, level)?;
    }
    check_line(output, "other", &other_pair().words(), 32)?;
    for level in [1, 2, 32] {
        check_line(output, "twice", &twice, level)?;
    }
    check_line(output, "zero", &[0; 64], 1)?;
    // The Y columns stand behind the 32 X columns.
    for (name, first) in [("gap-x", 0), ("gap-y", 32)] {
        for c in 0..32 {
            let mut words = standard.clone();
            words[first + c] = 0;
            check_line(output, &format!("{name} {c}"), &words, 32)?;
        }
    }
    // The sum of the X columns before it makes a j with many bits.
    for c in 0..32 {
        let mut words = standard.clone();
        words[c] = standard[..c].iter().fold(0, |sum, word| sum ^ word);
        check_line(output, &format!("sum-x {c}"), &words, 32)?;
    }
    check_line(output, "short", &standard[..63], 2)?;
    let mut long = standard.clone();
    long.push(0);
    check_line(output, "long", &long, 0)
}

fn check_line(output: &mut impl Write, name: &str, words: &[u32], level: u32) -> io::Result<()> {
    write!(output, "{name} {level} ")?;
    match check(words, level) {
        Ok(()) => writeln!(output, "passed"),
        Err(refusal) => writeln!(output, "{refusal}"),
    }
}

fn query_section(output: &mut impl Write) -> io::Result<()> {
    writeln!(output, "query")?;
    let (other, shifted) = (other_pair(), Scramble::of_shift(OTHER_SHIFT));
    for cell in small_queries().into_iter().chain(large_queries()) {
        query_line(output, &other, shifted, 32, cell)?;
    }
    let plain = Scramble::of_shift(NO_SHIFT);
    let cell = Query { m: 2, a: 1, column: 1, row: 0, block: 0 };
    query_line(output, &twice_pair(), plain, 2, cell)?;
    let judged = [
        (33, [2, 1, 0, 0, 0]),
        (0, [2, 1, 0, 0, 0]),
        (2, [3, 1, 0, 0, 0]),
        (2, [2, 3, 0, 0, 0]),
        (2, [2, 1, 2, 0, 0]),
        (2, [2, 1, 0, 2, 0]),
        (32, [4, 1, 0, 0, 268_435_456]),
        (32, [4, 1, 0, 0, 268_435_455]),
    ];
    for (level, [m, a, column, row, block]) in judged {
        let cell = Query { m, a, column, row, block };
        query_line(output, &Pair::standard(), plain, level, cell)?;
    }
    // With the zero pair every later refusal is due too: 2, 4, 5, 6, 7, 3.
    let most = u32::MAX;
    let in_order = [
        (33, [most; 5]),
        (2, [most; 5]),
        (2, [2, most, most, most, most]),
        (2, [2, 1, most, most, most]),
        (2, [2, 1, 1, 1, most]),
        (2, [2, 1, 1, 1, 0]),
    ];
    let zero = Pair { x: [0; 32], y: [0; 32] };
    for (level, [m, a, column, row, block]) in in_order {
        query_line(output, &zero, plain, level, Query { m, a, column, row, block })?;
    }
    Ok(())
}

/// Every cell of every shape up to m 4, in the blocks 0 and 5.
fn small_queries() -> Vec<Query> {
    let mut queries = Vec::new();
    for m in 0..=4 {
        for a in 0..=m {
            for column in 0..1 << a {
                for row in 0..1 << (m - a) {
                    for block in [0, 5] {
                        queries.push(Query { m, a, column, row, block });
                    }
                }
            }
        }
    }
    queries
}

/// The first cell of every shape with m 32, and one cell of a last block.
fn large_queries() -> Vec<Query> {
    let first_cell = |a| Query { m: 32, a, column: 0, row: 0, block: 0 };
    let mut queries: Vec<Query> = (0..=32).map(first_cell).collect();
    queries.push(Query { m: 16, a: 8, column: 200, row: 17, block: 65_535 });
    queries
}

fn query_line(
    output: &mut impl Write,
    pair: &Pair,
    scramble: Scramble<'_>,
    level: u32,
    cell: Query,
) -> io::Result<()> {
    let Query { m, a, column, row, block } = cell;
    write!(output, "{m} {a} {column} {row} {block} ")?;
    match query(pair, scramble, level, cell) {
        Ok(index) => writeln!(output, "found {index}"),
        Err(refusal) => writeln!(output, "{refusal}"),
    }
}

fn fill_section(output: &mut impl Write) -> io::Result<()> {
    writeln!(output, "fill")?;
    let fills = [
        (4_294_967_293, 3, 3),
        (4_294_967_293, 4, 4),
        (7, 0, 0),
        (4_294_967_295, 4, 5),
        (4_294_967_295, 1, 1),
    ];
    for (start, x_length, y_length) in fills {
        fill_lines(output, start, x_length, y_length)?;
    }
    Ok(())
}

/// What the buffers hold before a fill.
const MARK: u32 = 0xDEAD_BEEF;

/// Fills the first places of two buffers of five; the answer, and then the
/// first four places of both.
fn fill_lines(
    output: &mut impl Write,
    start: u32,
    x_length: usize,
    y_length: usize,
) -> io::Result<()> {
    let (mut x, mut y) = ([MARK; 5], [MARK; 5]);
    write!(output, "{start} {x_length} ")?;
    let scramble = Scramble::of_shift(OTHER_SHIFT);
    match fill(&other_pair(), scramble, start, &mut x[..x_length], &mut y[..y_length]) {
        Ok(()) => writeln!(output, "done")?,
        Err(refusal) => writeln!(output, "{refusal}")?,
    }
    for (x, y) in x.iter().zip(&y).take(4) {
        writeln!(output, "{x} {y}")?;
    }
    Ok(())
}

fn walk_section(output: &mut impl Write) -> io::Result<()> {
    writeln!(output, "walk")?;
    opened_walk(output, 4_294_967_294, 2, 3)?;
    opened_walk(output, 4_294_967_295, 2, 0)?;
    opened_walk(output, 0, 4_294_967_296, 2)?;
    // No opening gives this walk: it has more visits left than indexes.
    let by_hand = Walk { next: 4_294_967_294, left: 9 };
    writeln!(output, "{} {} hand", by_hand.next, by_hand.left)?;
    step_lines(output, by_hand, 3)
}

fn opened_walk(output: &mut impl Write, start: u32, count: u64, steps: u32) -> io::Result<()> {
    write!(output, "{start} {count} ")?;
    match Walk::open(start, count) {
        Ok(walk) => {
            writeln!(output, "open")?;
            step_lines(output, walk, steps)
        }
        Err(refusal) => writeln!(output, "{refusal}"),
    }
}

fn step_lines(output: &mut impl Write, mut walk: Walk, steps: u32) -> io::Result<()> {
    let pair = other_pair();
    for _ in 0..steps {
        let (step, after) = walk.step(&pair, Scramble::of_shift(OTHER_SHIFT));
        match step {
            Ok(Step::Visit { index, point }) => {
                writeln!(output, "{index} {} {}", point.x, point.y)?;
            }
            Ok(Step::Ended) => writeln!(output, "ended")?,
            Err(refusal) => writeln!(output, "{refusal}")?,
        }
        walk = after;
    }
    Ok(())
}
