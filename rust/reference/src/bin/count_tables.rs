//! Prints the bounds of the visits in a cell, each stop as the row of a Markdown
//! table, to be compared with the tables of another program: first the rows for
//! any start, then those for start 0.

#![forbid(unsafe_code)]

use std::io::{self, BufWriter, Write};

use reference::counts::{count_bounds, count_bounds_from, row, STOPS};

fn main() -> io::Result<()> {
    let mut output = BufWriter::new(io::stdout().lock());
    for n in STOPS {
        writeln!(output, "{}", row(n, count_bounds))?;
    }
    for n in STOPS {
        writeln!(output, "{}", row(n, |n, m| count_bounds_from(0, n, m)))?;
    }
    output.flush()
}
