//! Prints the 33 cases of the singles, each as the row of a Markdown table, to be
//! compared with the table of another program.

#![forbid(unsafe_code)]

use std::io::{self, BufWriter, Write};

use reference::single_cases::{row, CASES};

fn main() -> io::Result<()> {
    let mut output = BufWriter::new(io::stdout().lock());
    for (z, field) in CASES {
        writeln!(output, "{}", row(z, field))?;
    }
    output.flush()
}
