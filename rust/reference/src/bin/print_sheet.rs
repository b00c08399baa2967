//! Prints the visit sheet of the region file on standard input, or its refusal.

#![forbid(unsafe_code)]

use std::io;

use reference::filter;
use reference::sheet::sheet;

fn main() -> io::Result<()> {
    filter::run(sheet)
}
