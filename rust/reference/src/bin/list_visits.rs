//! Prints the visits of the region file on standard input, or its refusal.

#![forbid(unsafe_code)]

use std::io;

use reference::filter;
use reference::listing::listing;

fn main() -> io::Result<()> {
    filter::run(listing)
}
