//! The section on nested flips: points, queries, and flips that are judged.

use std::io::{self, Write};

use reference::flips::Scramble;
use reference::pair::{Pair, NO_SHIFT};
use reference::query::Query;

use crate::{other_pair, point_line, query_line, OTHER_SHIFT};

/// The length of the flips of x and their last byte, and the same of y.
type Judged = (usize, u8, usize, u8);

/// Each reason to refuse, the first before the second, and the last byte at its
/// limit.
const JUDGED: [Judged; 6] = [
    (31, 0, 32, 0),
    (32, 0, 33, 0),
    (32, 128, 31, 0),
    (32, 128, 32, 0),
    (32, 0, 32, 128),
    (32, 127, 32, 127),
];

pub fn all(output: &mut impl Write) -> io::Result<()> {
    writeln!(output, "flips")?;
    let (flips_x, flips_y) = (mixed_flips(37, 11), mixed_flips(101, 7));
    let scramble = Scramble { shift: OTHER_SHIFT, flips_x: &flips_x, flips_y: &flips_y };
    let pair = other_pair();
    for index in 0..256 {
        write!(output, "{index} ")?;
        point_line(output, pair.point(index, scramble))?;
    }
    for column in 0..4 {
        for row in 0..4 {
            query_line(output, &pair, scramble, 32, Query { m: 4, a: 2, column, row, block: 5 })?;
        }
    }
    for judged in JUDGED {
        judged_line(output, judged)?;
    }
    Ok(())
}

/// Byte i is factor * i + first modulo 256, but byte 31 modulo 128, so that flip
/// bit 255 is clear.
fn mixed_flips(factor: usize, first: usize) -> [u8; 32] {
    let modulus = |i| if i == 31 { 128 } else { 256 };
    std::array::from_fn(|i| ((factor * i + first) % modulus(i)) as u8)
}

/// The point of index 1 of the standard pair under these flips, or the refusal.
fn judged_line(output: &mut impl Write, judged: Judged) -> io::Result<()> {
    let (x_length, x_last, y_length, y_last) = judged;
    write!(output, "{x_length} {x_last} {y_length} {y_last} ")?;
    let (flips_x, flips_y) = (zeros_and(x_length, x_last), zeros_and(y_length, y_last));
    let scramble = Scramble { shift: NO_SHIFT, flips_x: &flips_x, flips_y: &flips_y };
    point_line(output, Pair::standard().point(1, scramble))
}

/// So many bytes, all of them 0 but the last one.
fn zeros_and(length: usize, last: u8) -> Vec<u8> {
    let mut bytes = vec![0; length - 1];
    bytes.push(last);
    bytes
}
