//! Flips that are refused, for the calls that take any bytes.

use vektrid::{Refusal, ScrambleBytes, Shift};

const NONE: [u8; 32] = [0; 32];

/// Flip bit 255 and no other.
const BIT_255: [u8; 32] = {
    let mut bytes = NONE;
    bytes[31] = 0x80;
    bytes
};

const fn flips(flips_x: &'static [u8], flips_y: &'static [u8]) -> ScrambleBytes<'static> {
    ScrambleBytes { shift: Shift { x: 0, y: 0 }, flips_x, flips_y }
}

/// The first has every refusal of flips due, the second 18 alone.
pub const SEVENTEEN: ScrambleBytes = flips(&BIT_255, &[0xFF; 33]);
pub const EIGHTEEN: ScrambleBytes = flips(&NONE, &BIT_255);

/// Too few and too many bytes for one axis and for both, also with flip bit 255 of the other axis
/// set; and flip bit 255 of one axis and of both.
pub const REFUSED: [(Refusal, ScrambleBytes); 16] = [
    (Refusal::FlipBytes, flips(&[], &NONE)),
    (Refusal::FlipBytes, flips(&[0; 31], &NONE)),
    (Refusal::FlipBytes, flips(&[0; 33], &NONE)),
    (Refusal::FlipBytes, flips(&NONE, &[])),
    (Refusal::FlipBytes, flips(&NONE, &[0; 31])),
    (Refusal::FlipBytes, flips(&NONE, &[0; 64])),
    (Refusal::FlipBytes, flips(&[], &[])),
    (Refusal::FlipBytes, flips(&[0; 31], &[0; 33])),
    (Refusal::FlipBytes, flips(&[0; 64], &[])),
    (Refusal::FlipBytes, flips(&BIT_255, &[0; 31])),
    (Refusal::FlipBytes, flips(&[0; 31], &BIT_255)),
    (Refusal::FlipBytes, SEVENTEEN),
    (Refusal::FlipBit, flips(&BIT_255, &NONE)),
    (Refusal::FlipBit, EIGHTEEN),
    (Refusal::FlipBit, flips(&BIT_255, &BIT_255)),
    (Refusal::FlipBit, flips(&[0xFF; 32], &NONE)),
];
