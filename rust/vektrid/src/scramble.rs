//! What is done to the products of matrices and index: nested flips, and then a digital shift.

use crate::points::standard_point_bytes;
use crate::refusal::Refusal;

/// A digital shift (scramble words), one word for each axis. The default shifts nothing.
#[derive(Clone, Copy, Debug, Default, PartialEq, Eq, Hash)]
pub struct Shift {
    /// Added to the first coordinate, bit by bit modulo 2.
    pub x: u32,
    /// Added to the second coordinate.
    pub y: u32,
}

/// Nested flips: Owen's nested scrambling to depth 8, by 32 bytes of flip bits for each axis. The
/// default flips nothing.
///
/// Bit t from the top of a product, t from 0 to 7, is flipped where flip bit 2^t - 1 + p of its axis
/// is set, p being the t bits above it in the product, read as a number. Flip bit n is bit n % 8 of
/// byte n / 8, both from the lowest. Flip bit 255 belongs to no bit and is 0.
///
/// ```
/// use vektrid::{Flips, Pair, Refusal};
///
/// // Flip bits 0 and 2 of x: the first bit of every product, and the second of those with a first
/// // bit of 1. The columns of four are 0, 2, 1 and 3 without them.
/// let (mut x, y) = ([0; Flips::BYTES], [0; Flips::BYTES]);
/// x[0] = 0b101;
/// let flips = Flips::from_bytes(&x, &y)?;
/// let columns = [0, 1, 2, 3].map(|index| Pair::standard().point(flips, index).x >> 30);
/// assert_eq!(columns, [2, 1, 3, 0]);
///
/// assert_eq!(Flips::from_bytes(&x[..31], &y), Err(Refusal::FlipBytes));
/// assert_eq!(Flips::from_bytes(&[0xFF; 32], &y), Err(Refusal::FlipBit));
/// # Ok::<(), Refusal>(())
/// ```
#[derive(Clone, Copy, Debug, Default, PartialEq, Eq, Hash)]
pub struct Flips {
    x: [u8; Flips::BYTES],
    y: [u8; Flips::BYTES],
}

impl Flips {
    /// The number of bytes of an axis.
    pub const BYTES: usize = 32;

    /// The flips with these bytes for the two axes, as the library judges them. Refused under 17
    /// unless both have 32 bytes, and then under 18 where flip bit 255 of either is set.
    pub fn from_bytes(x: &[u8], y: &[u8]) -> Result<Flips, Refusal> {
        let bytes = ScrambleBytes { shift: Shift::default(), flips_x: x, flips_y: y };
        // The cheapest call that judges flips; its point is not needed.
        standard_point_bytes(bytes, 0)?;
        let mut flips = Flips::default();
        flips.x.copy_from_slice(x);
        flips.y.copy_from_slice(y);
        Ok(flips)
    }

    /// The bytes of the first axis.
    pub fn x(&self) -> &[u8; Flips::BYTES] {
        &self.x
    }

    /// The bytes of the second axis.
    pub fn y(&self) -> &[u8; Flips::BYTES] {
        &self.y
    }
}

/// A scramble: the flips of each axis, and then its shift. The default changes nothing.
///
/// Calls that take a scramble take a [`Shift`] or [`Flips`] alone as well.
///
/// ```
/// use vektrid::{Cell, Pair, Refusal, Scramble, Shift};
///
/// let (pair, scramble) = (Pair::standard(), Scramble::random(7));
/// let point = pair.point(scramble, 5);
/// let cell = Cell { m: 4, a: 2, column: point.x >> 30, row: point.y >> 30, block: 0 };
/// assert_eq!(pair.query(scramble, 32, cell)?, 5);
///
/// let shift = Shift { x: 0x1234_5678, y: 0x9ABC_DEF0 };
/// assert_eq!(pair.point(shift, 5), pair.point(Scramble { shift, ..Scramble::default() }, 5));
/// # Ok::<(), Refusal>(())
/// ```
#[derive(Clone, Copy, Debug, Default, PartialEq, Eq, Hash)]
pub struct Scramble {
    /// Added last.
    pub shift: Shift,
    /// Applied to the products, before the shift.
    pub flips: Flips,
}

impl Scramble {
    /// The scramble that a seed names: random flips and a random shift. The same seed names the same
    /// scramble in every program, so that a plan can be made again from its seed.
    ///
    /// Nine numbers of 64 bits come from SplitMix64, its state starting at the seed: for each of
    /// them 0x9E3779B97F4A7C15 is added to the state, and the number is z where, modulo 2^64,
    ///
    /// ```text
    /// z = state
    /// z = (z ^ (z >> 30)) * 0xBF58476D1CE4E5B9
    /// z = (z ^ (z >> 27)) * 0x94D049BB133111EB
    /// z =  z ^ (z >> 31)
    /// ```
    ///
    /// The low 32 bits of the first number are the shift of x, and its high 32 bits that of y. The
    /// second to fifth are the flips of x, each as 8 bytes with the lowest first, and the sixth to
    /// ninth those of y. Flip bit 255 of both axes is then cleared.
    ///
    /// ```
    /// use vektrid::{Scramble, Shift};
    ///
    /// let scramble = Scramble::random(0);
    /// assert_eq!(scramble.shift, Shift { x: 0x7B1D_CDAF, y: 0xE220_A839 });
    /// assert_eq!(scramble.flips.x()[..4], [0xF4, 0x65, 0xB9, 0xA1]);
    /// ```
    pub fn random(seed: u64) -> Scramble {
        let mut numbers = SplitMix64 { state: seed };
        let first = numbers.next();
        let shift = Shift { x: first as u32, y: (first >> 32) as u32 };
        let (x, y) = (numbers.axis(), numbers.axis());
        Scramble { shift, flips: Flips { x, y } }
    }
}

impl From<Shift> for Scramble {
    fn from(shift: Shift) -> Scramble {
        Scramble { shift, flips: Flips::default() }
    }
}

impl From<Flips> for Scramble {
    fn from(flips: Flips) -> Scramble {
        Scramble { shift: Shift::default(), flips }
    }
}

/// A scramble whose flips are not judged yet and may have any number of bytes, for the calls whose
/// pair may have any number of words. These take a [`Shift`] or a lent [`Scramble`] as well.
///
/// ```
/// use vektrid::{point_words, Pair, Refusal, ScrambleBytes, Shift};
///
/// let (pair, shift) = (Pair::standard(), Shift::default());
/// let short = ScrambleBytes { shift, flips_x: &[0; 32], flips_y: &[0; 31] };
/// assert_eq!(point_words(pair.words(), short, 5), Err(Refusal::FlipBytes));
/// assert_eq!(point_words(pair.words(), shift, 5), Ok(pair.point(shift, 5)));
/// ```
#[derive(Clone, Copy, Debug, PartialEq, Eq, Hash)]
pub struct ScrambleBytes<'a> {
    /// Added last.
    pub shift: Shift,
    /// The flips of the first axis: 32 bytes, or refusal 17 is due.
    pub flips_x: &'a [u8],
    /// The flips of the second axis.
    pub flips_y: &'a [u8],
}

impl From<Shift> for ScrambleBytes<'_> {
    fn from(shift: Shift) -> Self {
        const NO_FLIPS: &[u8] = &[0; Flips::BYTES];
        ScrambleBytes { shift, flips_x: NO_FLIPS, flips_y: NO_FLIPS }
    }
}

impl<'a> From<&'a Scramble> for ScrambleBytes<'a> {
    fn from(scramble: &'a Scramble) -> ScrambleBytes<'a> {
        let Scramble { shift, flips } = scramble;
        ScrambleBytes { shift: *shift, flips_x: &flips.x, flips_y: &flips.y }
    }
}

/// The numbers of [`Scramble::random`].
struct SplitMix64 {
    state: u64,
}

impl SplitMix64 {
    fn next(&mut self) -> u64 {
        self.state = self.state.wrapping_add(0x9E37_79B9_7F4A_7C15);
        let z = self.state;
        let z = (z ^ (z >> 30)).wrapping_mul(0xBF58_476D_1CE4_E5B9);
        let z = (z ^ (z >> 27)).wrapping_mul(0x94D0_49BB_1331_11EB);
        z ^ (z >> 31)
    }

    /// The flips of an axis.
    fn axis(&mut self) -> [u8; Flips::BYTES] {
        let mut bytes = [0; Flips::BYTES];
        for eight in bytes.chunks_exact_mut(8) {
            eight.copy_from_slice(&self.next().to_le_bytes());
        }
        bytes[Flips::BYTES - 1] &= 0x7F;
        bytes
    }
}
