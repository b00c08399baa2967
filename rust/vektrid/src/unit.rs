//! Unit numbers: coordinates from 0 up to 1.

use crate::library;
use crate::pair::Pair;
use crate::points::JUDGED;
use crate::raw;
use crate::refusal::{judged, Refusal};
use crate::scramble::{Scramble, ScrambleBytes};

/// The two coordinates of a visit as singles.
#[derive(Clone, Copy, Debug, PartialEq)]
pub struct Singles {
    /// The first coordinate.
    pub x: f32,
    /// The second coordinate.
    pub y: f32,
}

/// A word divided by 2^32, exactly.
///
/// ```
/// assert_eq!(vektrid::double(0xC000_0000), 0.75);
/// ```
pub fn double(word: u32) -> f64 {
    // SAFETY: no pointer is passed.
    library::call(|| unsafe { raw::vektrid_double(word) })
}

/// The largest single not above a word divided by 2^32, so that it never reaches the next strip.
/// `docs/SINGLES.md` of the repository lays its bits out, by cases.
///
/// ```
/// assert_eq!(vektrid::single(1).to_bits(), 0x2F80_0000);
/// assert!(vektrid::single(0x7FFF_FFFF) < 0.5);
/// ```
pub fn single(word: u32) -> f32 {
    // SAFETY: no pointer is passed.
    library::call(|| unsafe { raw::vektrid_single(word) })
}

impl Pair {
    /// The point of an index as two singles.
    ///
    /// ```
    /// use vektrid::{Pair, Shift, Singles};
    ///
    /// let singles = Pair::standard().point_singles(Shift::default(), 3);
    /// assert_eq!(singles, Singles { x: 0.75, y: 0.25 });
    /// ```
    pub fn point_singles(&self, scramble: impl Into<Scramble>, index: u32) -> Singles {
        let scramble = scramble.into();
        point_singles_words(self.words(), &scramble, index).expect(JUDGED)
    }
}

/// [`Pair::point_singles`] for any number of words and bytes. Refused under 1, 17 or 18, in this
/// order.
pub fn point_singles_words<'a>(
    words: &[u32],
    scramble: impl Into<ScrambleBytes<'a>>,
    index: u32,
) -> Result<Singles, Refusal> {
    let ScrambleBytes { shift, flips_x, flips_y } = scramble.into();
    let mut singles = Singles { x: 0.0, y: 0.0 };
    // SAFETY: three lent slices with their lengths, and two fields of one variable.
    let number = library::call(|| unsafe {
        raw::vektrid_point_singles(
            words.as_ptr(),
            words.len(),
            shift.x,
            shift.y,
            flips_x.as_ptr(),
            flips_x.len(),
            flips_y.as_ptr(),
            flips_y.len(),
            index,
            &mut singles.x,
            &mut singles.y,
        )
    });
    judged(number).map(|()| singles)
}
