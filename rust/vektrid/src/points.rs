//! Points from indexes, one by one and into buffers.

use crate::library;
use crate::pair::Pair;
use crate::raw;
use crate::refusal::{judged, Refusal};
use crate::scramble::{Scramble, ScrambleBytes};

/// The two coordinates of a visit, in parts of 2^32.
#[derive(Clone, Copy, Debug, PartialEq, Eq, Hash)]
pub struct Point {
    /// The first coordinate.
    pub x: u32,
    /// The second coordinate.
    pub y: u32,
}

/// Why a call with a pair and a scramble cannot be refused for them.
pub(crate) const JUDGED: &str = "a pair has 64 words, and the flips of a scramble were judged";

impl Pair {
    /// The point of an index.
    ///
    /// ```
    /// use vektrid::{Pair, Point, Shift};
    ///
    /// let point = Pair::standard().point(Shift::default(), 5);
    /// assert_eq!(point, Point { x: 0xA000_0000, y: 0x2000_0000 });
    /// ```
    pub fn point(&self, scramble: impl Into<Scramble>, index: u32) -> Point {
        let scramble = scramble.into();
        point_words(self.words(), &scramble, index).expect(JUDGED)
    }

    /// Writes the points of the indexes from `start` on into every word of two buffers. Refused
    /// under 8 or 9, and then nothing is written.
    ///
    /// ```
    /// use vektrid::{Pair, Refusal, Shift};
    ///
    /// let (mut xs, mut ys) = ([0; 4], [0; 4]);
    /// Pair::standard().fill(Shift::default(), 0, &mut xs, &mut ys)?;
    /// assert_eq!(xs, [0, 0x8000_0000, 0x4000_0000, 0xC000_0000]);
    /// assert_eq!(ys, [0, 0x8000_0000, 0xC000_0000, 0x4000_0000]);
    /// # Ok::<(), Refusal>(())
    /// ```
    pub fn fill(
        &self,
        scramble: impl Into<Scramble>,
        start: u32,
        xs: &mut [u32],
        ys: &mut [u32],
    ) -> Result<(), Refusal> {
        let scramble = scramble.into();
        fill_words(self.words(), &scramble, start, xs, ys)
    }
}

/// The point of an index of the standard pair, without its matrices: the same as [`Pair::point`],
/// faster.
///
/// ```
/// use vektrid::{standard_point, Pair, Shift};
///
/// let shift = Shift { x: 0x1234_5678, y: 0x9ABC_DEF0 };
/// assert_eq!(standard_point(shift, 77), Pair::standard().point(shift, 77));
/// ```
pub fn standard_point(scramble: impl Into<Scramble>, index: u32) -> Point {
    let scramble = scramble.into();
    standard_point_bytes(&scramble, index).expect(JUDGED)
}

/// [`standard_point`] for flips of any number of bytes. Refused under 17 or 18.
pub fn standard_point_bytes<'a>(
    scramble: impl Into<ScrambleBytes<'a>>,
    index: u32,
) -> Result<Point, Refusal> {
    let ScrambleBytes { shift, flips_x, flips_y } = scramble.into();
    let mut point = Point { x: 0, y: 0 };
    // SAFETY: two lent slices with their lengths, and two fields of one variable.
    let number = library::call(|| unsafe {
        raw::vektrid_standard_point(
            shift.x,
            shift.y,
            flips_x.as_ptr(),
            flips_x.len(),
            flips_y.as_ptr(),
            flips_y.len(),
            index,
            &mut point.x,
            &mut point.y,
        )
    });
    judged(number).map(|()| point)
}

/// [`Pair::point`] for any number of words and bytes. Refused under 1, 17 or 18, in this order.
pub fn point_words<'a>(
    words: &[u32],
    scramble: impl Into<ScrambleBytes<'a>>,
    index: u32,
) -> Result<Point, Refusal> {
    let ScrambleBytes { shift, flips_x, flips_y } = scramble.into();
    let mut point = Point { x: 0, y: 0 };
    // SAFETY: three lent slices with their lengths, and two fields of one variable.
    let number = library::call(|| unsafe {
        raw::vektrid_point(
            words.as_ptr(),
            words.len(),
            shift.x,
            shift.y,
            flips_x.as_ptr(),
            flips_x.len(),
            flips_y.as_ptr(),
            flips_y.len(),
            index,
            &mut point.x,
            &mut point.y,
        )
    });
    judged(number).map(|()| point)
}

/// [`Pair::fill`] for any number of words and bytes. Refused under 1, 17, 18, 8 or 9, in this order,
/// and then nothing is written.
pub fn fill_words<'a>(
    words: &[u32],
    scramble: impl Into<ScrambleBytes<'a>>,
    start: u32,
    xs: &mut [u32],
    ys: &mut [u32],
) -> Result<(), Refusal> {
    let ScrambleBytes { shift, flips_x, flips_y } = scramble.into();
    // SAFETY: five lent slices with their lengths; those written are lent to us alone.
    judged(library::call(|| unsafe {
        raw::vektrid_fill(
            words.as_ptr(),
            words.len(),
            shift.x,
            shift.y,
            flips_x.as_ptr(),
            flips_x.len(),
            flips_y.as_ptr(),
            flips_y.len(),
            start,
            xs.as_mut_ptr(),
            xs.len(),
            ys.as_mut_ptr(),
            ys.len(),
        )
    }))
}
