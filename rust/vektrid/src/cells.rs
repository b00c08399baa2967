//! From elementary intervals back to the visits in them, one by one and many at once.

use crate::library;
use crate::pair::Pair;
use crate::raw;
use crate::refusal::{judged_net, Refusal};
use crate::scramble::{Scramble, ScrambleBytes};

/// An elementary interval (cell) of the shape (m, a), and the block to look in. The shape has 2^a
/// columns and 2^(m-a) rows; block k has the indexes k × 2^m to (k+1) × 2^m - 1.
#[derive(Clone, Copy, Debug, PartialEq, Eq, Hash)]
pub struct Cell {
    /// The block has 2^m visits.
    pub m: u32,
    /// The shape has 2^a columns.
    pub a: u32,
    /// The column, below 2^a.
    pub column: u32,
    /// The row, below 2^(m-a).
    pub row: u32,
    /// The block, below 2^(32-m).
    pub block: u32,
}

/// Many elementary intervals (cells) of one shape, and the block to look in. Interval number i has the
/// column `columns[i]` and the row `rows[i]`; the same one may stand there more than once.
#[derive(Clone, Copy, Debug, PartialEq, Eq, Hash)]
pub struct Cells<'a> {
    /// The block has 2^m visits.
    pub m: u32,
    /// The shape has 2^a columns.
    pub a: u32,
    /// The columns, each below 2^a.
    pub columns: &'a [u32],
    /// The rows, as many as the columns, each below 2^(m-a).
    pub rows: &'a [u32],
    /// The block, below 2^(32-m).
    pub block: u32,
}

impl Pair {
    /// The one index of the block whose point lies in the cell, or the first refusal that applies,
    /// in the order 2, 17, 18, 4, 5, 6, 7, 3. The flips of a scramble are judged already, so that only
    /// [`query_words`] gives 17 and 18. The pair need not be checked before.
    ///
    /// ```
    /// use vektrid::{Cell, Pair, Refusal, Shift};
    ///
    /// let cell = Cell { m: 2, a: 1, column: 1, row: 0, block: 1 };
    /// assert_eq!(Pair::standard().query(Shift::default(), 32, cell), Ok(5));
    ///
    /// let outside = Cell { column: 2, ..cell };
    /// assert_eq!(Pair::standard().query(Shift::default(), 32, outside), Err(Refusal::Cell));
    /// ```
    pub fn query(
        &self,
        scramble: impl Into<Scramble>,
        level: u32,
        cell: Cell,
    ) -> Result<u32, Refusal> {
        let scramble = scramble.into();
        query_words(self.words(), &scramble, level, cell)
    }

    /// Writes to `answers[i]` what [`Pair::query`] gives for cell number i, for all cells in one call.
    /// Refused under the first that applies, and then nothing is written, in the order 8, 2, 17, 18, 4,
    /// 5, then 6 of the first cell, 7, 3, then 6 of the later cells; only [`overview_words`] gives 17 and
    /// 18. Refusal 8 is given unless there are as many rows and as many answers as columns. Without
    /// cells, all of these but 6 are judged all the same.
    ///
    /// ```
    /// use vektrid::{Cells, Pair, Refusal, Shift};
    ///
    /// // The squares of two by two, row by row, and the visits of block 1 in them.
    /// let (columns, rows) = ([0, 1, 0, 1], [0, 0, 1, 1]);
    /// let cells = Cells { m: 2, a: 1, columns: &columns, rows: &rows, block: 1 };
    /// let mut answers = [0; 4];
    /// Pair::standard().overview(Shift::default(), 32, cells, &mut answers)?;
    /// assert_eq!(answers, [6, 5, 4, 7]);
    ///
    /// let outside = Cells { columns: &[0, 1, 0, 2], ..cells };
    /// let refused = Pair::standard().overview(Shift::default(), 32, outside, &mut answers);
    /// assert_eq!((refused, answers), (Err(Refusal::Cell), [6, 5, 4, 7]));
    /// # Ok::<(), Refusal>(())
    /// ```
    pub fn overview(
        &self,
        scramble: impl Into<Scramble>,
        level: u32,
        cells: Cells<'_>,
        answers: &mut [u32],
    ) -> Result<(), Refusal> {
        let scramble = scramble.into();
        overview_words(self.words(), &scramble, level, cells, answers)
    }
}

/// [`Pair::query`] for any number of words and bytes: refusal 1 comes before the others.
pub fn query_words<'a>(
    words: &[u32],
    scramble: impl Into<ScrambleBytes<'a>>,
    level: u32,
    cell: Cell,
) -> Result<u32, Refusal> {
    let ScrambleBytes { shift, flips_x, flips_y } = scramble.into();
    let Cell { m, a, column, row, block } = cell;
    let (mut index, mut j) = (0, 0);
    // SAFETY: three lent slices with their lengths, and two variables.
    let number = library::call(|| unsafe {
        raw::vektrid_query(
            words.as_ptr(),
            words.len(),
            shift.x,
            shift.y,
            flips_x.as_ptr(),
            flips_x.len(),
            flips_y.as_ptr(),
            flips_y.len(),
            level,
            m,
            a,
            column,
            row,
            block,
            &mut index,
            &mut j,
        )
    });
    judged_net(number, m, a, j).map(|()| index)
}

/// [`Pair::overview`] for any number of words and bytes: refusal 1 comes before the others.
pub fn overview_words<'a>(
    words: &[u32],
    scramble: impl Into<ScrambleBytes<'a>>,
    level: u32,
    cells: Cells<'_>,
    answers: &mut [u32],
) -> Result<(), Refusal> {
    let ScrambleBytes { shift, flips_x, flips_y } = scramble.into();
    let Cells { m, a, columns, rows, block } = cells;
    let mut j = 0;
    // SAFETY: six lent slices with their lengths, of which the one that is written is lent to us
    // alone, and a variable.
    let number = library::call(|| unsafe {
        raw::vektrid_overview(
            words.as_ptr(),
            words.len(),
            shift.x,
            shift.y,
            flips_x.as_ptr(),
            flips_x.len(),
            flips_y.as_ptr(),
            flips_y.len(),
            level,
            m,
            a,
            block,
            columns.as_ptr(),
            columns.len(),
            rows.as_ptr(),
            rows.len(),
            answers.as_mut_ptr(),
            answers.len(),
            &mut j,
        )
    });
    judged_net(number, m, a, j)
}
