//! The visit sheet of a region file: what the sheet program prints.

use std::iter::FusedIterator;

use crate::library;
use crate::pieces::{Pieces, TextCursor};
use crate::raw;
use crate::refusal::Refusal;
use crate::region_file::judge;

pub use crate::raw::SheetCursor;

/// The length of a page of a sheet in bytes: 50 lines of 27 columns, each with its line feed.
pub const PAGE: usize = 50 * (27 + 1);

/// The visit sheet of a region file, piece by piece.
///
/// A sheet has pages of 50 lines, on which visits are ticked off: a heading, 48 visits in the order
/// of the listing, and the number of the page. All fields are right-aligned in their columns, and
/// lines that the last page lacks are blank. A file without visits has one page.
///
/// As an iterator it gives pieces of whole lines; [`sheet_pages`] gives whole pages. The sheet of a
/// refused file is the one line `refused`, a space and the number.
///
/// ```
/// use vektrid::Sheet;
///
/// let pieces: Vec<Vec<u8>> = Sheet::open(&[0; 40]).collect();
/// assert_eq!(pieces, [b"refused 11\n"]);
/// ```
pub type Sheet<'a> = Pieces<'a, SheetCursor>;

impl TextCursor for SheetCursor {
    fn open(file: &[u8]) -> SheetCursor {
        let mut cursor = SheetCursor { words: [0; 14] };
        // SAFETY: a lent slice with its length, and a variable.
        library::call(|| unsafe {
            raw::vektrid_sheet_open(file.as_ptr(), file.len(), &mut cursor)
        });
        cursor
    }

    fn piece(&mut self, file: &[u8], buffer: &mut [u8]) -> usize {
        // SAFETY: two lent slices with their lengths, and a cursor; what is written is lent to us
        // alone.
        library::call(|| unsafe {
            raw::vektrid_sheet_piece(
                file.as_ptr(),
                file.len(),
                self,
                buffer.as_mut_ptr(),
                buffer.len(),
            )
        })
    }
}

/// The whole sheet of a file.
///
/// ```
/// let words = [1, 2, 0, 0, 0, 0, 0, 0, 0, 70, 90, 1000, 800, 0, 0, 2_u32];
/// let file: Vec<u8> = words.iter().flat_map(|word| word.to_le_bytes()).collect();
/// let sheet = String::from_utf8(vektrid::sheet(&file)).unwrap();
/// let lines: Vec<&str> = sheet.lines().collect();
/// assert_eq!(lines.len(), 50);
/// assert_eq!(lines[0], " rec  vis        x        y");
/// assert_eq!(lines[1], "   1    0       70       90");
/// assert_eq!(lines[2], "   1    1      570      490");
/// assert_eq!(lines[3], "                           ");
/// assert_eq!(lines[49], "                          1");
/// ```
pub fn sheet(file: &[u8]) -> Vec<u8> {
    Sheet::open(file).flatten().collect()
}

/// The pages of a file's sheet, or the refusal that [`judge`] gives.
///
/// ```
/// use vektrid::{sheet_pages, Refusal, PAGE};
///
/// let words = [1, 2, 0, 0, 0, 0, 0, 0, 0, 70, 90, 1000, 800, 0, 0, 49_u32];
/// let file: Vec<u8> = words.iter().flat_map(|word| word.to_le_bytes()).collect();
/// let pages: Vec<[u8; PAGE]> = sheet_pages(&file)?.collect();
/// assert_eq!(pages.len(), 2);
/// assert!(pages[1].ends_with(b" 2\n"));
/// # Ok::<(), Refusal>(())
/// ```
pub fn sheet_pages(file: &[u8]) -> Result<SheetPages<'_>, Refusal> {
    judge(file)?;
    Ok(SheetPages { sheet: Sheet::open(file), rest: Vec::new() })
}

/// The pages of a sheet, given by [`sheet_pages`].
#[derive(Clone, Debug)]
pub struct SheetPages<'a> {
    sheet: Sheet<'a>,
    /// What the pieces so far have of the next page.
    rest: Vec<u8>,
}

impl Iterator for SheetPages<'_> {
    type Item = [u8; PAGE];

    fn next(&mut self) -> Option<[u8; PAGE]> {
        while self.rest.len() < PAGE {
            self.rest.extend(self.sheet.next()?);
        }
        let mut page = [0; PAGE];
        page.copy_from_slice(&self.rest[..PAGE]);
        self.rest.drain(..PAGE);
        Some(page)
    }
}

/// After its end a sheet gives no more pages.
impl FusedIterator for SheetPages<'_> {}
