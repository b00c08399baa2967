//! The listing of a region file: what the listing program prints.

use crate::library;
use crate::pieces::{Pieces, TextCursor};
use crate::raw;

pub use crate::raw::Cursor;

/// The listing of a region file, piece by piece.
///
/// As an iterator it gives pieces of whole lines. The listing of a refused file is the one line
/// `refused`, a space and the number.
///
/// ```
/// use vektrid::Listing;
///
/// let pieces: Vec<Vec<u8>> = Listing::open(&[0; 40]).collect();
/// assert_eq!(pieces, [b"refused 11\n"]);
/// ```
pub type Listing<'a> = Pieces<'a, Cursor>;

impl TextCursor for Cursor {
    fn open(file: &[u8]) -> Cursor {
        let mut cursor = Cursor { words: [0; 13] };
        // SAFETY: a lent slice with its length, and a variable.
        library::call(|| unsafe {
            raw::vektrid_listing_open(file.as_ptr(), file.len(), &mut cursor)
        });
        cursor
    }

    fn piece(&mut self, file: &[u8], buffer: &mut [u8]) -> usize {
        // SAFETY: two lent slices with their lengths, and a cursor; what is written is lent to us
        // alone.
        library::call(|| unsafe {
            raw::vektrid_listing_piece(
                file.as_ptr(),
                file.len(),
                self,
                buffer.as_mut_ptr(),
                buffer.len(),
            )
        })
    }
}

/// The whole listing of a file.
///
/// ```
/// let words = [1, 2, 0, 0, 0, 0, 0, 0, 0, 70, 90, 1000, 800, 0, 0, 2_u32];
/// let file: Vec<u8> = words.iter().flat_map(|word| word.to_le_bytes()).collect();
/// assert_eq!(vektrid::listing(&file), b"record visit x y\n1 0 70 90\n1 1 570 490\n");
/// ```
pub fn listing(file: &[u8]) -> Vec<u8> {
    Listing::open(file).flatten().collect()
}
