//! What a listing and a sheet share: both are texts of a region file that come in pieces of whole
//! lines.

use std::iter::FusedIterator;

/// The length of the longest line, line feed included. A piece needs room for one.
pub const LONGEST_LINE: usize = 46;

/// The room of the pieces that the iterator gives.
const PIECE: usize = 4_096;

/// A cursor in a text, which stands for the two calls that take it. The module is private, so these
/// are the cursors of this crate alone.
pub trait TextCursor: Copy {
    /// The cursor before the first line of a file's text.
    fn open(file: &[u8]) -> Self;

    /// Writes the next piece at the start of the buffer, moves past it, and says how long it is.
    fn piece(&mut self, file: &[u8], buffer: &mut [u8]) -> usize;
}

/// A text of a region file, piece by piece: a [`Listing`](crate::Listing) or a
/// [`Sheet`](crate::Sheet), as its cursor says.
///
/// As an iterator it gives pieces of whole lines. The text of a refused file is the one line
/// `refused`, a space and the number.
#[derive(Clone, Debug)]
pub struct Pieces<'a, C> {
    file: &'a [u8],
    cursor: C,
}

impl<'a, C: TextCursor> Pieces<'a, C> {
    /// The start of the text of a file.
    pub fn open(file: &'a [u8]) -> Pieces<'a, C> {
        Pieces { file, cursor: C::open(file) }
    }

    /// Goes on at a cursor that was kept. A cursor of another file, or one made by hand, gives some
    /// text.
    pub fn at(file: &'a [u8], cursor: C) -> Pieces<'a, C> {
        Pieces { file, cursor }
    }

    /// The cursor past the last piece given, for [`Pieces::at`].
    pub fn cursor(&self) -> C {
        self.cursor
    }

    /// Writes whole lines at the start of the buffer while the longest line has room, and says how
    /// many bytes those are. 0 bytes into a buffer of [`LONGEST_LINE`] or more: the text has ended.
    /// Bytes of the buffer past the piece keep their content.
    pub fn piece(&mut self, buffer: &mut [u8]) -> usize {
        self.cursor.piece(self.file, buffer)
    }
}

impl<C: TextCursor> Iterator for Pieces<'_, C> {
    type Item = Vec<u8>;

    fn next(&mut self) -> Option<Vec<u8>> {
        let mut piece = vec![0; PIECE];
        let length = self.piece(&mut piece);
        piece.truncate(length);
        (length > 0).then_some(piece)
    }
}

/// After its end a text gives no more pieces.
impl<C: TextCursor> FusedIterator for Pieces<'_, C> {}
