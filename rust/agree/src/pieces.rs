//! Listings and sheets in pieces of any room, whole buffers compared.

use reference::listing::listing;
use reference::sheet::sheet;
use reference::trial::splitmix::Splitmix;
use reference::trial::{files, shrink};
use vektrid::{Listing, Sheet, LONGEST_LINE};

use crate::case::{simplified, Case};
use crate::simpler::simpler_file;

/// What a buffer holds before its piece.
const MARK: u8 = 0xEE;

/// Too small for a piece, just large enough, at the end of a second line or a third, and of a page
/// of a sheet.
const ROOMS: [usize; 17] =
    [0, 1, 17, 45, 46, 47, 62, 63, 64, 91, 92, 93, 137, 138, 1_400, 1_417, 1_418];

/// No more pieces are asked for, so that a text that is never whole ends too.
const MOST_PIECES: usize = 20_000;

/// Which text of a file comes in pieces.
#[derive(Clone, Copy, Debug)]
enum Text {
    Listing,
    Sheet,
}

#[derive(Clone)]
pub struct Pieces {
    text: Text,
    file: Vec<u8>,
    /// The rooms of the buffers in turn.
    rooms: Vec<usize>,
}

/// The length of each piece and its whole buffer.
type Answer = Vec<(usize, Vec<u8>)>;

impl Case for Pieces {
    const NAME: &'static str = "listing or sheet in pieces";
    const COUNT: u64 = 40_000;
    const OUTCOMES: &'static [u32] = &[0];
    type Answer = Answer;

    /// Listings and sheets in turn, each of every kind of file.
    fn make(random: &mut Splitmix, number: u64) -> Pieces {
        let text = if number % 2 == 0 { Text::Listing } else { Text::Sheet };
        let file = files::make(u64::from(random.word()), number / 2);
        let mut rooms: Vec<usize> = (0..random.below(6)).map(|_| room(random)).collect();
        // At least one has room for a line, or the text would never be whole.
        rooms.push(LONGEST_LINE + random.below(200) as usize);
        Pieces { text, file, rooms }
    }

    fn expected(&self) -> Answer {
        let text = match self.text {
            Text::Listing => listing(&self.file),
            Text::Sheet => sheet(&self.file),
        };
        let mut rest = text.as_slice();
        self.pieces(|buffer| next_piece(&mut rest, buffer))
    }

    fn given(&self) -> Answer {
        match self.text {
            Text::Listing => {
                let mut listing = Listing::open(&self.file);
                self.pieces(|buffer| listing.piece(buffer))
            }
            Text::Sheet => {
                let mut sheet = Sheet::open(&self.file);
                self.pieces(|buffer| sheet.piece(buffer))
            }
        }
    }

    fn outcome(_: &Answer) -> u32 {
        0
    }

    fn simpler(&self) -> Vec<Pieces> {
        let fewer = (0..self.rooms.len()).map(|at| {
            let mut rooms = self.rooms.clone();
            rooms.remove(at);
            Pieces { rooms, ..self.clone() }
        });
        let files = simpler_file(&self.file).into_iter();
        let smaller = files.map(|file| Pieces { file, ..self.clone() });
        fewer.filter(Pieces::ends).chain(smaller).collect()
    }

    fn smallest(mut self) -> Pieces {
        let (text, rooms) = (self.text, self.rooms.clone());
        let differs =
            |file: &[u8]| Pieces { text, file: file.to_vec(), rooms: rooms.clone() }.differs();
        self.file = shrink::shrunk(self.file, differs);
        simplified(self)
    }

    fn test(&self) -> String {
        let mut lines = vec![
            format!("let file = {:?};", self.file),
            format!("let mut text = {:?}::open(&file);", self.text),
        ];
        for (length, buffer) in self.expected() {
            lines.push(format!(
                "let mut piece = [{MARK}; {}];\n\
                 assert_eq!(text.piece(&mut piece), {length});\n\
                 assert_eq!(piece, *b\"{}\");",
                buffer.len(),
                buffer.escape_ascii()
            ));
        }
        lines.join("\n")
    }
}

impl Pieces {
    /// Pieces up to the one that says that the text is whole.
    fn pieces(&self, mut piece: impl FnMut(&mut [u8]) -> usize) -> Answer {
        let mut pieces = Vec::new();
        for &room in self.rooms.iter().cycle().take(MOST_PIECES) {
            let mut buffer = vec![MARK; room];
            let length = piece(&mut buffer);
            pieces.push((length, buffer));
            if length == 0 && room >= LONGEST_LINE {
                break;
            }
        }
        pieces
    }

    fn ends(&self) -> bool {
        self.rooms.iter().any(|&room| room >= LONGEST_LINE)
    }
}

/// The rule of the header: whole lines while the longest line has room. The rest moves past them.
fn next_piece(rest: &mut &[u8], buffer: &mut [u8]) -> usize {
    let mut length = 0;
    while buffer.len() - length >= LONGEST_LINE && !rest.is_empty() {
        let end = rest.iter().position(|&byte| byte == b'\n').map_or(rest.len(), |at| at + 1);
        buffer[length..length + end].copy_from_slice(&rest[..end]);
        *rest = &rest[end..];
        length += end;
    }
    length
}

fn room(random: &mut Splitmix) -> usize {
    match random.below(3) {
        0 => random.below(1_000) as usize,
        _ => random.pick(&ROOMS),
    }
}

#[cfg(test)]
mod tests {
    use super::*;

    /// Record 0 alone: a header, or a page without visits.
    fn of_no_visits(text: Text, rooms: Vec<usize>) -> Pieces {
        let mut file = vec![0; 32];
        file[4] = 1;
        Pieces { text, file, rooms }
    }

    fn lengths(pieces: &Pieces) -> Vec<usize> {
        pieces.expected().into_iter().map(|(length, _)| length).collect()
    }

    #[test]
    fn pieces_are_whole_lines_while_the_longest_has_room() {
        let listing = of_no_visits(Text::Listing, vec![45, 46]);
        assert_eq!(lengths(&listing), [0, 17, 0, 0]);
        // 1,417 bytes lack one for the last line of a page, which has 28.
        let sheet = of_no_visits(Text::Sheet, vec![45, 1_417, 46]);
        assert_eq!(lengths(&sheet), [0, 1_372, 28, 0, 0]);
        assert_eq!(lengths(&of_no_visits(Text::Sheet, vec![1_418])), [1_400, 0]);
    }

    #[test]
    fn bytes_behind_a_piece_keep_the_mark() {
        for (length, buffer) in of_no_visits(Text::Sheet, vec![100]).expected() {
            assert!(buffer[..length].iter().all(|&byte| byte != MARK));
            assert_eq!(buffer[length..], [MARK; 100][length..]);
        }
    }

    #[test]
    fn listings_and_sheets_take_turns_on_every_kind_of_file() {
        let case = |number| Pieces::make(&mut Splitmix::of_case(5, number), number);
        for number in 0..200 {
            let is_sheet = matches!(case(number).text, Text::Sheet);
            assert_eq!(is_sheet, number % 2 == 1);
        }
        // The kind 98 of the files has the lengths about the limits.
        assert_eq!((case(2 * 98).file.len(), case(2 * 98 + 1).file.len()), (0, 0));
        assert_eq!((case(2 * 198).file.len(), case(2 * 198 + 1).file.len()), (31, 31));
    }

    #[test]
    fn test_opens_the_text_of_the_case() {
        let text = of_no_visits(Text::Listing, vec![46]).test();
        assert!(text.contains("\nlet mut text = Listing::open(&file);\n"));
        let text = of_no_visits(Text::Sheet, vec![46]).test();
        assert!(text.contains("\nlet mut text = Sheet::open(&file);\n"));
        assert!(text.contains("\nassert_eq!(text.piece(&mut piece), 28);\n"));
        assert!(text.contains("\nassert_eq!(piece, *b\" rec  vis        x        y\\n\\xee"));
    }
}
