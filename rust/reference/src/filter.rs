//! What the programs share that turn a region file into a text: the file comes
//! on standard input, and the text goes to standard output.

use std::io::{self, Read, Write};

use crate::listing::refused;
use crate::refusal::Refusal;

/// The main function of such a program.
pub fn run(text: impl Fn(&[u8]) -> Vec<u8>) -> io::Result<()> {
    pass(io::stdin().lock(), io::stdout().lock(), text)
}

/// Reads the whole input, so that a file with a byte too many is seen to have
/// it, and writes its text.
fn pass(
    mut input: impl Read,
    mut output: impl Write,
    text: impl Fn(&[u8]) -> Vec<u8>,
) -> io::Result<()> {
    let mut file = Vec::new();
    let text = match input.read_to_end(&mut file) {
        Ok(_) => text(&file),
        // A file that cannot be read has no whole records.
        Err(_) => refused(Refusal::FileLength),
    };
    output.write_all(&text)?;
    output.flush()
}

#[cfg(test)]
mod tests {
    use super::*;
    use crate::listing::listing;
    use crate::sheet::sheet;

    /// Some bytes, and then a failure.
    struct Failing(&'static [u8]);

    impl Read for Failing {
        fn read(&mut self, buffer: &mut [u8]) -> io::Result<usize> {
            match self.0.read(buffer)? {
                0 => Err(io::Error::new(io::ErrorKind::Other, "torn")),
                length => Ok(length),
            }
        }
    }

    fn passed(input: impl Read, text: fn(&[u8]) -> Vec<u8>) -> Vec<u8> {
        let mut output = Vec::new();
        pass(input, &mut output, text).unwrap();
        output
    }

    #[test]
    fn one_byte_more_than_the_largest_file_is_seen() {
        let mut file = vec![0; 65_537];
        file[4] = 1;
        for text in [listing, sheet] {
            assert_eq!(passed(&file[..65_536], text), text(&file[..32]));
            assert_eq!(passed(&file[..], text), b"refused 11\n");
        }
    }

    #[test]
    fn input_that_cannot_be_read_is_refused() {
        for text in [listing, sheet] {
            assert_eq!(passed(Failing(&[0, 0, 0, 0, 1]), text), b"refused 11\n");
        }
    }
}
