//! Pairs of generator matrices and their check.

use crate::library;
use crate::raw;
use crate::refusal::{judged, judged_net, Refusal};

/// Two generator matrices (a pair), by value.
///
/// The 32 columns of X come first, then those of Y. Column c belongs to index bit c; the top bit of
/// a word is row 0. Points, fills and walks take any pair, checked or not.
///
/// ```
/// use vektrid::{Pair, Refusal};
///
/// let standard = Pair::standard();
/// assert_eq!(standard.words()[32..36], [0x8000_0000, 0xC000_0000, 0xA000_0000, 0xF000_0000]);
/// assert_eq!(standard.check(Pair::LARGEST_LEVEL), Ok(()));
///
/// let mut twice = *standard.words();
/// twice.copy_within(..32, 32);
/// let refusal = Pair::from_words(&twice)?.check(2).unwrap_err();
/// assert_eq!(refusal, Refusal::NotNet { m: 2, a: 1, j: 2 });
/// # Ok::<(), Refusal>(())
/// ```
#[derive(Clone, Copy, Debug, PartialEq, Eq, Hash)]
pub struct Pair {
    words: [u32; Pair::WORDS],
}

impl Pair {
    /// The number of words of a pair.
    pub const WORDS: usize = 64;

    /// The largest level.
    pub const LARGEST_LEVEL: u32 = 32;

    /// The standard pair: the identity, and Pascal's triangle modulo 2.
    pub fn standard() -> Pair {
        let mut words = [0; Pair::WORDS];
        standard_words(&mut words).expect("these are 64 words");
        Pair { words }
    }

    /// The pair of 64 words; another number of words is refused under 1.
    pub fn from_words(words: &[u32]) -> Result<Pair, Refusal> {
        let words = words.try_into().map_err(|_| Refusal::WordCount)?;
        Ok(Pair { words })
    }

    /// The words of the pair, X columns first.
    pub fn words(&self) -> &[u32; Pair::WORDS] {
        &self.words
    }

    /// Whether the pair passes a level: every block of 2^m visits, m up to the level, is a net.
    /// Refused under 2, or under 3 with the first bad shape.
    pub fn check(&self, level: u32) -> Result<(), Refusal> {
        check_words(&self.words, level)
    }
}

/// Writes the words of the standard pair. Refused under 1 unless 64 words are lent.
pub fn standard_words(words: &mut [u32]) -> Result<(), Refusal> {
    // SAFETY: the pointer and the length are those of one lent slice.
    judged(library::call(|| unsafe { raw::vektrid_standard_pair(words.as_mut_ptr(), words.len()) }))
}

/// The check over any number of words. Refused under 1, 2 or 3.
pub fn check_words(words: &[u32], level: u32) -> Result<(), Refusal> {
    let (mut m, mut a, mut j) = (0, 0, 0);
    // SAFETY: the words are a lent slice with its length; the others are three variables.
    let number = library::call(|| unsafe {
        raw::vektrid_check(words.as_ptr(), words.len(), level, &mut m, &mut a, &mut j)
    });
    judged_net(number, m, a, j)
}
