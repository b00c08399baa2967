//! A small xorshift generator, random pairs, scrambles and words, for the tests
//! only.

use crate::flips::{random_scramble, OwnedScramble};
use crate::pair::{Pair, Shift};
use crate::single_cases::{largest_word, smallest_word};

pub struct Random {
    state: u64,
}

impl Random {
    /// Prints the seed, so that a failed test can be run again.
    pub fn from_seed(seed: u64) -> Random {
        println!("seed {seed}");
        // The state must never be 0, or only zeros follow.
        Random { state: seed | 1 << 63 }
    }

    pub fn word(&mut self) -> u32 {
        self.state ^= self.state << 13;
        self.state ^= self.state >> 7;
        self.state ^= self.state << 17;
        (self.state >> 32) as u32
    }

    pub fn shift(&mut self) -> Shift {
        Shift { x: self.word(), y: self.word() }
    }

    /// A random shift with random flips of both axes.
    pub fn scramble(&mut self) -> OwnedScramble {
        random_scramble(u64::from(self.word()) << 32 | u64::from(self.word()))
    }

    /// In turn: wholly random words, a pair that passes every level, and
    /// such a pair with one bit changed near the top, which fails late.
    pub fn pair(&mut self, turn: u32) -> Pair {
        match turn % 3 {
            0 => self.any_pair(),
            1 => self.scrambled_pair(),
            _ => self.damaged_pair(),
        }
    }

    fn any_pair(&mut self) -> Pair {
        Pair { x: std::array::from_fn(|_| self.word()), y: std::array::from_fn(|_| self.word()) }
    }

    /// The standard pair times random lower triangular matrices (equation 7
    /// of document 004), which keeps every determinant odd.
    pub fn scrambled_pair(&mut self) -> Pair {
        let standard = Pair::standard();
        Pair { x: self.scrambled(standard.x), y: self.scrambled(standard.y) }
    }

    fn scrambled(&mut self, columns: [u32; 32]) -> [u32; 32] {
        // Row r passes to itself and to any of the rows under it.
        let lower: [u32; 32] = std::array::from_fn(|r| {
            let bit = 0x8000_0000 >> r;
            bit | (self.word() & (bit - 1))
        });
        columns.map(|column| {
            let rows = (0..32).filter(|r| (column << r) & 0x8000_0000 != 0);
            rows.fold(0, |word, r| word ^ lower[r])
        })
    }

    fn damaged_pair(&mut self) -> Pair {
        let mut pair = self.scrambled_pair();
        let c = (self.word() % 8) as usize;
        let bit = 0x8000_0000 >> (self.word() % 8);
        if self.word() & 1 == 0 {
            pair.x[c] ^= bit;
        } else {
            pair.y[c] ^= bit;
        }
        pair
    }
}

/// Zero, the ends of every number of leading zeros, and random words of
/// every number of leading zeros.
pub fn some_words() -> Vec<u32> {
    let mut random = Random::from_seed(24);
    let mut words = vec![0];
    for z in 0..32 {
        words.extend([smallest_word(z), largest_word(z)]);
        words.extend((0..2_000).map(|_| (random.word() | 0x8000_0000) >> z));
    }
    words
}
