//! Pairs to try, as words.

use reference::pair::Pair;
use reference::trial::splitmix::Splitmix;
use vektrid::Refusal;

use crate::same;

pub type Words = [u32; 64];

/// The words of the standard pair.
pub fn standard() -> Words {
    words_of(Pair::standard())
}

/// The kinds of pairs in turn.
pub fn of_turn(random: &mut Splitmix, turn: u64) -> Words {
    match turn % 5 {
        0 => std::array::from_fn(|_| random.word()),
        1 => scrambled(random),
        2 => one_column_changed(standard(), random),
        3 => {
            let words = scrambled(random);
            one_column_changed(words, random)
        }
        _ => random_tail(random),
    }
}

/// Mostly pairs that pass every level.
pub fn mostly_nets(random: &mut Splitmix) -> Words {
    match random.below(16) {
        0..=8 => scrambled(random),
        9 => standard(),
        10 => [0; 64],
        _ => {
            let turn = u64::from(random.word());
            of_turn(random, turn)
        }
    }
}

/// The standard pair times random lower triangular matrices (equation 7 of document 004), which
/// passes every level.
pub fn scrambled(random: &mut Splitmix) -> Words {
    let standard = Pair::standard();
    let (x, y) = (scrambled_matrix(standard.x, random), scrambled_matrix(standard.y, random));
    words_of(Pair { x, y })
}

fn scrambled_matrix(columns: [u32; 32], random: &mut Splitmix) -> [u32; 32] {
    // Row r passes to itself and to any of the rows under it.
    let lower: [u32; 32] = std::array::from_fn(|r| {
        let bit = 0x8000_0000 >> r;
        bit | (random.word() & (bit - 1))
    });
    columns.map(|column| {
        let rows = (0..32).filter(|r| (column << r) & 0x8000_0000 != 0);
        rows.fold(0, |word, r| word ^ lower[r])
    })
}

/// Random, zero, the sum of all columns before it (which makes a j of many bits), or one bit
/// changed.
fn one_column_changed(mut words: Words, random: &mut Splitmix) -> Words {
    let at = random.below(64) as usize;
    let before = &words[at / 32 * 32..at];
    words[at] = match random.below(4) {
        0 => random.word(),
        1 => 0,
        2 => before.iter().fold(0, |sum, word| sum ^ word),
        _ => words[at] ^ 1 << random.below(32),
    };
    words
}

/// A pair that passes up to some level, its columns from there on random.
fn random_tail(random: &mut Splitmix) -> Words {
    let mut words = scrambled(random);
    let first = random.below(32) as usize;
    for at in (first..32).chain(32 + first..64) {
        words[at] = random.word();
    }
    words
}

fn words_of(pair: Pair) -> Words {
    let mut words = [0; 64];
    words[..32].copy_from_slice(&pair.x);
    words[32..].copy_from_slice(&pair.y);
    words
}

/// The largest size up to the wanted one that the library accepts the pair to.
pub fn accepted_size(words: &Words, wanted: u32) -> u32 {
    if wanted == 0 {
        return 0;
    }
    match same::bound(words).check(wanted) {
        Ok(()) => wanted,
        Err(Refusal::NotNet { m, .. }) => m - 1,
        Err(refusal) => unreachable!("a level of 1 to 32 is refused under {}", refusal.number()),
    }
}

#[cfg(test)]
mod tests {
    use super::*;
    use reference::check::check;
    use reference::refusal::Refusal;

    #[test]
    fn scramblings_pass_every_level() {
        for number in 0..50 {
            let words = scrambled(&mut Splitmix::of_case(1, number));
            assert_eq!(check(&words, 32), Ok(()));
            assert_ne!(words, standard());
        }
    }

    /// Pairs that fail early, late and not at all must all come up.
    #[test]
    fn kinds_fail_early_and_late() {
        let mut sizes = [0; 4];
        for number in 0..500 {
            let words = of_turn(&mut Splitmix::of_case(2, number), number);
            let kind = match check(&words, 12) {
                Err(Refusal::NotNet { m: 1..=2, .. }) => 0,
                Err(Refusal::NotNet { m: 3..=7, .. }) => 1,
                Err(_) => 2,
                Ok(()) => 3,
            };
            sizes[kind] += 1;
        }
        assert!(sizes.iter().all(|&size| size >= 40), "{sizes:?}");
    }
}
