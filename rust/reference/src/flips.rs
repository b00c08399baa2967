//! Nested flips (02, C-16): Owen's scrambling to depth 8, by 32 bytes of flip
//! bits an axis. Flips and the shift behind them make a scramble.

use crate::pair::{Point, Shift};
use crate::query::top_bits;
use crate::refusal::Refusal;
use crate::trial::splitmix::Splitmix;

/// The flips of an axis have this many bytes.
pub const FLIP_BYTES: usize = 32;

/// The flips that change nothing.
pub const NO_FLIPS: [u8; FLIP_BYTES] = [0; FLIP_BYTES];

/// So many bits of a coordinate, from the top, may be flipped; deeper ones pass.
const DEPTH: u32 = 8;

/// The flip bit that must not be set. No bit of a coordinate asks for it: the
/// last one asked for is 2^7 - 1 + 127.
const UNUSED_BIT: u32 = 255;

/// What is done to the product of matrix and index: the flips of its axis, and
/// then the shift. The flips are lent, and may be of any length until judged.
#[derive(Clone, Copy, Debug, PartialEq, Eq)]
pub struct Scramble<'a> {
    pub shift: Shift,
    pub flips_x: &'a [u8],
    pub flips_y: &'a [u8],
}

/// A scramble that holds its flips itself.
#[derive(Clone, Copy, Debug, PartialEq, Eq)]
pub struct OwnedScramble {
    pub shift: Shift,
    pub flips_x: [u8; FLIP_BYTES],
    pub flips_y: [u8; FLIP_BYTES],
}

impl OwnedScramble {
    pub fn lent(&self) -> Scramble<'_> {
        Scramble { shift: self.shift, flips_x: &self.flips_x, flips_y: &self.flips_y }
    }
}

impl Scramble<'_> {
    /// The scramble of this shift without flips.
    pub fn of_shift(shift: Shift) -> Scramble<'static> {
        Scramble { shift, flips_x: &NO_FLIPS, flips_y: &NO_FLIPS }
    }

    /// Refusals 17 and 18, in this order. Both axes are measured before a bit of
    /// either is looked at.
    pub fn judge(self) -> Result<(), Refusal> {
        if self.flips_x.len() != FLIP_BYTES || self.flips_y.len() != FLIP_BYTES {
            return Err(Refusal::FlipBytes);
        }
        if flip_bit(self.flips_x, UNUSED_BIT) || flip_bit(self.flips_y, UNUSED_BIT) {
            return Err(Refusal::FlipBit);
        }
        Ok(())
    }

    /// The point that a product becomes: flipped, and then shifted. The scramble
    /// is judged already.
    pub(crate) fn scrambled(self, product: Point) -> Point {
        let flipped = Point { x: flip(product.x, self.flips_x), y: flip(product.y, self.flips_y) };
        self.shift.added_to(flipped)
    }

    /// The product that becomes this point. The scramble is judged already.
    pub(crate) fn unscrambled(self, point: Point) -> Point {
        let flipped = self.shift.added_to(point);
        Point { x: undo_flips(flipped.x, self.flips_x), y: undo_flips(flipped.y, self.flips_y) }
    }
}

/// The word with its bits flipped. The flips have 32 bytes.
pub fn flip(word: u32, flips: &[u8]) -> u32 {
    let mut flipped = word;
    for t in 0..DEPTH {
        // The leading bits are those before any flip, hence not of `flipped`.
        let p = top_bits(word, t);
        if flips_bit_after(flips, t, p) {
            flipped ^= bit_from_top(t);
        }
    }
    flipped
}

/// The word that `flip` makes this one from. The flips have 32 bytes.
///
/// It goes from the top, because a bit's flip is chosen by the bits above it as
/// they were before any flip, and these are known once they are undone.
pub fn undo_flips(word: u32, flips: &[u8]) -> u32 {
    let mut undone = word;
    for t in 0..DEPTH {
        let p = top_bits(undone, t);
        if flips_bit_after(flips, t, p) {
            undone ^= bit_from_top(t);
        }
    }
    undone
}

/// Whether coordinate bit t from the top is flipped, t from 0 to 7, where the t
/// leading bits before any flip, read as a number, are p.
fn flips_bit_after(flips: &[u8], t: u32, p: u32) -> bool {
    flip_bit(flips, (1 << t) - 1 + p)
}

/// Whether flip bit n is set. They are numbered from the lowest bit of byte 0.
fn flip_bit(flips: &[u8], n: u32) -> bool {
    (flips[n as usize / 8] >> (n % 8)) & 1 == 1
}

/// Coordinate bit t from the top, alone in its word.
fn bit_from_top(t: u32) -> u32 {
    1 << (31 - t)
}

/// The scramble that a seed names, so that other programs can make the same one.
/// The numbers are those of splitmix64, whose state starts at the seed. The low
/// 32 bits of the first are the shift of x and its high 32 bits that of y; the
/// second to fifth are the flips of x and the sixth to ninth those of y.
pub fn random_scramble(seed: u64) -> OwnedScramble {
    let mut random = Splitmix::from_seed(seed);
    let both = random.next();
    let shift = Shift { x: both as u32, y: (both >> 32) as u32 };
    let flips_x = random_flips(&mut random);
    let flips_y = random_flips(&mut random);
    OwnedScramble { shift, flips_x, flips_y }
}

/// Four numbers of eight bytes, lowest byte first, with flip bit 255 cleared.
fn random_flips(random: &mut Splitmix) -> [u8; FLIP_BYTES] {
    let mut flips = NO_FLIPS;
    for eight in flips.chunks_exact_mut(8) {
        eight.copy_from_slice(&random.next().to_le_bytes());
    }
    flips[31] %= 128;
    flips
}

/// Scrambles that are refused, for the tests of the calls that take one.
#[cfg(test)]
pub(crate) mod refused {
    use super::*;
    use crate::pair::NO_SHIFT;

    const BIT_255_ALONE: [u8; 32] = {
        let mut flips = NO_FLIPS;
        flips[31] = 0x80;
        flips
    };
    const TOO_MANY: [u8; 33] = [0; 33];

    fn with_flips(flips_x: &'static [u8], flips_y: &'static [u8]) -> Scramble<'static> {
        Scramble { shift: NO_SHIFT, flips_x, flips_y }
    }

    /// One axis is too short or too long, or both are. Some have flip bit 255 set
    /// on the other axis, so that 18 is due too.
    pub(crate) fn under_17() -> [Scramble<'static>; 8] {
        [
            with_flips(&NO_FLIPS[..31], &NO_FLIPS),
            with_flips(&NO_FLIPS, &NO_FLIPS[..31]),
            with_flips(&TOO_MANY, &NO_FLIPS),
            with_flips(&NO_FLIPS, &[]),
            with_flips(&BIT_255_ALONE, &NO_FLIPS[..31]),
            with_flips(&BIT_255_ALONE, &TOO_MANY),
            with_flips(&[], &BIT_255_ALONE),
            with_flips(&TOO_MANY, &TOO_MANY),
        ]
    }

    /// Flip bit 255 set on either axis alone, and on both.
    pub(crate) fn under_18() -> [Scramble<'static>; 3] {
        [
            with_flips(&BIT_255_ALONE, &NO_FLIPS),
            with_flips(&NO_FLIPS, &BIT_255_ALONE),
            with_flips(&BIT_255_ALONE, &BIT_255_ALONE),
        ]
    }

    /// All of them with the number that each gets.
    pub(crate) fn all() -> impl Iterator<Item = (Scramble<'static>, u32)> {
        let of_17 = under_17().into_iter().map(|scramble| (scramble, 17));
        of_17.chain(under_18().into_iter().map(|scramble| (scramble, 18)))
    }
}

#[cfg(test)]
mod tests {
    use super::*;
    use crate::pair::NO_SHIFT;
    use crate::random::Random;

    /// Flips with only these flip bits set.
    fn with_bits(bits: &[usize]) -> [u8; 32] {
        let mut flips = NO_FLIPS;
        for bit in bits {
            flips[bit / 8] += 1 << (bit % 8);
        }
        flips
    }

    /// Words with every choice of the top nine bits, and random bits under them.
    fn words(random: &mut Random) -> Vec<u32> {
        (0..1 << 9).map(|top| top << 23 | random.word() >> 9).collect()
    }

    /// The number of a judgement, and 0 for an accepted scramble.
    fn number(flips_x: &[u8], flips_y: &[u8]) -> u32 {
        let judged = Scramble { shift: NO_SHIFT, flips_x, flips_y }.judge();
        judged.map_or_else(Refusal::number, |()| 0)
    }

    /// Flip bit 0 turns the first bit of every word, and flip bit 2 the second
    /// bit of those whose first bit was one before it was turned.
    #[test]
    fn leading_bits_are_those_before_any_flip() {
        let flips = with_bits(&[0, 2]);
        assert_eq!(flips[0], 5);
        assert_eq!(flip(0x0000_0000, &flips), 0x8000_0000);
        assert_eq!(flip(0x4000_0001, &flips), 0xC000_0001);
        assert_eq!(flip(0x8000_0002, &flips), 0x4000_0002);
        assert_eq!(flip(0xC000_0003, &flips), 0x0000_0003);
    }

    /// Byte 0 ends with the first flip bit of depth 3, and byte 1 begins with
    /// the second. The last flip bit in use is the one of seven leading ones.
    #[test]
    fn flip_bits_are_numbered_from_the_lowest_bit_of_byte_0() {
        let mut flips = NO_FLIPS;
        flips[0] = 0x80;
        assert_eq!(flip(0x0000_0000, &flips), 0x1000_0000);
        assert_eq!(flip(0x2000_0000, &flips), 0x2000_0000);
        flips[0] = 0;
        flips[1] = 1;
        assert_eq!(flip(0x0000_0000, &flips), 0x0000_0000);
        assert_eq!(flip(0x2000_0000, &flips), 0x3000_0000);
        flips[1] = 0;
        flips[31] = 0x40;
        assert_eq!(flip(0xFE00_0000, &flips), 0xFF00_0000);
        assert_eq!(flip(0xFFFF_FFFF, &flips), 0xFEFF_FFFF);
        assert_eq!(flip(0xFC00_0000, &flips), 0xFC00_0000);
    }

    /// The request's sentence for each flip bit alone: of all words just those
    /// that begin with the t bits of p change, and they change in bit t only.
    #[test]
    fn single_flip_bit_turns_one_bit_of_the_words_that_begin_with_p() {
        let mut random = Random::from_seed(16);
        for t in 0..8 {
            for p in 0..1 << t {
                let flips = with_bits(&[(1 << t) - 1 + p]);
                for word in words(&mut random) {
                    let written = format!("{word:032b}");
                    let begins = t == 0 || written[..t] == format!("{p:0t$b}");
                    let (before, from) = written.split_at(t);
                    let turned = if from.starts_with('0') { "1" } else { "0" };
                    let expected =
                        if begins { format!("{before}{turned}{}", &from[1..]) } else { written };
                    assert_eq!(format!("{:032b}", flip(word, &flips)), expected, "{t} {p}");
                }
            }
        }
    }

    /// The second way: the flip bits are a tree. Number 0 is its root, and from
    /// number n a zero of the word leads to 2n + 1 and a one to 2n + 2.
    fn flip_by_the_tree(word: u32, flips: &[u8; 32]) -> u32 {
        let tree: Vec<bool> =
            flips.iter().flat_map(|byte| (0..8).map(move |bit| byte & (1 << bit) != 0)).collect();
        // The bits under the leaves of the tree stay.
        let (mut node, mut flipped) = (0, word % (1 << 24));
        for place in (24..32).rev() {
            let bit = word & (1 << place) != 0;
            if bit != tree[node] {
                flipped += 1 << place;
            }
            node = 2 * node + if bit { 2 } else { 1 };
        }
        flipped
    }

    /// The flips are random, with many bits set and with few.
    #[test]
    fn flip_equals_the_walk_down_a_tree() {
        let mut random = Random::from_seed(1_616);
        for _ in 0..100 {
            let many = random.scramble().flips_x;
            let few = many.map(|byte| byte & random.word() as u8 & random.word() as u8);
            for flips in [many, few, many.map(|byte| !byte)] {
                for word in words(&mut random) {
                    assert_eq!(flip(word, &flips), flip_by_the_tree(word, &flips));
                }
            }
        }
    }

    #[test]
    fn undoing_and_flipping_are_inverse_both_ways() {
        let mut random = Random::from_seed(61);
        for _ in 0..200 {
            let flips = random.scramble().flips_y;
            for word in words(&mut random) {
                assert_eq!(undo_flips(flip(word, &flips), &flips), word);
                assert_eq!(flip(undo_flips(word, &flips), &flips), word);
            }
        }
    }

    /// Undoing is not flipping again: a flipped bit may choose another flip.
    #[test]
    fn flipping_twice_need_not_undo() {
        let flips = with_bits(&[0, 2]);
        assert_eq!(flip(flip(0, &flips), &flips), 0x4000_0000);
        assert_eq!(undo_flips(flip(0, &flips), &flips), 0);
    }

    /// The strips of each depth change places as wholes, so that each word's
    /// strip follows from the strip before, and none is met twice.
    #[test]
    fn strips_change_places_as_wholes() {
        let mut random = Random::from_seed(116);
        for depth in 0..=10 {
            let flips = random.scramble().flips_x;
            let mut places = Vec::new();
            for strip in 0..1u64 << depth {
                let first = (strip << (32 - depth)) as u32;
                let place = top_bits(flip(first, &flips), depth);
                for _ in 0..10 {
                    let inside = first | (u64::from(random.word()) >> depth) as u32;
                    assert_eq!(top_bits(flip(inside, &flips), depth), place);
                }
                places.push(place);
            }
            places.sort();
            assert_eq!(places, (0..1 << depth).collect::<Vec<u32>>());
        }
    }

    #[test]
    fn bits_deeper_than_eight_pass() {
        let mut random = Random::from_seed(8);
        for word in words(&mut random) {
            assert_eq!(flip(word, &[0xFF; 32]), word ^ 0xFF00_0000);
            assert_eq!(undo_flips(word, &[0xFF; 32]), word ^ 0xFF00_0000);
            let flips = random.scramble().flips_x;
            assert_eq!(flip(word, &flips) << 8, word << 8);
            assert_eq!(undo_flips(word, &flips) << 8, word << 8);
        }
    }

    /// That is why it may be kept clear.
    #[test]
    fn flip_bit_255_would_do_nothing() {
        let mut random = Random::from_seed(255);
        for word in words(&mut random) {
            assert_eq!(flip(word, &with_bits(&[255])), word);
            assert_eq!(undo_flips(word, &with_bits(&[255])), word);
        }
    }

    #[test]
    fn without_flips_only_the_shift_is_added() {
        let mut random = Random::from_seed(0);
        for word in words(&mut random) {
            let (shift, product) = (random.shift(), Point { x: word, y: random.word() });
            let scramble = Scramble::of_shift(shift);
            assert_eq!(scramble.judge(), Ok(()));
            let point = Point { x: product.x ^ shift.x, y: product.y ^ shift.y };
            assert_eq!(scramble.scrambled(product), point);
            assert_eq!(scramble.unscrambled(point), product);
        }
    }

    /// Each axis has its own flips and its own shift, and the shift comes last:
    /// before the flips it would choose the other second bit of x.
    #[test]
    fn flips_come_before_the_shift() {
        let shift = Shift { x: 0x8000_0001, y: 0x0000_0010 };
        let (flips_x, flips_y) = (with_bits(&[2]), with_bits(&[1, 6]));
        let scramble = Scramble { shift, flips_x: &flips_x, flips_y: &flips_y };
        let known = [
            ((0x8000_0000, 0x0000_0000), (0x4000_0001, 0x4000_0010)),
            ((0x0000_0000, 0xC000_0000), (0x8000_0001, 0xE000_0010)),
        ];
        for ((x, y), (scrambled_x, scrambled_y)) in known {
            let (product, point) = (Point { x, y }, Point { x: scrambled_x, y: scrambled_y });
            assert_eq!(scramble.scrambled(product), point);
            assert_eq!(scramble.unscrambled(point), product);
        }
    }

    #[test]
    fn unscrambling_and_scrambling_are_inverse_both_ways() {
        let mut random = Random::from_seed(6_161);
        for _ in 0..10_000 {
            let owned = random.scramble();
            let (scramble, point) = (owned.lent(), Point { x: random.word(), y: random.word() });
            assert_eq!(scramble.unscrambled(scramble.scrambled(point)), point);
            assert_eq!(scramble.scrambled(scramble.unscrambled(point)), point);
        }
    }

    #[test]
    fn lengths_other_than_32_are_refused_under_17() {
        let bytes = [0; 256];
        for length in (0..=66).chain([255, 256]) {
            let expected = if length == 32 { 0 } else { 17 };
            assert_eq!(number(&bytes[..length], &NO_FLIPS), expected);
            assert_eq!(number(&NO_FLIPS, &bytes[..length]), expected);
            assert_eq!(number(&bytes[..length], &bytes[..length]), expected);
        }
        assert_eq!(number(&bytes[..31], &bytes[..33]), 17);
    }

    /// Every other flip bit may be set, all of them together too.
    #[test]
    fn only_flip_bit_255_is_refused_under_18() {
        for bit in 0..256 {
            let (flips, expected) = (with_bits(&[bit]), if bit == 255 { 18 } else { 0 });
            assert_eq!(number(&flips, &NO_FLIPS), expected);
            assert_eq!(number(&NO_FLIPS, &flips), expected);
            assert_eq!(number(&flips, &flips), expected);
        }
        let mut most = [0xFF; 32];
        assert_eq!(number(&most, &NO_FLIPS), 18);
        assert_eq!(number(&NO_FLIPS, &most), 18);
        most[31] = 0x7F;
        assert_eq!(number(&most, &most), 0);
    }

    /// A length of either axis comes before the bit of the other one.
    #[test]
    fn seventeen_comes_before_eighteen() {
        let top = with_bits(&[255]);
        for length in [0, 1, 31, 33] {
            let wrong = [0xFF; 33];
            assert_eq!(number(&top, &wrong[..length]), 17);
            assert_eq!(number(&wrong[..length], &top), 17);
            assert_eq!(number(&wrong[..length], &wrong[..length]), 17);
        }
        assert_eq!(number(&top, &top), 18);
    }

    /// What the other modules take for refused is so.
    #[test]
    fn refused_scrambles_get_their_numbers() {
        for (scramble, expected) in refused::all() {
            assert_eq!(scramble.judge().map_err(Refusal::number), Err(expected));
        }
    }

    /// The flips written as hexadecimal digits, byte 0 first.
    fn digits(flips: [u8; 32]) -> String {
        flips.iter().map(|byte| format!("{byte:02x}")).collect()
    }

    /// The values come from a script in another language. The last seed would
    /// have flip bit 255 set on both axes; there byte 31 was 0xB4 and 0xC4.
    #[test]
    fn known_random_scrambles() {
        let known = [
            (
                0,
                Shift { x: 0x7B1D_CDAF, y: 0xE220_A839 },
                "f465b9a16a9e786e4f450980185dc406ec814c72a8b88bf89b74a8516a89391b",
                "eaa27e740c9fcb53e132451fbe9a822c3cab16c93a1384c5c38ac9419078e53e",
            ),
            (
                1,
                Shift { x: 0x8902_5CC1, y: 0x910A_2DEC },
                "67ec8e65a18debbe5e5532fbeea293f80bc942ee9086c171b9b501d1d854bb71",
                "80021590ff0b4dc3a53c36d76cec99e0758527120fbbe785a83d7e35de181749",
            ),
            (
                u64::MAX,
                Shift { x: 0x1B65_2C20, y: 0xE4D9_7177 },
                "c982f6db67f89fe9e98172b24cf82f38d282a9cb6cb31d6dae6980572e47a034",
                "33bb38a4bdad1dd3a53f0802f82c4ff164809ea338a45d40840c6e1508a7fe44",
            ),
        ];
        for (seed, shift, flips_x, flips_y) in known {
            let scramble = random_scramble(seed);
            assert_eq!(scramble.shift, shift);
            assert_eq!(digits(scramble.flips_x), flips_x);
            assert_eq!(digits(scramble.flips_y), flips_y);
        }
    }

    #[test]
    fn random_scrambles_are_accepted() {
        for seed in 0..1_000 {
            let scramble = random_scramble(seed);
            assert_eq!(scramble.lent().judge(), Ok(()));
            assert!(scramble.flips_x[31] < 128 && scramble.flips_y[31] < 128);
        }
    }
}
