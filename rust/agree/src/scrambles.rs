//! Scrambles to try: shifts, and flips of any length up to 64 bytes for each axis.

use reference::trial::splitmix::Splitmix;
use reference::{flips, pair};
use vektrid::{Flips, Refusal, Scramble, ScrambleBytes, Shift};

/// The most bytes that are tried.
const ROOM: usize = 64;

/// The lengths that are refused under 17.
const OTHER_LENGTHS: [usize; 4] = [0, 31, 33, ROOM];

/// The flips of an axis, by value. Bytes past the length are not lent.
#[derive(Clone, Copy, Debug)]
pub struct Axis {
    bytes: [u8; ROOM],
    length: usize,
}

impl Axis {
    /// Flips that change nothing.
    pub const NONE: Axis = Axis { bytes: [0; ROOM], length: Flips::BYTES };

    /// At most 64 bytes.
    #[cfg(test)]
    pub fn of(flips: &[u8]) -> Axis {
        let mut bytes = [0; ROOM];
        bytes[..flips.len()].copy_from_slice(flips);
        Axis { bytes, length: flips.len() }
    }

    pub fn lent(&self) -> &[u8] {
        &self.bytes[..self.length]
    }

    /// The same without some of the bits of a byte.
    pub fn without(mut self, at: usize, bits: u8) -> Axis {
        self.bytes[at] &= !bits;
        self
    }
}

/// A shift with flips that may be refused.
#[derive(Clone, Copy, Debug)]
pub struct Scrambled {
    pub shift: Shift,
    pub x: Axis,
    pub y: Axis,
}

impl Scrambled {
    /// As the bindings take it in calls that judge flips.
    pub fn bytes(&self) -> ScrambleBytes<'_> {
        ScrambleBytes { shift: self.shift, flips_x: self.x.lent(), flips_y: self.y.lent() }
    }

    /// As the bindings take it in the other calls.
    pub fn judged(&self) -> Result<Scramble, Refusal> {
        let flips = Flips::from_bytes(self.x.lent(), self.y.lent())?;
        Ok(Scramble { shift: self.shift, flips })
    }

    /// As the reference takes it.
    pub fn reference(&self) -> flips::Scramble<'_> {
        let shift = pair::Shift { x: self.shift.x, y: self.shift.y };
        flips::Scramble { shift, flips_x: self.x.lent(), flips_y: self.y.lent() }
    }
}

/// Scrambles of every kind, one in eight of them refused.
pub fn any(random: &mut Splitmix) -> Scrambled {
    let scramble = accepted(random);
    if random.one_in(8) {
        refused(scramble, random)
    } else {
        scramble
    }
}

/// Scrambles that are accepted, one in four of them without flips.
pub fn accepted(random: &mut Splitmix) -> Scrambled {
    let shift = shift(random);
    if random.one_in(4) {
        return Scrambled { shift, x: Axis::NONE, y: Axis::NONE };
    }
    Scrambled { shift, x: axis(random), y: axis(random) }
}

/// No shift, shifts of one bit, and any.
fn shift(random: &mut Splitmix) -> Shift {
    match random.below(4) {
        0 => Shift::default(),
        1 => Shift { x: 1 << random.below(32), y: 1 << random.below(32) },
        _ => Shift { x: random.word(), y: random.word() },
    }
}

/// No flips, one flip bit, all that may be set, and any.
fn axis(random: &mut Splitmix) -> Axis {
    let mut axis = Axis::NONE;
    match random.below(8) {
        0 => {}
        1 | 2 => {
            let bit = random.below(255) as usize;
            axis.bytes[bit / 8] = 1 << (bit % 8);
        }
        3 => axis.bytes = [0xFF; ROOM],
        _ => axis.bytes = std::array::from_fn(|_| random.word() as u8),
    }
    axis.without(31, 0x80)
}

/// Another length of x, of y, flip bit 255 of x, of y, and every choice of these faults.
fn refused(mut scramble: Scrambled, random: &mut Splitmix) -> Scrambled {
    let faults = 1 + random.below(15);
    for (axis, place) in [(&mut scramble.x, 0), (&mut scramble.y, 1)] {
        if faults >> place & 1 > 0 {
            axis.bytes[31] |= 0x80;
        }
        if faults >> place & 4 > 0 {
            axis.length = random.pick(&OTHER_LENGTHS);
        }
    }
    scramble
}

#[cfg(test)]
mod tests {
    use super::*;
    use std::collections::BTreeSet;

    fn many(make: fn(&mut Splitmix) -> Scrambled) -> impl Iterator<Item = Scrambled> {
        (0..4_000).map(move |number| make(&mut Splitmix::of_case(1, number)))
    }

    /// Whether an axis has no flip bit set, one, all but the last, or others.
    fn kind(axis: &Axis) -> u32 {
        let bits: u32 = axis.lent().iter().map(|byte| byte.count_ones()).sum();
        match bits {
            0 | 1 => bits,
            255 => 2,
            _ => 3,
        }
    }

    #[test]
    fn accepted_flips_are_of_every_kind() {
        let mut kinds = BTreeSet::new();
        for scramble in many(accepted) {
            assert!(scramble.judged().is_ok());
            kinds.insert((kind(&scramble.x), kind(&scramble.y)));
        }
        assert_eq!(kinds.len(), 16);
    }

    /// Each length of each axis, and both faults with and without the other one.
    #[test]
    fn refused_flips_are_of_every_kind() {
        let mut lengths = BTreeSet::new();
        let mut faults = BTreeSet::new();
        for scramble in many(any) {
            let (x, y) = (&scramble.x, &scramble.y);
            lengths.insert((x.length, y.length));
            let bit_255 = |axis: &Axis| axis.length == 32 && axis.bytes[31] >= 0x80;
            faults.insert((x.length == 32, y.length == 32, bit_255(x), bit_255(y)));
        }
        assert_eq!(lengths.len(), 25);
        // Of an axis of another length flip bit 255 is not asked for.
        assert_eq!(faults.len(), 9);
    }
}
