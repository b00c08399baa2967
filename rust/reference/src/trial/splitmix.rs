//! A small generator (splitmix64), so that a seed makes the same cases anywhere.

const STEP: u64 = 0x9E37_79B9_7F4A_7C15;

pub struct Splitmix {
    state: u64,
}

impl Splitmix {
    /// The generator whose state starts at the seed.
    pub fn from_seed(seed: u64) -> Splitmix {
        Splitmix { state: seed }
    }

    /// The generator of one case. It depends on the case's number and not on
    /// the cases before, so worker threads may take them as they come.
    pub fn of_case(seed: u64, number: u64) -> Splitmix {
        let mut mixed = Splitmix { state: seed.wrapping_add(number.wrapping_mul(STEP)) };
        Splitmix { state: mixed.next() }
    }

    pub(crate) fn next(&mut self) -> u64 {
        self.state = self.state.wrapping_add(STEP);
        let z = self.state;
        let z = (z ^ (z >> 30)).wrapping_mul(0xBF58_476D_1CE4_E5B9);
        let z = (z ^ (z >> 27)).wrapping_mul(0x94D0_49BB_1331_11EB);
        z ^ (z >> 31)
    }

    pub fn word(&mut self) -> u32 {
        (self.next() >> 32) as u32
    }

    /// A number from 0 to bound - 1; the bound is not 0.
    pub fn below(&mut self, bound: u32) -> u32 {
        ((u64::from(self.word()) * u64::from(bound)) >> 32) as u32
    }

    pub fn one_in(&mut self, bound: u32) -> bool {
        self.below(bound) == 0
    }

    pub fn pick<T: Copy>(&mut self, list: &[T]) -> T {
        list[self.below(list.len() as u32) as usize]
    }

    pub fn shuffle(&mut self, list: &mut [u32]) {
        for end in (1..list.len()).rev() {
            list.swap(end, self.below(end as u32 + 1) as usize);
        }
    }
}

#[cfg(test)]
mod tests {
    use super::*;

    #[test]
    fn first_numbers_of_splitmix64() {
        let mut random = Splitmix::from_seed(0);
        assert_eq!(random.next(), 0xE220_A839_7B1D_CDAF);
        assert_eq!(random.next(), 0x6E78_9E6A_A1B9_65F4);
    }

    #[test]
    fn numbers_stay_below_their_bound() {
        let mut random = Splitmix::of_case(1, 2);
        let mut seen = [false; 7];
        for _ in 0..1_000 {
            seen[random.below(7) as usize] = true;
        }
        assert_eq!(seen, [true; 7]);
    }

    #[test]
    fn shuffle_keeps_the_numbers() {
        let mut list: Vec<u32> = (0..100).collect();
        Splitmix::of_case(3, 4).shuffle(&mut list);
        let sorted: Vec<u32> = (0..100).collect();
        assert_ne!(list, sorted);
        list.sort();
        assert_eq!(list, sorted);
    }
}
