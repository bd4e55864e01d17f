//! Random numbers that are the same in every run: SplitMix64.

use std::ops::RangeInclusive;

/// A generator, started from a seed.
pub struct Random(u64);

impl Random {
    /// The generator of this seed.
    pub fn new(seed: u64) -> Random {
        Random(seed)
    }

    /// The next number.
    pub fn number(&mut self) -> u64 {
        self.0 = self.0.wrapping_add(0x9e37_79b9_7f4a_7c15);
        let mut z = self.0;
        z = (z ^ (z >> 30)).wrapping_mul(0xbf58_476d_1ce4_e5b9);
        z = (z ^ (z >> 27)).wrapping_mul(0x94d0_49bb_1331_11eb);
        z ^ (z >> 31)
    }

    /// A number below `bound`, which is above 0.
    pub fn below(&mut self, bound: usize) -> usize {
        (self.number() % bound as u64) as usize
    }

    /// A number of the range, which is not empty: each end in at least a quarter of all draws.
    pub fn within(&mut self, range: RangeInclusive<usize>) -> usize {
        let (low, high) = (*range.start(), *range.end());
        match self.below(4) {
            0 => low,
            1 => high,
            _ => low + self.below(high - low + 1),
        }
    }

    /// One of the choices.
    pub fn pick<T: Copy>(&mut self, choices: &[T]) -> T {
        choices[self.below(choices.len())]
    }

    /// A number of so many bytes: in half of all draws the least, the greatest, the first of the
    /// upper half, or one next to these.
    pub fn number_of(&mut self, width: usize) -> u64 {
        let greatest = u64::MAX >> (64 - 8 * width);
        let number = match self.below(2) {
            0 => {
                let end = self.pick(&[0, greatest, greatest / 2 + 1]);
                end.wrapping_add(self.pick(&[0, 1, u64::MAX]))
            }
            _ => self.number(),
        };
        number & greatest
    }

    /// This many random bytes.
    pub fn bytes(&mut self, count: usize) -> Vec<u8> {
        (0..count).map(|_| self.number() as u8).collect()
    }
}
