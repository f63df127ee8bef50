//! Random arguments, the same ones in every run, so that a mismatch can be met
//! again. Most of them stand close to an edge, where faults are.

use crate::edges::HALF;

/// A splitmix64 generator.
pub struct Random {
    state: u64,
}

impl Random {
    pub fn new(seed: u64) -> Self {
        Random { state: seed }
    }

    /// Any 64 bits.
    pub fn word(&mut self) -> u64 {
        self.state = self.state.wrapping_add(0x9e37_79b9_7f4a_7c15);
        let mut z = self.state;
        z = (z ^ (z >> 30)).wrapping_mul(0xbf58_476d_1ce4_e5b9);
        z = (z ^ (z >> 27)).wrapping_mul(0x94d0_49bb_1331_11eb);
        z ^ (z >> 31)
    }

    /// A number of any length up to 64 bits.
    pub fn wide(&mut self) -> u64 {
        let cut = self.below(u64::BITS);
        self.word() >> cut
    }

    /// Any number at all.
    pub fn any(&mut self) -> u32 {
        (self.word() >> 32) as u32
    }

    /// A number below `bound`, or 0 if there is none.
    pub fn below(&mut self, bound: u32) -> u32 {
        ((u64::from(self.any()) * u64::from(bound)) >> 32) as u32
    }

    /// A number of bytes, each any at all.
    pub fn bytes(&mut self, length: u32) -> Vec<u8> {
        (0..length).map(|_| self.word() as u8).collect()
    }

    /// One of the values given, of which there is at least one.
    pub fn pick<T: Copy>(&mut self, values: &[T]) -> T {
        values[(self.word() % values.len() as u64) as usize]
    }

    /// `x`, or a number at most 2 away from it.
    pub fn near(&mut self, x: u32) -> u32 {
        x.wrapping_add(self.below(5)).wrapping_sub(2)
    }

    /// A count: near zero (from both sides) or the middle of the range, a few
    /// steps away from there, near some multiple of the step, or anywhere.
    pub fn count(&mut self, step: u32) -> u32 {
        let base = self.pick(&[0, HALF]);
        let steps = self.below(33).wrapping_sub(16);
        let any = self.any();
        let multiple = any - any.checked_rem(step).unwrap_or(0);
        match self.below(4) {
            0 => self.near(base),
            1 => self.near(base.wrapping_add(step.wrapping_mul(steps))),
            2 => self.near(multiple),
            _ => any,
        }
    }

    /// Mostly one of the allowed values; otherwise next to one of them, near an
    /// edge of the number range, or anything.
    pub fn mostly(&mut self, allowed: &[u32]) -> u32 {
        let value = self.pick(allowed);
        match self.below(8) {
            0 => self.near(value),
            1 => self.count(value),
            _ => value,
        }
    }
}

#[cfg(test)]
mod tests {
    use super::*;

    #[test]
    fn words_are_those_of_splitmix64() {
        let mut random = Random::new(1_234_567);
        assert_eq!(random.word(), 6_457_827_717_110_365_317);
        assert_eq!(random.word(), 3_203_168_211_198_807_973);
    }

    #[test]
    fn below_stays_below() {
        let mut random = Random::new(1);
        assert!((0..1_000).all(|_| random.below(5) < 5));
        assert_eq!(random.below(0), 0);
    }
}
