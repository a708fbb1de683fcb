//! Random numbers: a small generator with a seed, so that every run can be made again.

use crate::format::{MAX_MILEAGE, OLD_MAX_MILEAGE};

#[derive(Clone)]
pub struct Random(u64);

impl Random {
    pub fn new(seed: u64) -> Random {
        let mut mixed = seed.wrapping_add(0x9e37_79b9_7f4a_7c15);
        mixed = (mixed ^ (mixed >> 30)).wrapping_mul(0xbf58_476d_1ce4_e5b9);
        mixed = (mixed ^ (mixed >> 27)).wrapping_mul(0x94d0_49bb_1331_11eb);
        Random((mixed ^ (mixed >> 31)) | 1)
    }

    /// Xorshift: never 0, as it does not begin with 0.
    pub fn number(&mut self) -> u64 {
        self.0 ^= self.0 << 13;
        self.0 ^= self.0 >> 7;
        self.0 ^= self.0 << 17;
        self.0
    }

    pub fn below(&mut self, bound: u32) -> u32 {
        (self.number() >> 32) as u32 % bound
    }

    pub fn index(&mut self, bound: usize) -> usize {
        self.below(bound as u32) as usize
    }

    /// A number from low to high, often one of the two ends.
    pub fn between(&mut self, low: u32, high: u32) -> u32 {
        match self.below(8) {
            0 => low,
            1 => high,
            _ => low + self.below(high - low + 1),
        }
    }

    pub fn one_of<T: Copy>(&mut self, values: &[T]) -> T {
        values[self.index(values.len())]
    }

    pub fn byte(&mut self) -> u8 {
        self.below(256) as u8
    }

    /// The one so many times of so many, else the other.
    pub fn either<T>(&mut self, (times, of): (u32, u32), one: T, other: T) -> T {
        if self.chance(times, of) {
            one
        } else {
            other
        }
    }

    pub fn chance(&mut self, times: u32, of: u32) -> bool {
        self.below(of) < times
    }
}

/// The greatest mileage of a call, a history or a script: half of them keep to the bound that was before request 3.
pub fn greatest_mileage(random: &mut Random) -> u32 {
    random.one_of(&[OLD_MAX_MILEAGE, MAX_MILEAGE])
}
