//! A small generator of random numbers (SplitMix64), the same on every machine.

use std::ops::RangeInclusive;

pub struct Random {
    state: u64,
}

impl Random {
    pub fn new(seed: u64) -> Self {
        Random { state: seed }
    }

    fn next(&mut self) -> u64 {
        self.state = self.state.wrapping_add(0x9E37_79B9_7F4A_7C15);
        let mut mixed = self.state;
        mixed = (mixed ^ (mixed >> 30)).wrapping_mul(0xBF58_476D_1CE4_E5B9);
        mixed = (mixed ^ (mixed >> 27)).wrapping_mul(0x94D0_49BB_1331_11EB);
        mixed ^ (mixed >> 31)
    }

    pub fn within(&mut self, range: RangeInclusive<u32>) -> u32 {
        let width = u64::from(range.end() - range.start()) + 1;
        range.start() + (self.next() % width) as u32
    }

    pub fn one_in(&mut self, n: u32) -> bool {
        self.within(1..=n) == 1
    }

    pub fn choose<'a, T: ?Sized>(&mut self, items: &[&'a T]) -> &'a T {
        items[self.within(0..=items.len() as u32 - 1) as usize]
    }

    /// A character of the range, whose surrogates (no characters) are never drawn.
    pub fn character(&mut self, range: RangeInclusive<u32>) -> char {
        loop {
            if let Some(character) = char::from_u32(self.within(range.clone())) {
                return character;
            }
        }
    }
}
