//! A small random source (splitmix64) that a seed repeats exactly.

use crate::layout::{Edition, ESCAPE};
use crate::value::{Value, NO_STAMP};

pub struct Random {
    state: u64,
}

impl Random {
    pub fn new(seed: u64) -> Random {
        Random { state: seed }
    }

    fn draw(&mut self) -> u64 {
        self.state = self.state.wrapping_add(0x9E37_79B9_7F4A_7C15);
        let mut mixed = self.state;
        mixed = (mixed ^ (mixed >> 30)).wrapping_mul(0xBF58_476D_1CE4_E5B9);
        mixed = (mixed ^ (mixed >> 27)).wrapping_mul(0x94D0_49BB_1331_11EB);
        mixed ^ (mixed >> 31)
    }

    /// A number below `end`.
    pub fn below(&mut self, end: usize) -> usize {
        (self.draw() % end as u64) as usize
    }

    /// A number from `first` to `last`.
    pub fn from_to(&mut self, first: usize, last: usize) -> usize {
        first + self.below(last - first + 1)
    }

    pub fn one_in(&mut self, chances: usize) -> bool {
        self.below(chances) == 0
    }

    pub fn byte(&mut self) -> u8 {
        self.draw() as u8
    }

    pub fn byte_not_0(&mut self) -> u8 {
        self.from_to(1, usize::from(u8::MAX)) as u8
    }

    /// A byte that a key can hold; in edition 2 often 0 or 255, which walked
    /// strings have a use for.
    pub fn key_byte(&mut self, edition: Edition) -> u8 {
        match (edition, self.below(6)) {
            (Edition::Two, 0) => 0,
            (Edition::Two, 1) => ESCAPE,
            _ => self.byte_not_0(),
        }
    }

    pub fn bytes(&mut self, length: usize) -> Vec<u8> {
        (0..length).map(|_| self.byte()).collect()
    }

    /// A stamp that can be passed: of edition 2 any, and often the least or the
    /// most.
    pub fn stamp(&mut self, edition: Edition) -> u64 {
        if edition == Edition::One {
            return NO_STAMP;
        }
        match self.below(6) {
            0 => 0,
            1 => 1,
            2 => u64::MAX,
            _ => self.draw(),
        }
    }

    /// A value of so many bytes, with a stamp.
    pub fn value(&mut self, edition: Edition, length: usize) -> Value<Vec<u8>> {
        let bytes = self.bytes(length);
        Value { bytes, stamp: self.stamp(edition) }
    }

    pub fn pick<'a, T>(&mut self, from: &'a [T]) -> &'a T {
        &from[self.below(from.len())]
    }

    pub fn shuffle<T>(&mut self, items: &mut [T]) {
        for end in (1..items.len()).rev() {
            items.swap(end, self.below(end + 1));
        }
    }
}
