//! The two editions of frames, told apart by their types: a frame of one cannot be lent to a call of the other.

use crate::calls::Calls;
use core::fmt::Debug;

/// What records a frame can hold: those of [`Edition1`] or [`Edition2`], and nothing else.
pub trait Edition: Called + Copy + Debug {
    /// The most bytes of a key, and of a listing's prefix.
    const LONGEST_KEY: usize;
}

/// The calls of an edition, for this package alone.
pub trait Called {
    /// Those that are exported.
    const CALLS: Calls;
    /// What the edition's frame and view are called.
    const NAMES: [&'static str; 2];
    /// What a change of a batch without a stamp has in its place: an erase, and in edition 1 every change.
    const NO_STAMP: &'static [u8];
}

/// Keys of 1 to 112 bytes, none of them 0, and no stamps. See [`Frame`](crate::Frame).
#[derive(Clone, Copy, PartialEq, Eq, Hash, Debug)]
pub enum Edition1 {}

/// Keys of 1 to 255 bytes of any kind, and a stamp with each record. See [`Frame2`](crate::Frame2).
#[derive(Clone, Copy, PartialEq, Eq, Hash, Debug)]
pub enum Edition2 {}

impl Edition for Edition1 {
    const LONGEST_KEY: usize = 112;
}

impl Called for Edition1 {
    const CALLS: Calls = Calls::OF_EDITION_1;
    const NAMES: [&'static str; 2] = ["Frame", "View"];
    const NO_STAMP: &'static [u8] = &[];
}

impl Edition for Edition2 {
    const LONGEST_KEY: usize = 255;
}

impl Called for Edition2 {
    const CALLS: Calls = Calls::OF_EDITION_2;
    const NAMES: [&'static str; 2] = ["Frame2", "View2"];
    const NO_STAMP: &'static [u8] = &0u64.to_le_bytes();
}
