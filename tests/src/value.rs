//! What a record has besides its key.
//!
//! Believed here: Q-8 of document 02. In edition 2 the caller passes a stamp of
//! eight bytes with a put or a replacement, and it is part of the record as the
//! value is. Edition 1 passes none, and keeps zero where edition 2 has it.

use crate::layout::Edition;

/// The bytes of a value, owned or lent, and the stamp that goes with them.
#[derive(Clone, Copy, PartialEq, Eq, Debug, Default)]
pub struct Value<B> {
    pub bytes: B,
    /// 0 in edition 1.
    pub stamp: u64,
}

/// As it is passed to a call.
pub type Given<'a> = Value<&'a [u8]>;

/// What stands for a stamp where none is passed.
pub const NO_STAMP: u64 = 0;
/// The lowest byte of a stamp stands first.
pub const STAMP_BYTES: usize = 8;

impl<B> Value<B> {
    pub fn plain(bytes: B) -> Value<B> {
        Value { bytes, stamp: NO_STAMP }
    }

    /// With this stamp, if the edition has one.
    pub fn stamped(edition: Edition, bytes: B, stamp: u64) -> Value<B> {
        match edition {
            Edition::One => Value::plain(bytes),
            Edition::Two => Value { bytes, stamp },
        }
    }
}

impl<B: AsRef<[u8]>> Value<B> {
    pub fn given(&self) -> Given<'_> {
        Value { bytes: self.bytes.as_ref(), stamp: self.stamp }
    }
}

impl<'a> Given<'a> {
    /// The same with bytes of its own.
    pub fn owned<B: From<&'a [u8]>>(self) -> Value<B> {
        Value { bytes: self.bytes.into(), stamp: self.stamp }
    }
}

pub fn get_stamp(bytes: &[u8], at: usize) -> u64 {
    let (stamp, _) = bytes[at..].split_first_chunk::<STAMP_BYTES>().expect("eight bytes");
    u64::from_le_bytes(*stamp)
}

pub fn set_stamp(bytes: &mut [u8], at: usize, stamp: u64) {
    bytes[at..at + STAMP_BYTES].copy_from_slice(&stamp.to_le_bytes());
}
