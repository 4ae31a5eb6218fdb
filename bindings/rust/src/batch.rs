//! Many changes in one batch, written into lent bytes as docs/FORMAT.md lays them out. Nothing is allocated.

use crate::edition::{Called, Edition, Edition1, Edition2};
use crate::Refusal;
use core::fmt;
use core::marker::PhantomData;

/// Bytes of the count, and of an offset.
const WORD: usize = 4;
/// Bytes of a change before its stamp, or before its key in edition 1, which has none.
const HEAD: usize = 8;

const PUT: u16 = 1;
const REPLACE: u16 = 2;
const ERASE: u16 = 3;

/// A batch of edition 1.
pub type Batch<'b> = BatchOf<'b, Edition1>;
/// A batch of edition 2, with the stamps that the records get.
pub type Batch2<'b> = BatchOf<'b, Edition2>;

/// A batch in lent bytes, [`Batch`] or [`Batch2`]: the count and the offset of each change, then the changes. Made by [`BatchOf::new`],
/// applied by [`FrameOf::apply`](crate::FrameOf::apply) to a frame of its edition.
#[derive(Debug)]
pub struct BatchOf<'b, E: Edition> {
    bytes: &'b mut [u8],
    length: usize,
    count: usize,
    most: usize,
    edition: PhantomData<E>,
}

impl Batch<'_> {
    /// A put: new, or 11 if the key is there.
    pub fn put(&mut self, key: &[u8], value: &[u8]) -> Result<(), Full> {
        self.add(PUT, key, value, Edition1::NO_STAMP)
    }

    /// A replacement: 9, or 8 if the key is not there.
    pub fn replace(&mut self, key: &[u8], value: &[u8]) -> Result<(), Full> {
        self.add(REPLACE, key, value, Edition1::NO_STAMP)
    }
}

impl Batch2<'_> {
    /// A put: new, or 11 if the key is there, which keeps its value and its stamp.
    pub fn put(&mut self, key: &[u8], value: &[u8], stamp: u64) -> Result<(), Full> {
        self.add(PUT, key, value, &stamp.to_le_bytes())
    }

    /// A replacement: 9, or 8 if the key is not there.
    pub fn replace(&mut self, key: &[u8], value: &[u8], stamp: u64) -> Result<(), Full> {
        self.add(REPLACE, key, value, &stamp.to_le_bytes())
    }
}

impl<'b, E: Edition> BatchOf<'b, E> {
    /// An empty batch for at most so many changes, for which 4 bytes each and 4 more are taken first.
    pub fn new(bytes: &'b mut [u8], most: usize) -> Result<Self, Full> {
        let length =
            most.checked_mul(WORD).and_then(|table| table.checked_add(WORD)).ok_or(Full)?;
        if length > bytes.len() || u32::try_from(bytes.len()).is_err() {
            return Err(Full);
        }
        let mut batch = BatchOf { bytes, length, count: 0, most, edition: PhantomData };
        batch.set_word(0, 0);
        Ok(batch)
    }

    /// An erase: 0, or 8 if the key is not there.
    pub fn erase(&mut self, key: &[u8]) -> Result<(), Full> {
        self.add(ERASE, key, b"", E::NO_STAMP)
    }

    /// How many changes it has.
    pub fn len(&self) -> usize {
        self.count
    }

    /// Whether it has none.
    pub fn is_empty(&self) -> bool {
        self.count == 0
    }

    /// The batch so far.
    pub fn bytes(&self) -> &[u8] {
        &self.bytes[..self.length]
    }

    /// A change, with the bytes that the edition has for its stamp.
    fn add(&mut self, kind: u16, key: &[u8], value: &[u8], stamp: &[u8]) -> Result<(), Full> {
        let key_length = u16::try_from(key.len()).map_err(|_| Full)?;
        let at = self.length;
        let parts = [stamp, key, value];
        let end = parts
            .iter()
            .try_fold(at + HEAD, |end, part| end.checked_add(part.len()))
            .ok_or(Full)?;
        if self.count == self.most || end > self.bytes.len() {
            return Err(Full);
        }
        self.bytes[at..at + 2].copy_from_slice(&kind.to_le_bytes());
        self.bytes[at + 2..at + 4].copy_from_slice(&key_length.to_le_bytes());
        self.set_word(at + 4, value.len());
        let mut next = at + HEAD;
        for part in parts {
            self.bytes[next..next + part.len()].copy_from_slice(part);
            next += part.len();
        }
        self.set_word(WORD + WORD * self.count, at);
        self.count += 1;
        self.set_word(0, self.count);
        self.length = end;
        Ok(())
    }

    /// Numbers here are at most the length of the bytes, which 32 bits hold.
    fn set_word(&mut self, at: usize, number: usize) {
        let number = u32::try_from(number).expect("no longer than the bytes");
        self.bytes[at..at + WORD].copy_from_slice(&number.to_le_bytes());
    }
}

/// The bytes have no room for this change, or the batch has as many as it was made for. It is as it was.
#[derive(Clone, Copy, PartialEq, Eq, Hash, Debug)]
pub struct Full;

impl fmt::Display for Full {
    fn fmt(&self, to: &mut fmt::Formatter<'_>) -> fmt::Result {
        to.write_str("the batch has no room for this change")
    }
}

impl core::error::Error for Full {}

/// Why a batch was not applied: the frame is as it was.
#[derive(Clone, Copy, PartialEq, Eq, Hash, Debug)]
pub struct Stopped {
    /// The first refused change, from 1; 0 if the call itself was refused and no change was begun.
    pub change: usize,
    /// Its refusal, or the call's.
    pub refusal: Refusal,
}

impl fmt::Display for Stopped {
    fn fmt(&self, to: &mut fmt::Formatter<'_>) -> fmt::Result {
        match self.change {
            0 => write!(to, "{}", self.refusal),
            change => write!(to, "change {change}: {}", self.refusal),
        }
    }
}

impl core::error::Error for Stopped {}
