//! Names in order, over the bytes of a lent frame.
//!
//! Believed here: Q-1 of document 02. The keys are read from the frame in byte
//! order and written as they come; with a delimiter, each is cut after the
//! first one behind the prefix, and what was written or passed last is not
//! written again.

use crate::check::check;
use crate::layout::number::*;
use crate::layout::*;
use crate::store;

/// What is asked of a listing besides the frame and the buffer.
#[derive(Clone, Copy, PartialEq, Eq, Debug)]
pub struct Asked<'a> {
    pub prefix: &'a [u8],
    /// Only what sorts after it is listed.
    pub start: Option<&'a [u8]>,
    pub delimiter: Option<u8>,
}

/// What a listing tells: the number, how many entries were written, and 1 if
/// more remain. The last two are 0 of a refusal.
#[derive(Clone, Copy, PartialEq, Eq, Debug)]
pub struct Page {
    pub number: u32,
    pub count: u64,
    pub more: u64,
}

impl Page {
    pub fn refused(number: u32) -> Page {
        Page { number, count: 0, more: 0 }
    }
}

/// The bytes before an entry, its length.
pub const LENGTH_BYTES: usize = 2;

impl Asked<'_> {
    /// The refusal that is earned before any key is looked at.
    pub fn refusal(&self, edition: Edition) -> Option<u32> {
        if self.prefix.len() > edition.longest_key() {
            return Some(KEY_LENGTH);
        }
        self.start.and_then(|start| edition.key_refusal(start))
    }

    /// The entry of a key that begins with the prefix.
    pub fn entry<'k>(&self, key: &'k [u8]) -> &'k [u8] {
        let behind = &key[self.prefix.len()..];
        let delimiter = behind.iter().position(|byte| Some(*byte) == self.delimiter);
        delimiter.map_or(key, |at| &key[..self.prefix.len() + at + 1])
    }
}

pub fn list(edition: Edition, frame: &[u8], asked: &Asked, buffer: &mut [u8]) -> Page {
    let checked = check(edition, frame);
    if checked != DONE {
        return Page::refused(checked);
    }
    if let Some(refused) = asked.refusal(edition) {
        return Page::refused(refused);
    }
    let mut last = asked.start.unwrap_or_default().to_vec();
    let (mut count, mut written) = (0, 0);
    for key in store::records(frame).into_keys() {
        if !key.starts_with(asked.prefix) {
            continue;
        }
        let entry = asked.entry(&key);
        if *entry <= last[..] {
            continue;
        }
        let end = written + LENGTH_BYTES + entry.len();
        if end > buffer.len() {
            return match count {
                0 => Page::refused(BUFFER),
                _ => Page { number: DONE, count, more: 1 },
            };
        }
        set16(buffer, written, entry.len());
        buffer[written + LENGTH_BYTES..end].copy_from_slice(entry);
        (count, written, last) = (count + 1, end, entry.to_vec());
    }
    Page { number: DONE, count, more: 0 }
}
