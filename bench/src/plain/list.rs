//! Names in order: one walk over the part of the tree that the prefix leads to,
//! from the start key on.

use super::edition::{text, Edition, TextRoom};
use super::layout::number::*;
use super::layout::*;
use super::walk::*;
use super::{check, key_refusal};
use std::ops::Range;

/// What is listed: the prefix, the key to start after, the delimiter.
#[derive(Clone, Copy)]
pub struct Asked<'a> {
    pub prefix: &'a [u8],
    pub start: Option<&'a [u8]>,
    pub delimiter: Option<u8>,
}

/// The number; how many entries were written, and 1 if more remain.
pub fn list<E: Edition>(frame: &[u8], asked: &Asked, buffer: &mut [u8]) -> (u32, [u64; 2]) {
    match refusal::<E>(frame, asked) {
        DONE => {}
        refused => return (refused, [0; 2]),
    }
    let (mut prefix_room, mut start_room) = (TextRoom::None, TextRoom::None);
    let prefix = text::<E>(asked.prefix, &mut prefix_room);
    let start = text::<E>(asked.start.unwrap_or_default(), &mut start_room);
    let mut page = Page { frame, asked, prefix, start, buffer, at: 0, last: 0..0, count: 0 };
    match page.below(get16(frame, AT_ROOT), 0, asked.start.is_some()) {
        Walk::Full if page.count == 0 => (BUFFER, [0; 2]),
        Walk::Full => (DONE, [page.count, 1]),
        Walk::On => (DONE, [page.count, 0]),
    }
}

/// Refusals 1 to 4, in their order.
fn refusal<E: Edition>(frame: &[u8], asked: &Asked) -> u32 {
    match check::<E>(frame) {
        DONE if asked.prefix.len() > E::LONGEST_KEY => KEY_LENGTH,
        DONE => asked.start.map_or(DONE, key_refusal::<E>),
        refused => refused,
    }
}

#[derive(PartialEq, Eq)]
enum Walk {
    On,
    /// An entry did not fit.
    Full,
}

struct Page<'a> {
    frame: &'a [u8],
    asked: &'a Asked<'a>,
    /// The texts of the prefix and of the start key.
    prefix: &'a [u8],
    start: &'a [u8],
    buffer: &'a mut [u8],
    /// Where the next entry goes.
    at: usize,
    /// Where the text of the last one stands.
    last: Range<usize>,
    count: u64,
}

impl Page<'_> {
    /// Lists what is below a slot that so many walked bytes lead to. `tight`:
    /// they are the first bytes of the start key, so that some of it may lie
    /// before it.
    fn below(&mut self, slot: usize, depth: usize, tight: bool) -> Walk {
        let Page { frame, prefix, start, .. } = *self;
        let (body, kind) = get_entry(frame, slot);
        match kind {
            EMPTY_ROOT => Walk::On,
            LEAF => self.leaf(body),
            PREFIX => {
                let bytes = prefix_bytes(frame, body);
                let asked = rest(prefix, depth);
                let shared = asked.len().min(bytes.len());
                if asked[..shared] != bytes[..shared] {
                    return Walk::On;
                }
                let mut tight = tight;
                if tight {
                    let rest = rest(start, depth);
                    let compared = rest.len().min(bytes.len());
                    if bytes[..compared] < rest[..compared] {
                        return Walk::On;
                    }
                    tight = bytes == &rest[..compared];
                }
                self.below(get32(frame, body + PREFIX_CHILD), depth + bytes.len(), tight)
            }
            _ if depth < prefix.len() => {
                let byte = prefix[depth];
                match child_field(frame, kind, body, byte) {
                    Some(field) => self.child(depth, byte, get32(frame, field), tight),
                    None => Walk::On,
                }
            }
            _ => {
                for (byte, child) in children(frame, kind, body) {
                    if self.child(depth, byte, child, tight) == Walk::Full {
                        return Walk::Full;
                    }
                }
                Walk::On
            }
        }
    }

    #[inline(always)]
    fn child(&mut self, depth: usize, byte: u8, child: usize, tight: bool) -> Walk {
        if !tight {
            return self.below(child, depth + 1, false);
        }
        let start = walked_byte(self.start, depth);
        if byte < start {
            return Walk::On;
        }
        self.below(child, depth + 1, byte == start)
    }

    #[inline(always)]
    fn leaf(&mut self, body: usize) -> Walk {
        let Asked { prefix, start, delimiter } = *self.asked;
        let key = leaf_key(self.frame, &leaf_fields(self.frame, body));
        if !key.starts_with(prefix) {
            return Walk::On;
        }
        let ends = |delimiter| key[prefix.len()..].iter().position(|byte| *byte == delimiter);
        let group = delimiter.and_then(ends);
        let entry = group.map_or(key, |at| &key[..=prefix.len() + at]);
        if start.is_some_and(|start| entry <= start) {
            return Walk::On;
        }
        if group.is_some() && self.count > 0 && self.buffer[self.last.clone()] == *entry {
            return Walk::On;
        }
        let text = self.at + NAME_LENGTH_BYTES;
        let end = text + entry.len();
        if end > self.buffer.len() {
            return Walk::Full;
        }
        set16(self.buffer, self.at, entry.len());
        self.buffer[text..end].copy_from_slice(entry);
        (self.at, self.last) = (end, text..end);
        self.count += 1;
        Walk::On
    }
}
