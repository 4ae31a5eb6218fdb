//! Chains of Prefixes: shared beginnings of edition 2 that are longer than one body
//! holds. Each Prefix of a chain is full but the last.
//!
//! Those that were there keep their order when a chain is cut or joined, and a new one
//! stands below them. A cut frees the Prefix that is cut, a join the last one.

use super::change::*;
use super::edition::{Edition, LONGEST_TEXT};
use super::layout::*;
use super::walk::*;

/// The Prefixes that so many bytes take.
#[inline(always)]
pub fn prefixes(bytes: usize) -> usize {
    bytes.div_ceil(LONGEST_PREFIX)
}

/// A chain that is read, and one more Prefix.
const MOST_PREFIXES: usize = LONGEST_TEXT.div_ceil(LONGEST_PREFIX) + 1;

/// Prefixes one below the other, and all their bytes.
struct Chain {
    slots: [usize; MOST_PREFIXES],
    count: usize,
    bytes: [u8; LONGEST_TEXT],
    length: usize,
}

impl Chain {
    fn new() -> Chain {
        Chain { slots: [0; MOST_PREFIXES], count: 0, bytes: [0; LONGEST_TEXT], length: 0 }
    }

    fn add_bytes(&mut self, bytes: &[u8]) {
        self.bytes[self.length..self.length + bytes.len()].copy_from_slice(bytes);
        self.length += bytes.len();
    }

    fn add_slot(&mut self, slot: usize) {
        self.slots[self.count] = slot;
        self.count += 1;
    }

    /// Adds the Prefixes from a slot on; gives what stands below them.
    fn read(&mut self, frame: &[u8], slot: usize) -> usize {
        let mut slot = slot;
        loop {
            let (body, kind) = get_entry(frame, slot);
            if kind != PREFIX {
                return slot;
            }
            self.add_slot(slot);
            self.add_bytes(prefix_bytes(frame, body));
            slot = get32(frame, body + PREFIX_CHILD);
        }
    }

    /// Takes new Prefixes until there are so many.
    fn take(&mut self, frame: &mut [u8], count: usize) {
        while self.count < count {
            let (slot, _) = take(frame, PREFIX);
            self.add_slot(slot);
        }
    }
}

/// Writes bytes into as many Prefixes as they take; gives the slot of the first.
fn write_chain(frame: &mut [u8], slots: &[usize], bytes: &[u8], below: usize) -> usize {
    let pieces = bytes.chunks(LONGEST_PREFIX);
    slots.iter().zip(pieces).rev().fold(below, |below, (slot, piece)| {
        let (body, _) = get_entry(frame, *slot);
        write_prefix(frame, body, &[piece], below);
        *slot
    })
}

/// Whether another Prefix stands below this one.
#[inline(always)]
pub fn goes_on(frame: &[u8], body: usize) -> bool {
    let (_, kind) = get_entry(frame, get32(frame, body + PREFIX_CHILD));
    kind == PREFIX
}

/// A chain whose first Prefix does not match: a Node4 between the part before and the
/// part after. The part before keeps the old body.
#[inline(never)]
pub fn cut<E: Edition>(frame: &mut [u8], end: &Step, record: &Record) -> Option<()> {
    let mut chain = Chain::new();
    let below = chain.read(frame, end.slot);
    let shared = matched_bytes::<E>(prefix_bytes(frame, end.body), record.text, end.depth);
    let had = chain.count;
    let after = shared + 1..chain.length;
    let now = prefixes(shared) + prefixes(after.len());
    room(frame, &[LEAF, NODE4], now.saturating_sub(had), record.extent_bytes())?;
    let leaf = add_leaf::<E>(frame, record);
    chain.take(frame, now);
    // The part after stands in the first body only if it takes all of them.
    let first = usize::from(shared > 0 || now < had);
    let lower = write_chain(frame, &chain.slots[first..chain.count], &chain.bytes[after], below);
    let new_byte = walked_byte(record.text, end.depth + shared);
    let node = add_pair(frame, (chain.bytes[shared], lower), (new_byte, leaf));
    if shared == 0 {
        set_link(frame, end.link, node);
    } else {
        write_prefix(frame, end.body, &[&chain.bytes[..shared]], node);
    }
    if now < had {
        release(frame, end.slot, PREFIX);
    }
    Some(())
}

/// How many bytes a Prefix above, a byte between and a child below have, which is a
/// Prefix or has none.
#[inline(always)]
pub fn joined(frame: &[u8], upper: Option<&Step>, child: usize) -> usize {
    let length = |body| prefix_bytes(frame, body).len();
    let (body, kind) = get_entry(frame, child);
    let below = if kind == PREFIX { length(body) } else { 0 };
    upper.map_or(0, |upper| length(upper.body)) + 1 + below
}

/// Joins the last Prefix above, the byte and the chain below it.
#[inline(never)]
pub fn join(
    frame: &mut [u8],
    node: &Step,
    upper: Option<&Step>,
    (byte, child): (u8, usize),
) -> Option<()> {
    let mut chain = Chain::new();
    if let Some(upper) = upper {
        chain.add_slot(upper.slot);
        chain.add_bytes(prefix_bytes(frame, upper.body));
    }
    chain.add_bytes(&[byte]);
    let below = chain.read(frame, child);
    let (had, now) = (chain.count, prefixes(chain.length));
    room(frame, &[], now.saturating_sub(had), 0)?;
    chain.take(frame, now);
    let top = write_chain(frame, &chain.slots[..now], &chain.bytes[..chain.length], below);
    if upper.is_none() {
        set_link(frame, node.link, top);
    }
    if now < had {
        release(frame, chain.slots[now], PREFIX);
    }
    Some(())
}

/// Frees the chain whose last Prefix this is, for a Leaf that stands there instead.
#[inline(never)]
pub fn drop_for<E: Edition>(frame: &mut [u8], text: &[u8], last: &Step, leaf: usize) {
    let mut step = root(frame);
    let mut top = step;
    while step.slot != last.slot {
        let Some(next) = next::<E>(frame, text, &step) else { unreachable!("the way leads there") };
        if step.kind != PREFIX || next.kind != PREFIX {
            top = next;
        }
        step = next;
    }
    set_link(frame, top.link, leaf);
    let mut chain = Chain::new();
    chain.read(frame, top.slot);
    for slot in &chain.slots[..chain.count] {
        release(frame, *slot, PREFIX);
    }
}
