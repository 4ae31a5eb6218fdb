//! Packing: one walk over the tree, every byte of the output written once.

use super::change::write_child;
use super::check::{check, check_before};
use super::edition::{Edition, One};
use super::format;
use super::layout::number::*;
use super::layout::*;
use super::walk::{children, leaf_fields};

pub fn pack<E: Edition>(frame: &[u8], out: &mut [u8]) -> u32 {
    match check::<E>(frame) {
        DONE => pack_good::<E>(frame, out),
        refused => refused,
    }
}

/// The packing of a frame from before what is freed was wiped, so of edition 1.
pub fn pack_before(frame: &[u8], out: &mut [u8]) -> u32 {
    match check_before(frame) {
        DONE => pack_good::<One>(frame, out),
        refused => refused,
    }
}

fn pack_good<E: Edition>(frame: &[u8], out: &mut [u8]) -> u32 {
    if out.len() != frame.len() {
        return OUTPUT_LENGTH;
    }
    let (n, records) = (get32(frame, AT_N), get32(frame, AT_R));
    if records == 0 {
        return format::<E>(out, frame.len(), n);
    }
    let d = data_start(n);
    let mut packer = Packer { frame, out, slots: 0, end: d };
    packer.node(get16(frame, AT_ROOT));
    let Packer { out, slots, end, .. } = packer;
    out[..HEADER_BYTES].fill(0);
    for (at, field) in [
        (AT_EDITION, E::NUMBER),
        (AT_F, frame.len()),
        (AT_N, n),
        (AT_D, d),
        (AT_B, end),
        (AT_U, slots),
        (AT_R, records),
    ] {
        set32(out, at, field);
    }
    set16(out, AT_ROOT, 1);
    out[entry_at(slots + 1)..d].fill(0);
    out[end..].fill(0);
    DONE
}

struct Packer<'a> {
    frame: &'a [u8],
    out: &'a mut [u8],
    /// Slots given out so far.
    slots: usize,
    /// The first byte not yet given out.
    end: usize,
}

impl Packer<'_> {
    /// Packs a live slot and all below it; its new slot is the next one.
    fn node(&mut self, slot: usize) {
        let (body, kind) = get_entry(self.frame, slot);
        match kind {
            LEAF => self.leaf(body),
            PREFIX => {
                let packed = self.give(PREFIX);
                self.out[packed..packed + PREFIX_BYTES]
                    .copy_from_slice(&self.frame[body..body + PREFIX_BYTES]);
                set32(self.out, packed + PREFIX_CHILD, self.slots + 1);
                self.node(get32(self.frame, body + PREFIX_CHILD));
            }
            _ => self.inner(kind, body),
        }
    }

    /// The next slot and the next place for a body of this kind.
    #[inline(always)]
    fn give(&mut self, kind: usize) -> usize {
        let body = self.end;
        self.slots += 1;
        self.end += BODY_BYTES[kind];
        set_entry(self.out, self.slots, body, kind);
        body
    }

    fn leaf(&mut self, body: usize) {
        let leaf = leaf_fields(self.frame, body);
        let packed = self.give(LEAF);
        let extent = self.end;
        let length = leaf.key_length + leaf.value_length;
        self.end += extent_bytes(leaf.key_length, leaf.value_length);
        let fields = &mut self.out[packed..extent];
        fields.copy_from_slice(&self.frame[body..body + LEAF_BYTES]);
        set32(fields, LEAF_EXTENT, extent);
        self.out[self.end - UNIT..self.end].fill(0);
        self.out[extent..extent + length]
            .copy_from_slice(&self.frame[leaf.extent..leaf.extent + length]);
    }

    fn inner(&mut self, kind: usize, body: usize) {
        let count = get16(self.frame, body + INNER_COUNT);
        let holds_them = |kind: &usize| count <= MOST_CHILDREN[*kind];
        let packed_kind = (NODE4..NODE256).find(holds_them).unwrap_or(NODE256);
        let packed = self.give(packed_kind);
        let packed = packed..packed + BODY_BYTES[packed_kind];
        self.out[packed.clone()].fill(0);
        set16(self.out, packed.start + INNER_COUNT, count);
        for (place, (byte, child)) in children(self.frame, kind, body).enumerate() {
            let next_slot = self.slots + 1;
            write_child(&mut self.out[packed.clone()], packed_kind, place, byte, next_slot);
            self.node(child);
        }
    }
}
