//! The way a key leads through the tree of a good frame.
//!
//! A key is walked by its text, its walked string before the end. Behind it stand
//! bytes 0 only.

use super::edition::Edition;
use super::layout::*;

/// A slot on the way.
#[derive(Clone, Copy)]
pub struct Step {
    /// Where the field that names the slot stands: in the header or in a body.
    pub link: usize,
    pub slot: usize,
    pub kind: usize,
    pub body: usize,
    /// How many walked bytes lead to the slot.
    pub depth: usize,
}

/// The end of the way and the two steps before it; the root stands in for
/// steps before itself.
pub struct Way {
    pub end: Step,
    pub parent: Step,
    pub above: Step,
    /// How many slots were visited, the end's included.
    pub slots: usize,
}

/// The fields of a live Leaf.
pub struct LeafFields {
    pub extent: usize,
    pub key_length: usize,
    pub value_length: usize,
}

/// The byte of the walked string at this depth.
#[inline(always)]
pub fn walked_byte(text: &[u8], depth: usize) -> u8 {
    text.get(depth).copied().unwrap_or(END_BYTE)
}

/// What is left of a text at this depth; none where the end has begun.
#[inline(always)]
pub fn rest(text: &[u8], depth: usize) -> &[u8] {
    &text[depth.min(text.len())..]
}

/// As far as the walked string leads: to a Leaf, an EmptyRoot, a Prefix that
/// does not match or an inner node without the byte.
#[inline(always)]
pub fn walk<E: Edition>(frame: &[u8], text: &[u8]) -> Way {
    let root = root(frame);
    let mut way = Way { end: root, parent: root, above: root, slots: 1 };
    while let Some(next) = next::<E>(frame, text, &way.end) {
        way = Way { end: next, parent: way.end, above: way.parent, slots: way.slots + 1 };
    }
    way
}

#[inline(always)]
pub fn root(frame: &[u8]) -> Step {
    step(frame, AT_ROOT, get16(frame, AT_ROOT), 0)
}

/// Where the walked string leads from a slot.
#[inline(always)]
pub fn next<E: Edition>(frame: &[u8], text: &[u8], from: &Step) -> Option<Step> {
    let Step { kind, body, depth, .. } = *from;
    let (field, deeper) = match kind {
        LEAF | EMPTY_ROOT => return None,
        PREFIX => {
            let bytes = prefix_bytes(frame, body);
            if !goes_on_with::<E>(rest(text, depth), bytes) {
                return None;
            }
            (body + PREFIX_CHILD, depth + bytes.len())
        }
        _ => (child_field(frame, kind, body, walked_byte(text, depth))?, depth + 1),
    };
    Some(step(frame, field, get32(frame, field), deeper))
}

/// Whether a walked string goes on with the bytes of a Prefix. In edition 2 they can
/// have the first byte of its end, which an escaped byte 0 begins with as well.
#[inline(always)]
fn goes_on_with<E: Edition>(rest: &[u8], bytes: &[u8]) -> bool {
    rest.starts_with(bytes) || E::ZEROS && bytes.split_last() == Some((&END_BYTE, rest))
}

#[inline(always)]
fn step(frame: &[u8], link: usize, slot: usize, depth: usize) -> Step {
    let (body, kind) = get_entry(frame, slot);
    Step { link, slot, kind, body, depth }
}

/// The Leaf at the end of the way, if it holds this very key.
#[inline(always)]
pub fn present(frame: &[u8], end: &Step, key: &[u8]) -> Option<LeafFields> {
    if end.kind != LEAF {
        return None;
    }
    let leaf = leaf_fields(frame, end.body);
    (leaf_key(frame, &leaf) == key).then_some(leaf)
}

#[inline(always)]
pub fn leaf_fields(frame: &[u8], body: usize) -> LeafFields {
    LeafFields {
        extent: get32(frame, body + LEAF_EXTENT),
        key_length: get16(frame, body + LEAF_KEY_LENGTH),
        value_length: get16(frame, body + LEAF_VALUE_LENGTH),
    }
}

#[inline(always)]
pub fn leaf_key<'a>(frame: &'a [u8], leaf: &LeafFields) -> &'a [u8] {
    &frame[leaf.extent..leaf.extent + leaf.key_length]
}

#[inline(always)]
pub fn prefix_bytes(frame: &[u8], body: usize) -> &[u8] {
    let length = get16(frame, body + PREFIX_LENGTH);
    &frame[body + PREFIX_START..body + PREFIX_START + length]
}

/// Where the child at this byte is named in the frame.
#[inline(always)]
pub fn child_field(frame: &[u8], kind: usize, body: usize, byte: u8) -> Option<usize> {
    let place = match kind {
        NODE256 => {
            let field = child_at(kind, body, usize::from(byte));
            return (get32(frame, field) != 0).then_some(field);
        }
        NODE48 => {
            let index = body + BRANCHES_START[NODE48] + usize::from(byte);
            usize::from(frame[index]).checked_sub(1)?
        }
        _ => row_bytes(frame, kind, body).iter().position(|there| *there == byte)?,
    };
    Some(child_at(kind, body, place))
}

/// The bytes in use of a Node4 or a Node16.
#[inline(always)]
pub fn row_bytes(frame: &[u8], kind: usize, body: usize) -> &[u8] {
    let start = body + BRANCHES_START[kind];
    &frame[start..start + get16(frame, body + INNER_COUNT)]
}

/// Where the child at a place, counted from 0, is named.
#[inline(always)]
pub fn child_at(kind: usize, body: usize, place: usize) -> usize {
    body + CHILDREN_START[kind] + CHILD_BYTES * place
}

/// The children of an inner node in byte order: each byte and its slot.
pub struct Children<'a> {
    frame: &'a [u8],
    kind: usize,
    body: usize,
    /// The next place of a Node4 or a Node16, else the next byte.
    next: usize,
    end: usize,
}

#[inline(always)]
pub fn children(frame: &[u8], kind: usize, body: usize) -> Children<'_> {
    let end = match kind {
        NODE48 | NODE256 => INDEX_ENTRIES,
        _ => get16(frame, body + INNER_COUNT),
    };
    Children { frame, kind, body, next: 0, end }
}

impl Iterator for Children<'_> {
    type Item = (u8, usize);

    #[inline(always)]
    fn next(&mut self) -> Option<(u8, usize)> {
        let Children { frame, kind, body, .. } = *self;
        match kind {
            NODE48 => self.next_of_index(),
            NODE256 => {
                while self.next < self.end {
                    let byte = self.next;
                    self.next += 1;
                    let child = get32(frame, child_at(kind, body, byte));
                    if child != 0 {
                        return Some((byte as u8, child));
                    }
                }
                None
            }
            _ if self.next < self.end => {
                let place = self.next;
                self.next += 1;
                let byte = frame[body + BRANCHES_START[kind] + place];
                Some((byte, get32(frame, child_at(kind, body, place))))
            }
            _ => None,
        }
    }
}

impl Children<'_> {
    /// Skips unused index entries of a Node48, a word of them at a time.
    #[inline(always)]
    fn next_of_index(&mut self) -> Option<(u8, usize)> {
        let index = self.body + BRANCHES_START[NODE48];
        while self.next < self.end {
            let in_word = self.next % UNIT;
            let word = get64(self.frame, index + self.next - in_word) >> (8 * in_word);
            if word == 0 {
                self.next += UNIT - in_word;
                continue;
            }
            let byte = self.next + word.trailing_zeros() as usize / 8;
            self.next = byte + 1;
            let place = usize::from(self.frame[index + byte]) - 1;
            return Some((byte as u8, get32(self.frame, child_at(NODE48, self.body, place))));
        }
        None
    }
}
