//! The numbers of documents 01 and 02, by name.
//!
//! Believed here: the header table, the slot entry, the table of kinds with
//! its field places, the limits, and the numbers a call can give. Nothing in
//! this file decides anything; it only says where a field stands.

use std::ops::{Range, RangeInclusive};

pub const SHORTEST_FRAME: usize = 1_024;
pub const LONGEST_FRAME: usize = 524_288;
pub const FEWEST_SLOTS: usize = 8;
pub const MOST_SLOTS: usize = 10_240;
/// Frame lengths, offsets, bodies and extents are multiples of this.
pub const UNIT: usize = 8;

pub const LONGEST_VALUE: usize = 65_535;
/// Of one body; in edition 2 a longer shared beginning is a chain of them.
pub const LONGEST_PREFIX: usize = 112;
/// What a walked string ends with: once in edition 1, twice in edition 2.
pub const END_BYTE: u8 = 0;
/// In edition 2 it follows each byte 0 of a key.
pub const ESCAPE: u8 = 255;

pub const AT_EDITION: usize = 0;
pub const AT_F: usize = 4;
pub const AT_N: usize = 8;
pub const AT_D: usize = 12;
pub const AT_B: usize = 16;
pub const AT_U: usize = 20;
pub const AT_R: usize = 24;
pub const AT_X: usize = 28;
pub const AT_ROOT: usize = 32;
pub const AT_LIST_HEADS: usize = 34;
pub const LISTS: usize = 8;
pub const LIST_HEAD_BYTES: usize = 2;
/// What info tells: F, N, U, B, R, X and the lengths of the lists.
pub const INFO_NUMBERS: usize = 6 + LISTS;
pub const HEADER_ZERO: Range<usize> = 50..64;
pub const AT_ENTRIES: usize = 64;
pub const ENTRY_BYTES: usize = 4;

/// The low bits of an entry: the body's offset in units.
pub const OFFSET_BITS: u32 = 17;
pub const OFFSET_MASK: u32 = (1 << OFFSET_BITS) - 1;

/// List 3 belongs to the kind that is left out.
pub const LEFT_OUT_KIND: usize = 3;

pub const LEAF_EXTENT: usize = 0;
pub const LEAF_KEY_LENGTH: usize = 4;
pub const LEAF_VALUE_LENGTH: usize = 6;
/// Zero in edition 1; in edition 2 a number of eight bytes, of any kind.
pub const LEAF_STAMP: Range<usize> = 8..16;
pub const PREFIX_CHILD: usize = 0;
pub const PREFIX_LENGTH: usize = 4;
pub const PREFIX_BYTES: Range<usize> = 16..128;
pub const INNER_COUNT: usize = 0;
pub const NODE48_INDEX: usize = 8;
pub const INDEX_ENTRIES: usize = 256;
pub const CHILD_BYTES: usize = 4;

/// The numbers a call can give.
pub mod number {
    pub const DONE: u32 = 0;
    pub const LENGTHS: u32 = 1;
    pub const NOT_GOOD: u32 = 2;
    pub const KEY_LENGTH: u32 = 3;
    pub const KEY_HOLDS_ZERO: u32 = 4;
    pub const VALUE_LENGTH: u32 = 5;
    pub const NO_ROOM: u32 = 6;
    pub const OUTPUT_LENGTH: u32 = 7;
    pub const ABSENT: u32 = 8;
    pub const REPLACED: u32 = 9;
    /// A listing's buffer is too small for the first entry (document 02, Q-1).
    pub const BUFFER: u32 = 10;
    /// A plain put finds its key present, and changes nothing (document 02, Q-5).
    pub const PRESENT: u32 = 11;
    /// A batch is not laid out as one (document 02, Q-6).
    pub const LAYOUT: u32 = 12;
}

/// Which keys a frame can hold, what their walked strings are, and whether a record
/// has a stamp: document 01 has edition 1, Q-7 and Q-8 of document 02 edition 2.
#[derive(Clone, Copy, PartialEq, Eq, PartialOrd, Ord, Debug)]
pub enum Edition {
    One = 1,
    Two = 2,
}

impl Edition {
    pub const ALL: [Edition; 2] = [Edition::One, Edition::Two];

    pub fn number(self) -> usize {
        self as usize
    }

    pub fn other(self) -> Edition {
        match self {
            Edition::One => Edition::Two,
            Edition::Two => Edition::One,
        }
    }

    /// Of a key, and of a listing's prefix.
    pub const fn longest_key(self) -> usize {
        match self {
            Edition::One => 112,
            Edition::Two => 255,
        }
    }

    /// Of all keys, that of the longest with as many bytes 0 as it can have.
    pub const fn longest_walked(self) -> usize {
        match self {
            Edition::One => self.longest_key() + 1,
            Edition::Two => 2 * self.longest_key() + 2,
        }
    }

    pub fn walked(self, key: &[u8]) -> Vec<u8> {
        match self {
            Edition::One => [key, &[END_BYTE]].concat(),
            Edition::Two => {
                let mut string = Vec::new();
                for byte in key.iter().copied() {
                    string.push(byte);
                    string.extend((byte == 0).then_some(ESCAPE));
                }
                string.extend([END_BYTE, END_BYTE]);
                string
            }
        }
    }

    /// The refusal a key earns by itself.
    pub fn key_refusal(self, key: &[u8]) -> Option<u32> {
        if key.is_empty() || key.len() > self.longest_key() {
            Some(number::KEY_LENGTH)
        } else if self == Edition::One && key.contains(&0) {
            Some(number::KEY_HOLDS_ZERO)
        } else {
            None
        }
    }
}

/// How many Prefixes a shared beginning of so many bytes takes.
pub fn prefixes(bytes: usize) -> usize {
    bytes.div_ceil(LONGEST_PREFIX)
}

#[derive(Clone, Copy, PartialEq, Eq, PartialOrd, Ord, Debug)]
pub enum Kind {
    Leaf = 1,
    Prefix = 2,
    Node4 = 4,
    Node16 = 5,
    Node48 = 6,
    Node256 = 7,
    EmptyRoot = 8,
}

use Kind::*;

impl Kind {
    pub const ALL: [Kind; 7] = [Leaf, Prefix, Node4, Node16, Node48, Node256, EmptyRoot];
    pub const INNER: [Kind; 4] = [Node4, Node16, Node48, Node256];

    pub fn number(self) -> usize {
        self as usize
    }

    pub fn of_number(number: usize) -> Option<Kind> {
        Kind::ALL.into_iter().find(|kind| kind.number() == number)
    }

    pub fn body_bytes(self) -> usize {
        match self {
            Leaf => 16,
            Prefix => 128,
            Node4 => 24,
            Node16 => 88,
            Node48 => 456,
            Node256 => 1_032,
            EmptyRoot => 8,
        }
    }

    pub fn is_inner(self) -> bool {
        Kind::INNER.contains(&self)
    }

    /// How many children a good frame allows an inner node.
    pub fn children_allowed(self) -> RangeInclusive<usize> {
        match self {
            Node4 => 2..=4,
            Node16 => 4..=16,
            Node48 => 13..=48,
            Node256 => 38..=256,
            Leaf | Prefix | EmptyRoot => 0..=0,
        }
    }

    pub fn most_children(self) -> usize {
        *self.children_allowed().end()
    }

    /// Falling to this many children, the node gives way to a smaller kind.
    pub fn shrink_mark(self) -> Option<usize> {
        match self {
            Node256 => Some(37),
            Node48 => Some(12),
            Node16 => Some(3),
            _ => None,
        }
    }

    pub fn larger(self) -> Option<Kind> {
        match self {
            Node4 => Some(Node16),
            Node16 => Some(Node48),
            Node48 => Some(Node256),
            _ => None,
        }
    }

    pub fn smaller(self) -> Option<Kind> {
        match self {
            Node256 => Some(Node48),
            Node48 => Some(Node16),
            Node16 => Some(Node4),
            _ => None,
        }
    }

    /// The smallest inner kind that holds so many children.
    pub fn smallest_for(children: usize) -> Kind {
        Kind::INNER
            .into_iter()
            .find(|kind| children <= kind.most_children())
            .expect("no inner node has more than 256 children")
    }

    /// The field that is zero in every live body of this kind. A Leaf of edition 2
    /// has none: its stamp stands there.
    pub fn zero_field(self, edition: Edition) -> Option<Range<usize>> {
        match self {
            Leaf => (edition == Edition::One).then_some(LEAF_STAMP),
            Prefix => Some(6..16),
            Node4 => Some(2..4),
            Node16 | Node48 | Node256 => Some(2..8),
            EmptyRoot => Some(0..8),
        }
    }

    /// The bytes of a Node4 or a Node16, one for each place.
    pub fn branch_bytes(self) -> Option<Range<usize>> {
        match self {
            Node4 => Some(4..8),
            Node16 => Some(8..24),
            _ => None,
        }
    }

    /// Where the children of an inner node start in its body.
    pub fn children_start(self) -> usize {
        match self {
            Node4 => 8,
            Node16 => 24,
            Node48 => 264,
            Node256 => 8,
            Leaf | Prefix | EmptyRoot => panic!("{self:?} has no row of children"),
        }
    }

    /// The place in the body of the child that stands at `index`, from 0.
    pub fn child_at(self, index: usize) -> usize {
        self.children_start() + index * CHILD_BYTES
    }
}

pub fn frame_length_allowed(f: usize) -> bool {
    (SHORTEST_FRAME..=LONGEST_FRAME).contains(&f) && f.is_multiple_of(UNIT)
}

pub fn slot_capacity_allowed(n: usize) -> bool {
    (FEWEST_SLOTS..=MOST_SLOTS).contains(&n) && n.is_multiple_of(2)
}

pub fn data_start(n: usize) -> usize {
    AT_ENTRIES + ENTRY_BYTES * n
}

pub fn entry_at(slot: usize) -> usize {
    AT_ENTRIES + ENTRY_BYTES * (slot - 1)
}

pub fn list_head_at(kind_number: usize) -> usize {
    AT_LIST_HEADS + LIST_HEAD_BYTES * (kind_number - 1)
}

pub fn rounded(bytes: usize) -> usize {
    bytes.div_ceil(UNIT) * UNIT
}

pub fn extent_bytes(key_length: usize, value_length: usize) -> usize {
    rounded(key_length + value_length)
}

/// How many bytes two strings share from their start.
pub fn shared(a: &[u8], b: &[u8]) -> usize {
    a.iter().zip(b).take_while(|(x, y)| x == y).count()
}

pub fn get16(bytes: &[u8], at: usize) -> usize {
    usize::from(u16::from_le_bytes([bytes[at], bytes[at + 1]]))
}

pub fn get32(bytes: &[u8], at: usize) -> usize {
    u32::from_le_bytes([bytes[at], bytes[at + 1], bytes[at + 2], bytes[at + 3]]) as usize
}

pub fn set16(bytes: &mut [u8], at: usize, value: usize) {
    let value = u16::try_from(value).expect("a field of two bytes");
    bytes[at..at + 2].copy_from_slice(&value.to_le_bytes());
}

pub fn set32(bytes: &mut [u8], at: usize, value: usize) {
    let value = u32::try_from(value).expect("a field of four bytes");
    bytes[at..at + 4].copy_from_slice(&value.to_le_bytes());
}

/// A slot's entry taken apart: the body's offset in bytes, and the high bits.
pub fn get_entry(frame: &[u8], slot: usize) -> (usize, usize) {
    let entry = get32(frame, entry_at(slot)) as u32;
    let offset = (entry & OFFSET_MASK) as usize * UNIT;
    (offset, (entry >> OFFSET_BITS) as usize)
}

/// `high` is the kind of a live slot, or the next slot of a freed one.
pub fn set_entry(frame: &mut [u8], slot: usize, offset: usize, high: usize) {
    assert!(offset.is_multiple_of(UNIT), "a body stands at a multiple of {UNIT}");
    set32(frame, entry_at(slot), (offset / UNIT) | (high << OFFSET_BITS));
}
