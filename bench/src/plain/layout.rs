//! The numbers and field places of documents 01 and 02 that the plain store uses,
//! as far as both editions have them (`edition` has the others).

pub const SHORTEST_FRAME: usize = 1_024;
pub const LONGEST_FRAME: usize = 524_288;
pub const FEWEST_SLOTS: usize = 8;
pub const MOST_SLOTS: usize = 10_240;
/// Frame lengths, offsets, bodies and extents are multiples of this.
pub const UNIT: usize = 8;

pub const LONGEST_VALUE: usize = 65_535;
/// Of one body; in edition 2 a longer shared beginning is a chain of them.
pub const LONGEST_PREFIX: usize = 112;
/// A walked string ends with it: once in edition 1, twice in edition 2.
pub const END_BYTE: u8 = 0;
/// In edition 2 it follows each byte 0 of a key.
pub const ESCAPE: u8 = 255;

pub const AT_EDITION: usize = 0;
pub const AT_F: usize = 4;
pub const AT_N: usize = 8;
pub const AT_D: usize = 12;
pub const AT_B: usize = 16;
pub const AT_U: usize = 20;
pub const AT_R: usize = 24;
pub const AT_X: usize = 28;
pub const AT_ROOT: usize = 32;
pub const AT_LIST_HEADS: usize = 34;
pub const LIST_HEAD_BYTES: usize = 2;
pub const AT_HEADER_ZERO: usize = 50;
pub const HEADER_BYTES: usize = 64;
pub const ENTRY_BYTES: usize = 4;

/// The low bits of an entry hold the body's offset in units.
pub const OFFSET_BITS: usize = 17;
pub const OFFSET_MASK: usize = (1 << OFFSET_BITS) - 1;

/// The kinds, by their numbers; 3 is left out.
pub const LEAF: usize = 1;
pub const PREFIX: usize = 2;
pub const LEFT_OUT: usize = 3;
pub const NODE4: usize = 4;
pub const NODE16: usize = 5;
pub const NODE48: usize = 6;
pub const NODE256: usize = 7;
pub const EMPTY_ROOT: usize = 8;

pub const LEAF_BYTES: usize = 16;
pub const PREFIX_BYTES: usize = 128;
pub const NODE4_BYTES: usize = 24;
pub const NODE16_BYTES: usize = 88;
pub const NODE48_BYTES: usize = 456;
pub const NODE256_BYTES: usize = 1_032;
pub const EMPTY_ROOT_BYTES: usize = 8;

/// Body sizes by kind.
pub const BODY_BYTES: [usize; 9] = [
    0,
    LEAF_BYTES,
    PREFIX_BYTES,
    0,
    NODE4_BYTES,
    NODE16_BYTES,
    NODE48_BYTES,
    NODE256_BYTES,
    EMPTY_ROOT_BYTES,
];
/// How many children a kind holds at most.
pub const MOST_CHILDREN: [usize; 9] = [0, 0, 0, 0, 4, 16, 48, 256, 0];
/// How many children a good frame asks of a kind at least.
pub const FEWEST_CHILDREN: [usize; 9] = [0, 0, 0, 0, 2, 4, 13, 38, 0];
/// Where a kind's branch bytes start in its body; a Node48 has its index there.
pub const BRANCHES_START: [usize; 9] = [0, 0, 0, 0, 4, 8, 8, 0, 0];
/// Where a kind's children start in its body.
pub const CHILDREN_START: [usize; 9] = [0, 0, 0, 0, 8, 24, 264, 8, 0];
pub const CHILD_BYTES: usize = 4;

pub const LEAF_EXTENT: usize = 0;
pub const LEAF_KEY_LENGTH: usize = 4;
pub const LEAF_VALUE_LENGTH: usize = 6;
/// Zero in edition 1.
pub const LEAF_STAMP: usize = 8;
pub const PREFIX_CHILD: usize = 0;
pub const PREFIX_LENGTH: usize = 4;
pub const PREFIX_ZERO: usize = 6;
pub const PREFIX_START: usize = 16;
pub const INNER_COUNT: usize = 0;
pub const INNER_ZERO: usize = 2;
pub const INDEX_ENTRIES: usize = 256;
/// The length that stands before a name of a listing.
pub const NAME_LENGTH_BYTES: usize = 2;

/// The numbers a call can give.
pub mod number {
    pub const DONE: u32 = 0;
    pub const LENGTHS: u32 = 1;
    pub const NOT_GOOD: u32 = 2;
    pub const KEY_LENGTH: u32 = 3;
    pub const KEY_HOLDS_ZERO: u32 = 4;
    pub const VALUE_LENGTH: u32 = 5;
    pub const NO_ROOM: u32 = 6;
    pub const OUTPUT_LENGTH: u32 = 7;
    pub const ABSENT: u32 = 8;
    pub const REPLACED: u32 = 9;
    pub const BUFFER: u32 = 10;
    pub const PRESENT: u32 = 11;
}

#[inline(always)]
pub fn frame_length_allowed(f: usize) -> bool {
    f.is_multiple_of(UNIT) && (SHORTEST_FRAME..=LONGEST_FRAME).contains(&f)
}

#[inline(always)]
pub fn slot_capacity_allowed(n: usize) -> bool {
    n.is_multiple_of(2) && (FEWEST_SLOTS..=MOST_SLOTS).contains(&n)
}

#[inline(always)]
pub fn data_start(n: usize) -> usize {
    HEADER_BYTES + ENTRY_BYTES * n
}

#[inline(always)]
pub fn entry_at(slot: usize) -> usize {
    HEADER_BYTES - ENTRY_BYTES + ENTRY_BYTES * slot
}

#[inline(always)]
pub fn list_head_at(kind: usize) -> usize {
    AT_LIST_HEADS - LIST_HEAD_BYTES + LIST_HEAD_BYTES * kind
}

#[inline(always)]
pub fn extent_bytes(key_length: usize, value_length: usize) -> usize {
    (key_length + value_length).next_multiple_of(UNIT)
}

#[inline(always)]
pub fn get16(bytes: &[u8], at: usize) -> usize {
    usize::from(u16::from_le_bytes(part(bytes, at)))
}

#[inline(always)]
pub fn get32(bytes: &[u8], at: usize) -> usize {
    u32::from_le_bytes(part(bytes, at)) as usize
}

#[inline(always)]
pub fn get64(bytes: &[u8], at: usize) -> u64 {
    u64::from_le_bytes(part(bytes, at))
}

#[inline(always)]
fn part<const LENGTH: usize>(bytes: &[u8], at: usize) -> [u8; LENGTH] {
    let part: &[u8; LENGTH] = bytes[at..at + LENGTH].try_into().expect("of this length");
    *part
}

#[inline(always)]
pub fn set16(bytes: &mut [u8], at: usize, value: usize) {
    bytes[at..at + 2].copy_from_slice(&(value as u16).to_le_bytes());
}

#[inline(always)]
pub fn set32(bytes: &mut [u8], at: usize, value: usize) {
    bytes[at..at + 4].copy_from_slice(&(value as u32).to_le_bytes());
}

#[inline(always)]
pub fn set64(bytes: &mut [u8], at: usize, value: u64) {
    bytes[at..at + 8].copy_from_slice(&value.to_le_bytes());
}

/// An entry taken apart: the body's place, and the kind or the next slot.
#[inline(always)]
pub fn get_entry(frame: &[u8], slot: usize) -> (usize, usize) {
    let entry = get32(frame, entry_at(slot));
    ((entry & OFFSET_MASK) * UNIT, entry >> OFFSET_BITS)
}

#[inline(always)]
pub fn set_entry(frame: &mut [u8], slot: usize, body: usize, high: usize) {
    set32(frame, entry_at(slot), (body / UNIT) | (high << OFFSET_BITS));
}
