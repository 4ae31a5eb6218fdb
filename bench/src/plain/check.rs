//! The check, in one walk over the tree and the lists.
//!
//! One bit map over the frame's units holds what is taken; everything below D
//! and from B on is taken from the start. Each body and each live extent takes
//! its own units, word by word, and may take none that is taken. A slot that is
//! met twice would take its body twice, so as many bodies as U are all of them.
//! After the tree and before the lists the map has what is live: all else from
//! D on is zero.
//!
//! The walk keeps the bytes of a key that lead to where it is: in edition 2 a byte 0
//! for its two walked ones. Where only the first of them is behind it, the walk goes
//! on by itself (`behind_zero`).

use super::edition::{Edition, One};
use super::layout::number::{DONE, LENGTHS, NOT_GOOD};
use super::layout::*;
use super::walk::child_at;

/// Frames up to these lengths get a bit map of their own size class.
const SMALL_FRAME: usize = 4_096;
const MIDDLE_FRAME: usize = 32_768;

const LOW_BITS: u64 = u64::from_ne_bytes([0x01; 8]);
const HIGH_BITS: u64 = u64::from_ne_bytes([0x80; 8]);

#[inline(never)]
pub fn check<E: Edition>(frame: &[u8]) -> u32 {
    check_by::<E>(frame, true)
}

/// The check of a frame from before what is freed was wiped, so of edition 1.
#[inline(never)]
pub fn check_before(frame: &[u8]) -> u32 {
    check_by::<One>(frame, false)
}

#[inline(always)]
fn check_by<E: Edition>(frame: &[u8], wiped: bool) -> u32 {
    if !frame_length_allowed(frame.len()) || get32(frame, AT_F) != frame.len() {
        return LENGTHS;
    }
    let good = if frame.len() <= SMALL_FRAME {
        good_frame::<E, { map_words(SMALL_FRAME) }>(frame, wiped)
    } else if frame.len() <= MIDDLE_FRAME {
        good_frame::<E, { map_words(MIDDLE_FRAME) }>(frame, wiped)
    } else {
        good_frame::<E, { map_words(LONGEST_FRAME) }>(frame, wiped)
    };
    if good {
        DONE
    } else {
        NOT_GOOD
    }
}

/// Words of a bit map over so many bytes.
const fn map_words(bytes: usize) -> usize {
    (bytes / UNIT).div_ceil(u64::BITS as usize)
}

#[inline(never)]
fn good_frame<E: Edition, const MAP_WORDS: usize>(frame: &[u8], wiped: bool) -> bool {
    let Some(header) = Header::read::<E>(frame) else {
        return false;
    };
    let mut map = [0; MAP_WORDS];
    let taken = &mut map[..map_words(header.b)];
    mark_outside(taken, header.d / UNIT, header.b / UNIT);
    let (entries, _) = frame[HEADER_BYTES..entry_at(header.u + 1)].as_chunks();
    let path = E::NO_PATH;
    let mut checker: Checker<E> =
        Checker { frame, entries, taken, path, leaves: 0, other_bodies: 0 };
    checker.root()
        && (!wiped || checker.all_else_zero(header.b))
        && checker.lists()
        && checker.leaves + checker.other_bodies == header.u
        && checker.leaves == get32(frame, AT_R)
        && checker.units_not_taken() * UNIT == get32(frame, AT_X)
}

/// The fields that the rest of the frame is read by.
struct Header {
    d: usize,
    b: usize,
    u: usize,
}

impl Header {
    fn read<E: Edition>(frame: &[u8]) -> Option<Header> {
        let n = get32(frame, AT_N);
        let (d, b, u) = (get32(frame, AT_D), get32(frame, AT_B), get32(frame, AT_U));
        let good = get32(frame, AT_EDITION) == E::NUMBER
            && slot_capacity_allowed(n)
            && d == data_start(n)
            && (d + EMPTY_ROOT_BYTES..=frame.len()).contains(&b)
            && b.is_multiple_of(UNIT)
            && (1..=n).contains(&u)
            && get16(frame, list_head_at(LEFT_OUT)) == 0
            && all_zero(&frame[AT_HEADER_ZERO..HEADER_BYTES])
            && all_zero(&frame[entry_at(u + 1)..d]);
        good.then_some(Header { d, b, u })
    }
}

/// Takes every unit below `first` and from `end` to the end of the map.
fn mark_outside(taken: &mut [u64], first: usize, end: usize) {
    let (word, bit) = place_in_map(first);
    taken[..word].fill(u64::MAX);
    taken[word] = (1 << bit) - 1;
    let (word, bit) = place_in_map(end);
    if bit != 0 {
        taken[word] |= u64::MAX << bit;
    }
}

#[inline(always)]
fn place_in_map(unit: usize) -> (usize, usize) {
    (unit / u64::BITS as usize, unit % u64::BITS as usize)
}

#[inline(always)]
fn all_zero(bytes: &[u8]) -> bool {
    let (words, rest) = bytes.as_chunks();
    let words = words.iter().fold(0, |all, word| all | u64::from_le_bytes(*word));
    let rest = rest.iter().fold(0, |all, byte| all | byte);
    words == 0 && rest == 0
}

/// The low bytes of a word, up to all eight of them.
#[inline(always)]
fn low_bytes(count: usize) -> u64 {
    if count >= UNIT {
        u64::MAX
    } else {
        (1 << (8 * count)) - 1
    }
}

/// Not 0 if one of the word's bytes is 0.
#[inline(always)]
fn zero_bytes(word: u64) -> u64 {
    word.wrapping_sub(LOW_BITS) & !word & HIGH_BITS
}

/// What is read of a Prefix.
struct PrefixRead<'a> {
    body: &'a [u8; PREFIX_BYTES],
    length: usize,
    /// Whether there is a byte 0 among those in use; told in edition 2.
    zeros: bool,
}

struct Checker<'a, E: Edition> {
    frame: &'a [u8],
    /// The entries of slots 1 to U.
    entries: &'a [[u8; ENTRY_BYTES]],
    /// A bit for each unit up to B.
    taken: &'a mut [u64],
    /// The bytes that lead to where the walk is.
    path: E::Path,
    /// Live Leaves met.
    leaves: usize,
    /// All other bodies met, freed Leaves among them.
    other_bodies: usize,
}

impl<'a, E: Edition> Checker<'a, E> {
    /// The unit where the body starts, and the kind or the next slot.
    #[inline(always)]
    fn entry(&self, slot: usize) -> Option<(usize, usize)> {
        let entry = u32::from_le_bytes(*self.entries.get(slot.wrapping_sub(1))?) as usize;
        Some((entry & OFFSET_MASK, entry >> OFFSET_BITS))
    }

    /// Takes units that nothing has taken; false if there are not so many.
    #[inline(always)]
    fn claim(&mut self, first: usize, units: usize) -> bool {
        let (word, bit) = place_in_map(first);
        if bit + units > u64::BITS as usize {
            return self.claim_across(first, units);
        }
        let mask = (u64::MAX >> (u64::BITS as usize - units)) << bit;
        match self.taken.get_mut(word) {
            Some(taken) if *taken & mask == 0 => {
                *taken |= mask;
                true
            }
            _ => false,
        }
    }

    #[inline(never)]
    fn claim_across(&mut self, first: usize, units: usize) -> bool {
        let (first_word, first_bit) = place_in_map(first);
        let (last_word, last_bit) = place_in_map(first + units - 1);
        let Some([low, between @ .., high]) = self.taken.get_mut(first_word..=last_word) else {
            return false;
        };
        let low_mask = u64::MAX << first_bit;
        let high_mask = u64::MAX >> (u64::BITS as usize - 1 - last_bit);
        let met = between.iter().fold(*low & low_mask | *high & high_mask, |met, word| met | word);
        *low |= low_mask;
        *high |= high_mask;
        between.fill(u64::MAX);
        met == 0
    }

    /// Whether all units that are not taken are zero, and all bytes from B on.
    fn all_else_zero(&self, b: usize) -> bool {
        let (units, _) = self.frame.as_chunks::<UNIT>();
        for (word, taken) in self.taken.iter().enumerate() {
            let units = &units[word * u64::BITS as usize..];
            let mut free = !taken;
            let mut left = 0;
            if free == u64::MAX {
                for unit in &units[..u64::BITS as usize] {
                    left |= u64::from_le_bytes(*unit);
                }
            } else {
                while free != 0 {
                    left |= u64::from_le_bytes(units[free.trailing_zeros() as usize]);
                    free &= free - 1;
                }
            }
            if left != 0 {
                return false;
            }
        }
        all_zero(&self.frame[b..])
    }

    /// What no body and no live extent has between D and B.
    fn units_not_taken(&self) -> usize {
        self.taken.iter().map(|word| word.count_zeros() as usize).sum()
    }

    /// Takes the units of a body and gives its bytes.
    #[inline(always)]
    fn body<const BYTES: usize>(&mut self, first: usize) -> Option<&'a [u8; BYTES]> {
        if !self.claim(first, BYTES / UNIT) {
            return None;
        }
        self.frame.get(first * UNIT..)?.first_chunk()
    }

    /// Walks the eight lists.
    fn lists(&mut self) -> bool {
        (LEAF..=EMPTY_ROOT).all(|kind| self.list(get16(self.frame, list_head_at(kind)), kind))
    }

    #[inline(always)]
    fn list(&mut self, head: usize, kind: usize) -> bool {
        let mut next = head;
        while next != 0 {
            let Some((first, link)) = self.entry(next) else {
                return false;
            };
            self.other_bodies += 1;
            if !self.claim(first, BODY_BYTES[kind] / UNIT) {
                return false;
            }
            next = link;
        }
        true
    }

    fn root(&mut self) -> bool {
        match self.entry(get16(self.frame, AT_ROOT)) {
            None => false,
            Some((first, EMPTY_ROOT)) => {
                self.other_bodies += 1;
                self.body::<EMPTY_ROOT_BYTES>(first).is_some_and(|body| get64(body, 0) == 0)
            }
            Some((first, kind)) => self.node(first, kind, 0),
        }
    }

    /// Walks a live slot and all below it.
    fn node(&mut self, first: usize, kind: usize, depth: usize) -> bool {
        match kind {
            LEAF => self.leaf(first, depth),
            PREFIX => self.prefix(first, depth),
            _ => self.inner(first, kind, depth),
        }
    }

    /// Of the keys that part at a node one at least goes on, so that none stands where
    /// the longest key ends.
    #[inline(always)]
    fn inner(&mut self, first: usize, kind: usize, depth: usize) -> bool {
        self.other_bodies += 1;
        if depth >= E::LONGEST_KEY {
            return false;
        }
        let good = match kind {
            NODE4 => self.node4(first, depth),
            NODE16 => self.node16(first, depth),
            NODE48 => self.node48(first, depth),
            NODE256 => self.node256(first, depth),
            _ => None,
        };
        good.is_some()
    }

    /// Walks the child that this byte leads to.
    #[inline(always)]
    fn child(&mut self, byte: u8, slot: usize, depth: usize) -> Option<()> {
        let (first, kind) = self.entry(slot)?;
        if E::ZEROS && byte == 0 {
            return self.behind_zero(first, kind, depth);
        }
        self.path.as_mut()[depth] = byte;
        let good = match kind {
            LEAF => self.leaf(first, depth + 1),
            _ => self.node(first, kind, depth + 1),
        };
        good.then_some(())
    }

    /// In edition 1 the path can have the end, as a byte 0 behind the key.
    #[inline(always)]
    fn leaf(&mut self, first: usize, depth: usize) -> bool {
        let Some((key, length)) = self.leaf_key(first) else {
            return false;
        };
        if E::ZEROS {
            return depth <= length && self.begins_with_path(key, depth);
        }
        let ends = depth <= length || depth == length + 1 && self.path.as_ref()[length] == END_BYTE;
        ends && self.key_on_path(key, length, depth.min(length))
    }

    /// Takes the units of a Leaf and of its extent, and gives the key's units and its
    /// length.
    #[inline(always)]
    fn leaf_key(&mut self, first: usize) -> Option<(&'a [[u8; UNIT]], usize)> {
        self.leaves += 1;
        let body = self.body::<LEAF_BYTES>(first)?;
        let extent = get32(body, LEAF_EXTENT);
        let key_length = get16(body, LEAF_KEY_LENGTH);
        let value_length = get16(body, LEAF_VALUE_LENGTH);
        if !E::STAMPS && get64(body, LEAF_STAMP) != 0
            || !(1..=E::LONGEST_KEY).contains(&key_length)
            || !extent.is_multiple_of(UNIT)
            || !self.claim(extent / UNIT, extent_bytes(key_length, value_length) / UNIT)
        {
            return None;
        }
        let key = self.frame.get(extent..extent + extent_bytes(key_length, 0))?;
        Some((key.as_chunks().0, key_length))
    }

    /// Whether the key holds no byte 0 and begins with so many bytes of the path.
    #[inline(always)]
    fn key_on_path(&self, key: &[[u8; UNIT]], key_length: usize, depth: usize) -> bool {
        let path = self.path.as_ref().as_chunks().0;
        let (on_path, last) = (depth / UNIT, key.len() - 1);
        let mut wrong = 0;
        for (index, word) in key.iter().enumerate() {
            let mut word = u64::from_le_bytes(*word);
            if index <= on_path {
                let mask = if index == on_path { low_bytes(depth % UNIT) } else { u64::MAX };
                wrong |= (word ^ u64::from_le_bytes(path[index])) & mask;
            }
            if index == last {
                word |= !low_bytes(key_length - last * UNIT);
            }
            wrong |= zero_bytes(word);
        }
        wrong == 0
    }

    /// Whether the key, which is long enough, begins with so many bytes of the path.
    #[inline(always)]
    fn begins_with_path(&self, key: &[[u8; UNIT]], depth: usize) -> bool {
        let path = self.path.as_ref().as_chunks().0;
        let mut wrong = 0;
        for (index, (word, on_path)) in key.iter().zip(path).enumerate() {
            if index * UNIT >= depth {
                break;
            }
            let differs = u64::from_le_bytes(*word) ^ u64::from_le_bytes(*on_path);
            wrong |= differs & low_bytes(depth - index * UNIT);
        }
        wrong == 0
    }

    #[inline(always)]
    fn prefix(&mut self, first: usize, depth: usize) -> bool {
        let Some(PrefixRead { body, length, zeros }) = self.prefix_body(first) else {
            return false;
        };
        if E::ZEROS && zeros {
            return self.prefix_with_zeros(body, length, depth, false).is_some();
        }
        let deeper = depth + length;
        if deeper >= E::LONGEST_KEY {
            return false;
        }
        self.path.as_mut()[depth..depth + LONGEST_PREFIX].copy_from_slice(&body[PREFIX_START..]);
        match self.entry(get32(body, PREFIX_CHILD)) {
            Some((first, PREFIX)) if E::CHAINS && length == LONGEST_PREFIX => {
                self.node(first, PREFIX, deeper)
            }
            Some((first, kind)) => self.inner(first, kind, deeper),
            None => false,
        }
    }

    /// Takes the units of a Prefix, and reads all of it but the child.
    #[inline(always)]
    fn prefix_body(&mut self, first: usize) -> Option<PrefixRead<'a>> {
        self.other_bodies += 1;
        let body = self.body::<PREFIX_BYTES>(first)?;
        let length = get16(body, PREFIX_LENGTH);
        if !(1..=LONGEST_PREFIX).contains(&length)
            || get16(body, PREFIX_ZERO) != 0
            || get64(body, PREFIX_ZERO + 2) != 0
        {
            return None;
        }
        let (mut unused, mut zeros) = (0, 0);
        for (index, word) in body[PREFIX_START..].as_chunks().0.iter().enumerate() {
            let used = low_bytes(length.saturating_sub(index * UNIT));
            let word = u64::from_le_bytes(*word);
            unused |= word & !used;
            if E::ZEROS {
                zeros |= zero_bytes(word | !used);
            }
        }
        (unused == 0).then_some(PrefixRead { body, length, zeros: zeros != 0 })
    }

    /// A Prefix that has walked bytes 0, or stands behind one.
    #[inline(never)]
    fn prefix_with_zeros(
        &mut self,
        body: &'a [u8; PREFIX_BYTES],
        length: usize,
        depth: usize,
        behind_zero: bool,
    ) -> Option<()> {
        let (mut deeper, mut behind_zero) = (depth, behind_zero);
        for byte in &body[PREFIX_START..PREFIX_START + length] {
            let key_byte = match (behind_zero, *byte) {
                (false, 0) => {
                    behind_zero = true;
                    continue;
                }
                (false, byte) => byte,
                (true, ESCAPE) => 0,
                (true, _) => return None,
            };
            behind_zero = false;
            self.path.as_mut()[deeper] = key_byte;
            deeper += 1;
        }
        let (first, kind) = self.entry(get32(body, PREFIX_CHILD))?;
        if deeper >= E::LONGEST_KEY || kind == LEAF || kind == PREFIX && length < LONGEST_PREFIX {
            return None;
        }
        if behind_zero {
            return self.behind_zero(first, kind, deeper);
        }
        self.node(first, kind, deeper).then_some(())
    }

    /// Walks a slot that so many bytes of a key lead to, and then a walked byte 0: the
    /// first one of the key's end, or of a byte 0.
    #[inline(never)]
    fn behind_zero(&mut self, first: usize, kind: usize, depth: usize) -> Option<()> {
        self.path.as_mut()[depth] = 0;
        match kind {
            LEAF => {
                let (key, length) = self.leaf_key(first)?;
                let good = depth <= length && self.begins_with_path(key, length.min(depth + 1));
                good.then_some(())
            }
            PREFIX => {
                let PrefixRead { body, length, .. } = self.prefix_body(first)?;
                self.prefix_with_zeros(body, length, depth, true)
            }
            NODE4 => self.end_or_zero(first, depth),
            _ => None,
        }
    }

    /// Where a key's end parts from a byte 0: only these two can follow a walked byte 0.
    fn end_or_zero(&mut self, first: usize, depth: usize) -> Option<()> {
        const PARTING: [u8; MOST_CHILDREN[NODE4]] = [END_BYTE, ESCAPE, 0, 0];
        self.other_bodies += 1;
        let body = self.body::<NODE4_BYTES>(first)?;
        let bytes = &body[BRANCHES_START[NODE4]..CHILDREN_START[NODE4]];
        let [end, zero, third, fourth] = [0, 1, 2, 3].map(|at| get32(body, child_at(NODE4, 0, at)));
        if get32(body, INNER_COUNT) != 2 || bytes != PARTING || third != 0 || fourth != 0 {
            return None;
        }
        let (first, LEAF) = self.entry(end)? else {
            return None;
        };
        let (key, length) = self.leaf_key(first)?;
        if length != depth || !self.begins_with_path(key, depth) {
            return None;
        }
        let (first, kind) = self.entry(zero)?;
        self.node(first, kind, depth + 1).then_some(())
    }

    #[inline(always)]
    fn node4(&mut self, first: usize, depth: usize) -> Option<()> {
        let body = self.body::<NODE4_BYTES>(first)?;
        self.row::<4>(&body[..], NODE4, get16(body, INNER_ZERO) == 0, depth)
    }

    #[inline(always)]
    fn node16(&mut self, first: usize, depth: usize) -> Option<()> {
        let body = self.body::<NODE16_BYTES>(first)?;
        self.row::<16>(&body[..], NODE16, inner_zero(&body[..]), depth)
    }

    /// Node4 and Node16: ascending bytes in the first places, zero behind them.
    #[inline(always)]
    fn row<const PLACES: usize>(
        &mut self,
        body: &'a [u8],
        kind: usize,
        zero: bool,
        depth: usize,
    ) -> Option<()> {
        let count = get16(body, INNER_COUNT);
        if !zero || !(FEWEST_CHILDREN[kind]..=PLACES).contains(&count) {
            return None;
        }
        let bytes: &[u8; PLACES] = body[BRANCHES_START[kind]..].first_chunk()?;
        let children: &[[u8; CHILD_BYTES]; PLACES] =
            body[CHILDREN_START[kind]..].as_chunks().0.first_chunk()?;
        let mut good = true;
        for place in 1..PLACES {
            let ascends = bytes[place - 1] < bytes[place];
            let unused = bytes[place] == 0 && children[place] == [0; CHILD_BYTES];
            good &= if place < count { ascends } else { unused };
        }
        if !good {
            return None;
        }
        for place in 0..count {
            self.child(bytes[place], u32::from_le_bytes(children[place]) as usize, depth)?;
        }
        Some(())
    }

    fn node48(&mut self, first: usize, depth: usize) -> Option<()> {
        let body = self.body::<NODE48_BYTES>(first)?;
        let count = get16(body, INNER_COUNT);
        let index: &[u8; INDEX_ENTRIES] = body[BRANCHES_START[NODE48]..].first_chunk()?;
        let children = &body[CHILDREN_START[NODE48]..].as_chunks::<CHILD_BYTES>().0;
        if !inner_zero(&body[..]) || count < FEWEST_CHILDREN[NODE48] {
            return None;
        }
        let mut used: u64 = 0;
        for (place, child) in children.iter().enumerate() {
            used |= u64::from(*child != [0; CHILD_BYTES]) << place;
        }
        let mut named: u64 = 0;
        for (word_index, word) in index.as_chunks().0.iter().enumerate() {
            let mut left = u64::from_le_bytes(*word);
            while left != 0 {
                let shift = left.trailing_zeros() & !7;
                let place = usize::from((left >> shift) as u8) - 1;
                left &= !(0xFF << shift);
                let child = u32::from_le_bytes(*children.get(place)?) as usize;
                let bit = 1 << place;
                if named & bit != 0 {
                    return None;
                }
                named |= bit;
                let byte = word_index * UNIT + shift as usize / 8;
                self.child(byte as u8, child, depth)?;
            }
        }
        (named == used && named.count_ones() as usize == count).then_some(())
    }

    fn node256(&mut self, first: usize, depth: usize) -> Option<()> {
        let body = self.body::<NODE256_BYTES>(first)?;
        let count = get16(body, INNER_COUNT);
        let (children, _) = body[CHILDREN_START[NODE256]..].as_chunks();
        if !inner_zero(&body[..]) || count < FEWEST_CHILDREN[NODE256] {
            return None;
        }
        let mut found = 0;
        for (byte, child) in children.iter().enumerate() {
            let child = u32::from_le_bytes(*child) as usize;
            if child != 0 {
                found += 1;
                self.child(byte as u8, child, depth)?;
            }
        }
        (found == count).then_some(())
    }
}

/// The zero field behind the count of a Node16, Node48 or Node256.
#[inline(always)]
fn inner_zero(body: &[u8]) -> bool {
    get64(body, INNER_COUNT) >> (8 * INNER_ZERO) == 0
}
