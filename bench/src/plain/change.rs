//! Put, replacement and erase, in place in a good frame.
//!
//! Each case names the bodies it needs and compares them with the room left
//! before it writes anything. What a call frees is wiped, and goes on its list
//! last.

use super::chain::{self, prefixes};
use super::edition::{text, Edition, TextRoom};
use super::layout::number::*;
use super::layout::*;
use super::walk::*;
use super::{format, refusal};

/// No child list that is carried over to another kind is longer.
const MOST_CARRIED: usize = MOST_CHILDREN[NODE48];

/// A record to be written.
pub struct Record<'a> {
    key: &'a [u8],
    /// The key's.
    pub text: &'a [u8],
    value: &'a [u8],
    stamp: u64,
}

impl Record<'_> {
    #[inline(always)]
    pub fn extent_bytes(&self) -> usize {
        extent_bytes(self.key.len(), self.value.len())
    }
}

/// The stamp is passed in edition 2, and not looked at in edition 1.
pub fn put<E: Edition>(frame: &mut [u8], key: &[u8], value: &[u8], stamp: u64) -> u32 {
    match refusal_with_value::<E>(frame, key, value) {
        DONE => {}
        refused => return refused,
    }
    let mut room = TextRoom::None;
    let text = text::<E>(key, &mut room);
    let end = walk::<E>(frame, text).end;
    if present(frame, &end, key).is_some() {
        return PRESENT;
    }
    let record = Record { key, text, value, stamp };
    let added = match end.kind {
        EMPTY_ROOT => replace_empty_root::<E>(frame, &end, &record),
        LEAF => split_leaf::<E>(frame, &end, &record),
        PREFIX if E::CHAINS && chain::goes_on(frame, end.body) => {
            chain::cut::<E>(frame, &end, &record)
        }
        PREFIX => cut_prefix::<E>(frame, &end, &record),
        _ => add_to_inner::<E>(frame, &end, &record),
    };
    match added {
        None => NO_ROOM,
        Some(()) => {
            add32(frame, AT_R, 1);
            DONE
        }
    }
}

pub fn replace<E: Edition>(frame: &mut [u8], key: &[u8], value: &[u8], stamp: u64) -> u32 {
    match refusal_with_value::<E>(frame, key, value) {
        DONE => {}
        refused => return refused,
    }
    let mut room = TextRoom::None;
    let text = text::<E>(key, &mut room);
    let end = walk::<E>(frame, text).end;
    match present(frame, &end, key) {
        None => ABSENT,
        Some(leaf) => replace_value::<E>(frame, &end, &leaf, &Record { key, text, value, stamp }),
    }
}

/// Refusals 1 to 5, in their order.
fn refusal_with_value<E: Edition>(frame: &[u8], key: &[u8], value: &[u8]) -> u32 {
    match refusal::<E>(frame, key) {
        DONE if value.len() > LONGEST_VALUE => VALUE_LENGTH,
        told => told,
    }
}

pub fn erase<E: Edition>(frame: &mut [u8], key: &[u8]) -> u32 {
    match refusal::<E>(frame, key) {
        DONE => {}
        refused => return refused,
    }
    let mut room = TextRoom::None;
    let text = text::<E>(key, &mut room);
    let way = walk::<E>(frame, text);
    let Some(leaf) = present(frame, &way.end, key) else {
        return ABSENT;
    };
    let records = get32(frame, AT_R);
    if records == 1 {
        let (f, n) = (get32(frame, AT_F), get32(frame, AT_N));
        return format::<E>(frame, f, n);
    }
    if take_out::<E>(frame, &way, text).is_none() {
        return NO_ROOM;
    }
    retire(frame, &leaf);
    release(frame, way.end.slot, LEAF);
    set32(frame, AT_R, records - 1);
    DONE
}

// Replacement, and the cases of put.

fn replace_value<E: Edition>(
    frame: &mut [u8],
    end: &Step,
    leaf: &LeafFields,
    record: &Record,
) -> u32 {
    let value = record.value;
    if leaf.value_length == value.len() {
        let place = leaf.extent + leaf.key_length;
        frame[place..place + value.len()].copy_from_slice(value);
        write_stamp::<E>(frame, end.body, record.stamp);
        return REPLACED;
    }
    if room(frame, &[], 0, record.extent_bytes()).is_none() {
        return NO_ROOM;
    }
    write_leaf::<E>(frame, end.body, record);
    retire(frame, leaf);
    REPLACED
}

fn replace_empty_root<E: Edition>(frame: &mut [u8], end: &Step, record: &Record) -> Option<()> {
    room(frame, &[LEAF], 0, record.extent_bytes())?;
    let leaf = add_leaf::<E>(frame, record);
    set_link(frame, end.link, leaf);
    release(frame, end.slot, EMPTY_ROOT);
    Some(())
}

/// A Leaf with another key: a Node4, and as many Prefixes as the bytes that they share
/// take.
fn split_leaf<E: Edition>(frame: &mut [u8], end: &Step, record: &Record) -> Option<()> {
    let (there, mut there_room) = (leaf_fields(frame, end.body), TextRoom::None);
    let there = text::<E>(leaf_key(frame, &there), &mut there_room);
    let parting = end.depth + shared_bytes::<E>(there, record.text, end.depth);
    let (old_byte, new_byte) = (walked_byte(there, parting), walked_byte(record.text, parting));
    room(frame, &[LEAF, NODE4], prefixes(parting - end.depth), record.extent_bytes())?;
    let leaf = add_leaf::<E>(frame, record);
    let mut top = add_pair(frame, (old_byte, end.slot), (new_byte, leaf));
    let mut to = parting;
    while to > end.depth {
        let from = to - 1 - (to - 1 - end.depth) % LONGEST_PREFIX;
        let (prefix, body) = take(frame, PREFIX);
        write_prefix(frame, body, &walked_part(record.text, from, to), top);
        (top, to) = (prefix, from);
    }
    set_link(frame, end.link, top);
    Some(())
}

/// A Prefix that does not match: a Node4 between the part before and the part
/// after. If both have bytes, the part before keeps the old body.
fn cut_prefix<E: Edition>(frame: &mut [u8], end: &Step, record: &Record) -> Option<()> {
    let mut copy = [0; LONGEST_PREFIX];
    let length = prefix_bytes(frame, end.body).len();
    copy[..length].copy_from_slice(prefix_bytes(frame, end.body));
    let bytes = &copy[..length];
    let below = get32(frame, end.body + PREFIX_CHILD);
    let shared = matched_bytes::<E>(bytes, record.text, end.depth);
    let (before, after) = (&bytes[..shared], &bytes[shared + 1..]);
    let both = !before.is_empty() && !after.is_empty();
    room(frame, &[LEAF, NODE4], usize::from(both), record.extent_bytes())?;
    let leaf = add_leaf::<E>(frame, record);
    let lower = if after.is_empty() {
        below
    } else {
        let (lower, body) = if both { take(frame, PREFIX) } else { (end.slot, end.body) };
        write_prefix(frame, body, &[after], below);
        lower
    };
    let new_byte = walked_byte(record.text, end.depth + shared);
    let node = add_pair(frame, (bytes[shared], lower), (new_byte, leaf));
    if before.is_empty() {
        set_link(frame, end.link, node);
    } else {
        write_prefix(frame, end.body, &[before], node);
    }
    if before.is_empty() && after.is_empty() {
        release(frame, end.slot, PREFIX);
    }
    Some(())
}

/// An inner node without the byte: it takes the Leaf, or grows if it is full.
fn add_to_inner<E: Edition>(frame: &mut [u8], end: &Step, record: &Record) -> Option<()> {
    let byte = walked_byte(record.text, end.depth);
    let extent = record.extent_bytes();
    if get16(frame, end.body + INNER_COUNT) < MOST_CHILDREN[end.kind] {
        room(frame, &[LEAF], 0, extent)?;
        let leaf = add_leaf::<E>(frame, record);
        add_child(frame, end.kind, end.body, byte, leaf);
        return Some(());
    }
    let larger = end.kind + 1;
    room(frame, &[LEAF, larger], 0, extent)?;
    let leaf = add_leaf::<E>(frame, record);
    let body = change_kind(frame, end, larger);
    add_child(frame, larger, body, byte, leaf);
    Some(())
}

// The cases of erase.

/// Takes the Leaf out of its inner node; None if there is no room to.
fn take_out<E: Edition>(frame: &mut [u8], way: &Way, text: &[u8]) -> Option<()> {
    let node = &way.parent;
    let byte = walked_byte(text, node.depth);
    let left = get16(frame, node.body + INNER_COUNT) - 1;
    if node.kind == NODE4 && left == 1 {
        return collapse::<E>(frame, way, text, byte);
    }
    if left < FEWEST_CHILDREN[node.kind] {
        let smaller = node.kind - 1;
        room(frame, &[smaller], 0, 0)?;
        remove_child(frame, node, way.end.link, byte);
        change_kind(frame, node, smaller);
    } else {
        remove_child(frame, node, way.end.link, byte);
    }
    Some(())
}

/// A Node4 with one child left is freed, and the byte that leads to that child
/// goes into a Prefix unless the child is a Leaf.
fn collapse<E: Edition>(frame: &mut [u8], way: &Way, text: &[u8], erased: u8) -> Option<()> {
    let node = &way.parent;
    let (byte, child) = children(frame, NODE4, node.body).find(|(byte, _)| *byte != erased)?;
    let (child_body, child_kind) = get_entry(frame, child);
    let upper = (way.above.kind == PREFIX).then_some(&way.above);
    match (child_kind, upper) {
        (LEAF, None) => set_link(frame, node.link, child),
        (LEAF, Some(upper)) if E::CHAINS && upper.depth >= LONGEST_PREFIX => {
            chain::drop_for::<E>(frame, text, upper, child);
        }
        (LEAF, Some(upper)) => {
            set_link(frame, upper.link, child);
            release(frame, upper.slot, PREFIX);
        }
        _ if E::CHAINS && chain::joined(frame, upper, child) > LONGEST_PREFIX => {
            chain::join(frame, node, upper, (byte, child))?;
        }
        (PREFIX, None) => {
            join_prefix(frame, child_body, &[], byte, child_body);
            set_link(frame, node.link, child);
        }
        (PREFIX, Some(upper)) => {
            let mut copy = [0; LONGEST_PREFIX];
            let start = prefix_bytes(frame, upper.body);
            let start = &mut copy[..start.len()];
            start.copy_from_slice(prefix_bytes(frame, upper.body));
            join_prefix(frame, upper.body, start, byte, child_body);
            release(frame, child, PREFIX);
        }
        (_, None) => {
            room(frame, &[], 1, 0)?;
            let (prefix, body) = take(frame, PREFIX);
            write_prefix(frame, body, &[&[byte]], child);
            set_link(frame, node.link, prefix);
        }
        (_, Some(upper)) => {
            let length = prefix_bytes(frame, upper.body).len();
            set32(frame, upper.body + PREFIX_CHILD, child);
            set16(frame, upper.body + PREFIX_LENGTH, length + 1);
            frame[upper.body + PREFIX_START + length] = byte;
        }
    }
    release(frame, node.slot, NODE4);
    Some(())
}

/// Writes a Prefix of a start, a byte and what the lower Prefix has.
fn join_prefix(frame: &mut [u8], body: usize, start: &[u8], byte: u8, lower: usize) {
    let mut copy = [0; LONGEST_PREFIX];
    let length = prefix_bytes(frame, lower).len();
    copy[..length].copy_from_slice(prefix_bytes(frame, lower));
    let below = get32(frame, lower + PREFIX_CHILD);
    write_prefix(frame, body, &[start, &[byte], &copy[..length]], below);
}

// Room, slots and lists.

/// None if the bodies, one of each of these kinds and so many Prefixes, and the extent
/// do not fit; bodies come from their lists first.
#[inline(always)]
pub fn room(frame: &[u8], bodies: &[usize], prefixes: usize, extent: usize) -> Option<()> {
    let (mut slots, mut bytes) = (0, extent);
    for kind in bodies {
        if get16(frame, list_head_at(*kind)) == 0 {
            slots += 1;
            bytes += BODY_BYTES[*kind];
        }
    }
    let mut listed = get16(frame, list_head_at(PREFIX));
    for _ in 0..prefixes {
        if listed == 0 {
            slots += 1;
            bytes += PREFIX_BYTES;
        } else {
            (_, listed) = get_entry(frame, listed);
        }
    }
    let slots_left = get32(frame, AT_N) - get32(frame, AT_U);
    let bytes_left = get32(frame, AT_F) - get32(frame, AT_B);
    (slots <= slots_left && bytes <= bytes_left).then_some(())
}

/// A slot and its body from the kind's list, or fresh. The body's bytes are
/// left for the writer.
pub fn take(frame: &mut [u8], kind: usize) -> (usize, usize) {
    let head = get16(frame, list_head_at(kind));
    if head != 0 {
        let (body, next) = get_entry(frame, head);
        set16(frame, list_head_at(kind), next);
        set_entry(frame, head, body, kind);
        return (head, body);
    }
    let slot = get32(frame, AT_U) + 1;
    let body = get32(frame, AT_B);
    set32(frame, AT_U, slot);
    set32(frame, AT_B, body + BODY_BYTES[kind]);
    set_entry(frame, slot, body, kind);
    (slot, body)
}

pub fn release(frame: &mut [u8], slot: usize, kind: usize) {
    let head = get16(frame, list_head_at(kind));
    let (body, _) = get_entry(frame, slot);
    frame[body..body + BODY_BYTES[kind]].fill(0);
    set_entry(frame, slot, body, head);
    set16(frame, list_head_at(kind), slot);
}

/// The extent of a Leaf that has another one, or none any more.
fn retire(frame: &mut [u8], leaf: &LeafFields) {
    let size = extent_bytes(leaf.key_length, leaf.value_length);
    frame[leaf.extent..leaf.extent + size].fill(0);
    add32(frame, AT_X, size);
}

pub fn set_link(frame: &mut [u8], link: usize, slot: usize) {
    match link {
        AT_ROOT => set16(frame, link, slot),
        _ => set32(frame, link, slot),
    }
}

fn add32(frame: &mut [u8], at: usize, more: usize) {
    set32(frame, at, get32(frame, at) + more);
}

// Writers of bodies and extents.

/// A Leaf with its extent; gives its slot.
pub fn add_leaf<E: Edition>(frame: &mut [u8], record: &Record) -> usize {
    let (slot, body) = take(frame, LEAF);
    frame[body..body + LEAF_BYTES].fill(0);
    write_leaf::<E>(frame, body, record);
    slot
}

/// A new extent at B, and a Leaf's fields that name it.
fn write_leaf<E: Edition>(frame: &mut [u8], body: usize, record: &Record) {
    let Record { key, value, stamp, .. } = *record;
    let extent = get32(frame, AT_B);
    let end = extent + extent_bytes(key.len(), value.len());
    let value_at = extent + key.len();
    frame[end - UNIT..end].fill(0);
    frame[extent..value_at].copy_from_slice(key);
    frame[value_at..value_at + value.len()].copy_from_slice(value);
    set32(frame, AT_B, end);
    set32(frame, body + LEAF_EXTENT, extent);
    set16(frame, body + LEAF_KEY_LENGTH, key.len());
    set16(frame, body + LEAF_VALUE_LENGTH, value.len());
    write_stamp::<E>(frame, body, stamp);
}

fn write_stamp<E: Edition>(frame: &mut [u8], body: usize, stamp: u64) {
    if E::STAMPS {
        set64(frame, body + LEAF_STAMP, stamp);
    }
}

pub fn write_prefix(frame: &mut [u8], body: usize, parts: &[&[u8]], child: usize) {
    frame[body..body + PREFIX_BYTES].fill(0);
    let start = body + PREFIX_START;
    let mut end = start;
    for part in parts {
        frame[end..end + part.len()].copy_from_slice(part);
        end += part.len();
    }
    set32(frame, body + PREFIX_CHILD, child);
    set16(frame, body + PREFIX_LENGTH, end - start);
}

/// A new Node4 with two children; gives its slot.
pub fn add_pair(frame: &mut [u8], one: (u8, usize), other: (u8, usize)) -> usize {
    let (slot, body) = take(frame, NODE4);
    write_inner(frame, NODE4, body, &if one < other { [one, other] } else { [other, one] });
    slot
}

/// Moves the children to a body of another kind and frees the old one; gives
/// the new body.
fn change_kind(frame: &mut [u8], node: &Step, kind: usize) -> usize {
    let mut carried = [(0, 0); MOST_CARRIED];
    let mut count = 0;
    for child in children(frame, node.kind, node.body) {
        carried[count] = child;
        count += 1;
    }
    let (slot, body) = take(frame, kind);
    write_inner(frame, kind, body, &carried[..count]);
    set_link(frame, node.link, slot);
    release(frame, node.slot, node.kind);
    body
}

/// The whole body of an inner node; the children are in byte order.
fn write_inner(frame: &mut [u8], kind: usize, body: usize, children: &[(u8, usize)]) {
    let bytes = &mut frame[body..body + BODY_BYTES[kind]];
    bytes.fill(0);
    set16(bytes, INNER_COUNT, children.len());
    for (place, (byte, child)) in children.iter().enumerate() {
        write_child(bytes, kind, place, *byte, *child);
    }
}

/// The child that stands at this place of a body, except in a Node256, where
/// the byte is its place.
#[inline(always)]
pub fn write_child(body: &mut [u8], kind: usize, place: usize, byte: u8, child: usize) {
    match kind {
        NODE256 => set32(body, child_at(kind, 0, usize::from(byte)), child),
        NODE48 => {
            body[BRANCHES_START[kind] + usize::from(byte)] = place as u8 + 1;
            set32(body, child_at(kind, 0, place), child);
        }
        _ => {
            body[BRANCHES_START[kind] + place] = byte;
            set32(body, child_at(kind, 0, place), child);
        }
    }
}

/// Adds a child to an inner node that is not full.
fn add_child(frame: &mut [u8], kind: usize, body: usize, byte: u8, child: usize) {
    let count = get16(frame, body + INNER_COUNT);
    let place = match kind {
        NODE256 => usize::from(byte),
        NODE48 => lowest_empty_place(frame, body),
        _ => {
            let place = row_bytes(frame, kind, body).iter().take_while(|it| **it < byte).count();
            let start = body + BRANCHES_START[kind];
            frame.copy_within(start + place..start + count, start + place + 1);
            let (from, to) = (child_at(kind, body, place), child_at(kind, body, count));
            frame.copy_within(from..to, from + CHILD_BYTES);
            place
        }
    };
    write_child(&mut frame[body..body + BODY_BYTES[kind]], kind, place, byte, child);
    set16(frame, body + INNER_COUNT, count + 1);
}

fn lowest_empty_place(frame: &[u8], body: usize) -> usize {
    (0..MOST_CHILDREN[NODE48])
        .take_while(|place| get32(frame, child_at(NODE48, body, *place)) != 0)
        .count()
}

/// Takes a child out, where it stands; what stays in a Node48 keeps its place.
fn remove_child(frame: &mut [u8], node: &Step, field: usize, byte: u8) {
    let Step { kind, body, .. } = *node;
    let count = get16(frame, body + INNER_COUNT);
    set16(frame, body + INNER_COUNT, count - 1);
    match kind {
        NODE256 => set32(frame, field, 0),
        NODE48 => {
            set32(frame, field, 0);
            frame[body + BRANCHES_START[kind] + usize::from(byte)] = 0;
        }
        _ => {
            let place = (field - child_at(kind, body, 0)) / CHILD_BYTES;
            let start = body + BRANCHES_START[kind];
            frame.copy_within(start + place + 1..start + count, start + place);
            frame[start + count - 1] = 0;
            let last = child_at(kind, body, count - 1);
            frame.copy_within(field + CHILD_BYTES..last + CHILD_BYTES, field);
            set32(frame, last, 0);
        }
    }
}

// Walked bytes, by texts.

/// How many bytes two walked strings share from a depth on.
fn shared_bytes<E: Edition>(one: &[u8], other: &[u8], depth: usize) -> usize {
    let (shorter, longer) = if one.len() < other.len() { (one, other) } else { (other, one) };
    matched_bytes::<E>(rest(longer, depth), shorter, depth)
}

/// How many of these bytes a walked string goes on with at a depth; not all of them.
pub fn matched_bytes<E: Edition>(bytes: &[u8], text: &[u8], depth: usize) -> usize {
    let rest = rest(text, depth);
    let equal = bytes.iter().zip(rest).take_while(|(one, other)| one == other).count();
    let ends = E::ZEROS && equal == rest.len() && bytes.get(equal) == Some(&END_BYTE);
    equal + usize::from(ends)
}

/// A part of a walked string, which ends with the text or one byte behind it.
fn walked_part(text: &[u8], from: usize, to: usize) -> [&[u8]; 2] {
    let in_text = to.min(text.len());
    [&text[from..in_text], &[END_BYTE][..to - in_text]]
}
