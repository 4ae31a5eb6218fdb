//! The second store, over the bytes of a lent frame.
//!
//! Believed here: format, look-up, put, erase and pack of document 01, and info;
//! of document 02 the replacement, the slots that a look-up visits,
//! that whatever frees a body or an extent writes zero over it, and the packing
//! that still takes the old rule, chains of Prefixes, of which a call needs
//! or frees as many as the frame then has more or fewer, and the stamp that a
//! put or a replacement passes, which the Leaf keeps in its last eight bytes and a
//! look-up gives back. The edition says what keys and walked strings are; in
//! edition 1 no chain is longer than one Prefix, because no shared beginning is
//! longer than 112 bytes, and every stamp is 0.
//! Clear before fast: every call checks the whole frame, works out all it needs,
//! compares that with the room left, and only then writes.

use crate::check::{check, check_before};
use crate::layout::number::*;
use crate::layout::*;
use crate::value::{get_stamp, set_stamp, Given, Value};
use std::collections::BTreeMap;
use std::ops::Range;

pub type Records = BTreeMap<Vec<u8>, Value<Vec<u8>>>;

pub fn format(edition: Edition, frame: &mut [u8], f: usize, n: usize) -> u32 {
    if !frame_length_allowed(f) || !slot_capacity_allowed(n) || frame.len() != f {
        return LENGTHS;
    }
    let d = data_start(n);
    if d + Kind::EmptyRoot.body_bytes() > f {
        return LENGTHS;
    }
    frame.fill(0);
    set32(frame, AT_EDITION, edition.number());
    set32(frame, AT_F, f);
    set32(frame, AT_N, n);
    set32(frame, AT_D, d);
    set32(frame, AT_B, d);
    let root = take(frame, Kind::EmptyRoot);
    set16(frame, AT_ROOT, root);
    DONE
}

/// What a look-up tells: the number, the place and the length of the value, how
/// many slots were visited after the frame's check, the last one included, and the
/// stamp.
#[derive(Clone, Copy, PartialEq, Eq, Debug)]
pub struct Found {
    pub number: u32,
    pub place: u64,
    pub length: u64,
    pub slots: u64,
    /// Edition 1 does not tell it.
    pub stamp: u64,
}

impl Found {
    pub fn refused(number: u32) -> Found {
        Found { number, place: 0, length: 0, slots: 0, stamp: 0 }
    }

    pub fn absent(slots: u64) -> Found {
        Found { slots, ..Found::refused(ABSENT) }
    }
}

pub fn look_up(edition: Edition, frame: &[u8], key: &[u8]) -> Found {
    if let Err(number) = refusal(edition, frame, key) {
        return Found::refused(number);
    }
    let steps = walk(frame, &edition.walked(key));
    let slots = steps.len() as u64;
    match present(frame, &steps, key) {
        None => Found::absent(slots),
        Some(leaf) => {
            let place = (leaf.extent + leaf.key_length) as u64;
            let (length, stamp) = (leaf.value_length as u64, leaf.stamp);
            Found { number: DONE, place, length, slots, stamp }
        }
    }
}

/// The value as a part of the frame; an empty part at its start otherwise.
pub fn value<'a>(edition: Edition, frame: &'a [u8], key: &[u8]) -> &'a [u8] {
    let Found { place, length, .. } = look_up(edition, frame, key);
    &frame[place as usize..][..length as usize]
}

/// A record whose key is new; a present key is told, and nothing is needed.
pub fn put(edition: Edition, frame: &mut [u8], key: &[u8], value: Given) -> u32 {
    put_or_refuse(edition, frame, key, value).unwrap_or_else(|refused| refused)
}

fn put_or_refuse(edition: Edition, frame: &mut [u8], key: &[u8], value: Given) -> Result<u32, u32> {
    record_refusal(edition, frame, key, value)?;
    let string = edition.walked(key);
    let steps = walk(frame, &string);
    if present(frame, &steps, key).is_some() {
        return Ok(PRESENT);
    }
    let end = last(&steps);
    let record = NewRecord { key, value, rest: &string[end.depth..] };
    match end.kind {
        Kind::EmptyRoot => replace_empty_root(frame, end, &record)?,
        Kind::Leaf => split_leaf(edition, frame, end, &record)?,
        Kind::Prefix => cut_prefix(frame, end, &record)?,
        _ => add_to_inner(frame, end, &record)?,
    }
    set32(frame, AT_R, get32(frame, AT_R) + 1);
    Ok(DONE)
}

/// A record whose key is absent, with the walked bytes left at the walk's end.
struct NewRecord<'a> {
    key: &'a [u8],
    value: Given<'a>,
    rest: &'a [u8],
}

impl NewRecord<'_> {
    /// Room for the extent, a Leaf and what is needed besides.
    fn room(&self, frame: &[u8], besides: &[Kind]) -> Result<(), u32> {
        let bodies = [&[Kind::Leaf], besides].concat();
        room(frame, &bodies, extent_bytes(self.key.len(), self.value.bytes.len()))
    }

    /// The same for a Node4 and so many Prefixes.
    fn room_to_part(&self, frame: &[u8], prefixes: usize) -> Result<(), u32> {
        self.room(frame, &[&[Kind::Node4][..], &vec![Kind::Prefix; prefixes]].concat())
    }

    fn add_leaf(&self, frame: &mut [u8]) -> usize {
        add_leaf(frame, self.key, self.value)
    }
}

fn replace_empty_root(frame: &mut [u8], end: &Step, record: &NewRecord) -> Result<(), u32> {
    record.room(frame, &[])?;
    let leaf = record.add_leaf(frame);
    set_link(frame, end.link, leaf);
    release(frame, end.slot, Kind::EmptyRoot);
    Ok(())
}

/// A Leaf with another key: a Node4, and as many Prefixes as the bytes that they
/// share take.
fn split_leaf(
    edition: Edition,
    frame: &mut [u8],
    end: &Step,
    record: &NewRecord,
) -> Result<(), u32> {
    let there = leaf_walked(edition, frame, end.slot);
    let there = &there[end.depth..];
    let q = shared(record.rest, there);
    record.room_to_part(frame, prefixes(q))?;
    let leaf = record.add_leaf(frame);
    let node = take(frame, Kind::Node4);
    write_inner(frame, node, &sorted([(there[q], end.slot), (record.rest[q], leaf)]));
    let bodies: Vec<usize> = (0..prefixes(q)).map(|_| take(frame, Kind::Prefix)).collect();
    let top = write_chain(frame, &bodies, &there[..q], node);
    set_link(frame, end.link, top);
    Ok(())
}

/// A Prefix that does not match: a Node4 between the part before and the part
/// after, which has the bytes of the Prefixes below as well. The part before keeps
/// the body that is cut; if there is none, and one body fewer is needed, that one
/// is freed.
fn cut_prefix(frame: &mut [u8], end: &Step, record: &NewRecord) -> Result<(), u32> {
    let Chain { slots, bytes, below } = chain(frame, end.slot);
    let q = shared(record.rest, &bytes);
    let (before, after) = (&bytes[..q], &bytes[q + 1..]);
    let now = prefixes(before.len()) + prefixes(after.len());
    record.room_to_part(frame, now.saturating_sub(slots.len()))?;
    let leaf = record.add_leaf(frame);
    let node = take(frame, Kind::Node4);
    let (freed, stay) = slots.split_at(slots.len().saturating_sub(now));
    let bodies = with_new(frame, stay, now);
    let (upper, lower) = bodies.split_at(prefixes(before.len()));
    let lower = write_chain(frame, lower, after, below);
    write_inner(frame, node, &sorted([(bytes[q], lower), (record.rest[q], leaf)]));
    let top = write_chain(frame, upper, before, node);
    set_link(frame, end.link, top);
    freed.iter().for_each(|slot| release(frame, *slot, Kind::Prefix));
    Ok(())
}

/// An inner node without the byte: it takes the Leaf, or grows if it is full.
fn add_to_inner(frame: &mut [u8], end: &Step, record: &NewRecord) -> Result<(), u32> {
    let byte = record.rest[0];
    let children = children(frame, end.slot);
    if children.len() < end.kind.most_children() {
        record.room(frame, &[])?;
        let leaf = record.add_leaf(frame);
        add_child(frame, end.slot, byte, leaf);
        return Ok(());
    }
    let larger = end.kind.larger().expect("a Node256 is never full without a byte");
    record.room(frame, &[larger])?;
    let leaf = record.add_leaf(frame);
    let grown = take(frame, larger);
    write_inner(frame, grown, &children);
    add_child(frame, grown, byte, leaf);
    set_link(frame, end.link, grown);
    release(frame, end.slot, end.kind);
    Ok(())
}

/// Another value and another stamp for a present key; an absent one is told, and
/// nothing is needed.
pub fn replace(edition: Edition, frame: &mut [u8], key: &[u8], value: Given) -> u32 {
    replace_or_refuse(edition, frame, key, value).unwrap_or_else(|refused| refused)
}

fn replace_or_refuse(
    edition: Edition,
    frame: &mut [u8],
    key: &[u8],
    value: Given,
) -> Result<u32, u32> {
    record_refusal(edition, frame, key, value)?;
    let steps = walk(frame, &edition.walked(key));
    let leaf = present(frame, &steps, key).ok_or(ABSENT)?;
    let (slot, bytes) = (last(&steps).slot, value.bytes);
    if leaf.value_length == bytes.len() {
        frame[leaf.extent + leaf.key_length..][..bytes.len()].copy_from_slice(bytes);
        let body = body_at(frame, slot);
        set_stamp(frame, body + LEAF_STAMP.start, value.stamp);
        return Ok(REPLACED);
    }
    room(frame, &[], extent_bytes(key.len(), bytes.len()))?;
    let new = new_extent(frame, key, value);
    write_leaf(frame, slot, &new);
    retire(frame, &leaf);
    Ok(REPLACED)
}

pub fn erase(edition: Edition, frame: &mut [u8], key: &[u8]) -> u32 {
    erase_or_refuse(edition, frame, key).unwrap_or_else(|refused| refused)
}

fn erase_or_refuse(edition: Edition, frame: &mut [u8], key: &[u8]) -> Result<u32, u32> {
    refusal(edition, frame, key)?;
    let string = edition.walked(key);
    let steps = walk(frame, &string);
    let leaf = present(frame, &steps, key).ok_or(ABSENT)?;
    if get32(frame, AT_R) == 1 {
        let (f, n) = (get32(frame, AT_F), get32(frame, AT_N));
        return Ok(format(edition, frame, f, n));
    }
    let [above @ .., node, leaf_step] = &steps[..] else {
        panic!("a Leaf beside others stands under an inner node");
    };
    let byte = string[leaf_step.depth - 1];
    let left: Vec<(u8, usize)> =
        children(frame, node.slot).into_iter().filter(|child| child.0 != byte).collect();
    if left.len() == 1 {
        collapse(frame, above, node, left[0])?;
    } else if node.kind.shrink_mark() == Some(left.len()) {
        let smaller = node.kind.smaller().expect("a kind with a mark has a smaller one");
        room(frame, &[smaller], 0)?;
        let shrunk = take(frame, smaller);
        write_inner(frame, shrunk, &left);
        set_link(frame, node.link, shrunk);
        release(frame, node.slot, node.kind);
    } else {
        remove_child(frame, node.slot, byte);
    }
    retire(frame, &leaf);
    release(frame, leaf_step.slot, Kind::Leaf);
    set32(frame, AT_R, get32(frame, AT_R) - 1);
    Ok(DONE)
}

/// A Node4 with one child left is freed. If that child is a Leaf, so are the
/// Prefixes just above; else its byte joins the last of them and those below.
fn collapse(
    frame: &mut [u8],
    above: &[Step],
    node: &Step,
    (byte, child): (u8, usize),
) -> Result<(), u32> {
    if slot_kind(frame, child) == Kind::Leaf {
        let chain = above.iter().rev().take_while(|step| step.kind == Kind::Prefix);
        let top = chain.clone().last().unwrap_or(node);
        set_link(frame, top.link, child);
        chain.for_each(|step| release(frame, step.slot, Kind::Prefix));
    } else {
        let upper = above.last().filter(|step| step.kind == Kind::Prefix);
        let lower = chain(frame, child);
        let start = upper.map_or(Vec::new(), |upper| prefix_bytes(frame, upper.slot));
        let bytes = [&start[..], &[byte], &lower.bytes].concat();
        let slots: Vec<usize> =
            upper.map(|upper| upper.slot).into_iter().chain(lower.slots).collect();
        let now = prefixes(bytes.len());
        room(frame, &vec![Kind::Prefix; now.saturating_sub(slots.len())], 0)?;
        let (stay, freed) = slots.split_at(now.min(slots.len()));
        let bodies = with_new(frame, stay, now);
        let top = write_chain(frame, &bodies, &bytes, lower.below);
        set_link(frame, upper.unwrap_or(node).link, top);
        freed.iter().for_each(|slot| release(frame, *slot, Kind::Prefix));
    }
    release(frame, node.slot, Kind::Node4);
    Ok(())
}

pub fn pack(edition: Edition, frame: &[u8], out: &mut [u8]) -> u32 {
    pack_if(check(edition, frame), edition, frame, out)
}

/// For a frame from before Q-3, so of edition 1: the check is by the old rule.
pub fn pack_before(frame: &[u8], out: &mut [u8]) -> u32 {
    pack_if(check_before(Edition::One, frame), Edition::One, frame, out)
}

fn pack_if(checked: u32, edition: Edition, frame: &[u8], out: &mut [u8]) -> u32 {
    if checked != DONE {
        return checked;
    }
    if out.len() != frame.len() {
        return OUTPUT_LENGTH;
    }
    let (f, n) = (get32(frame, AT_F), get32(frame, AT_N));
    assert_eq!(format(edition, out, f, n), DONE, "a good frame's F and N can be formatted");
    let records = get32(frame, AT_R);
    if records > 0 {
        // Slot 1 and the bytes at D are given out anew, as format gave them.
        out[data_start(n)..].fill(0);
        set32(out, AT_U, 0);
        set32(out, AT_B, data_start(n));
        let root = pack_slot(frame, get16(frame, AT_ROOT), out);
        set16(out, AT_ROOT, root);
        set32(out, AT_R, records);
    }
    DONE
}

/// The number, and F, N, U, B, R, X and the lengths of the lists 1 to 8; all 0
/// of a refusal.
pub fn info(edition: Edition, frame: &[u8]) -> (u32, [u64; INFO_NUMBERS]) {
    let mut told = [0; INFO_NUMBERS];
    let checked = check(edition, frame);
    if checked == DONE {
        let fields = [AT_F, AT_N, AT_U, AT_B, AT_R, AT_X].map(|at| get32(frame, at));
        let lists = (1..=LISTS).map(|kind| list_length(frame, kind));
        for (number, is) in told.iter_mut().zip(fields.into_iter().chain(lists)) {
            *number = is as u64;
        }
    }
    (checked, told)
}

fn list_length(frame: &[u8], kind_number: usize) -> usize {
    let mut slot = get16(frame, list_head_at(kind_number));
    let mut length = 0;
    while slot != 0 {
        slot = get_entry(frame, slot).1;
        length += 1;
    }
    length
}

/// Packs a live slot and all below it, parent first; gives the new slot.
fn pack_slot(frame: &[u8], slot: usize, out: &mut [u8]) -> usize {
    match slot_kind(frame, slot) {
        Kind::EmptyRoot => panic!("a frame with records has no EmptyRoot"),
        Kind::Leaf => {
            let (key, value) = leaf_record(frame, slot);
            add_leaf(out, key, value)
        }
        Kind::Prefix => {
            let packed = take(out, Kind::Prefix);
            let child = pack_slot(frame, prefix_child(frame, slot), out);
            write_prefix(out, packed, &prefix_bytes(frame, slot), child);
            packed
        }
        _ => {
            let children = children(frame, slot);
            let packed = take(out, Kind::smallest_for(children.len()));
            let moved: Vec<(u8, usize)> = children
                .into_iter()
                .map(|(byte, child)| (byte, pack_slot(frame, child, out)))
                .collect();
            write_inner(out, packed, &moved);
            packed
        }
    }
}

/// The record set of a good frame.
pub fn records(frame: &[u8]) -> Records {
    let mut found = Records::new();
    gather(frame, get16(frame, AT_ROOT), &mut found);
    found
}

fn gather(frame: &[u8], slot: usize, found: &mut Records) {
    match slot_kind(frame, slot) {
        Kind::EmptyRoot => {}
        Kind::Leaf => {
            let (key, value) = leaf_record(frame, slot);
            found.insert(key.to_vec(), value.owned());
        }
        Kind::Prefix => gather(frame, prefix_child(frame, slot), found),
        _ => {
            for (_, child) in children(frame, slot) {
                gather(frame, child, found);
            }
        }
    }
}

// Refusals and room.

fn refusal(edition: Edition, frame: &[u8], key: &[u8]) -> Result<(), u32> {
    match check(edition, frame) {
        DONE => edition.key_refusal(key).map_or(Ok(()), Err),
        refused => Err(refused),
    }
}

/// Of a put or a replacement, whether the key is there or not.
fn record_refusal(edition: Edition, frame: &[u8], key: &[u8], value: Given) -> Result<(), u32> {
    refusal(edition, frame, key)?;
    if value.bytes.len() > LONGEST_VALUE {
        return Err(VALUE_LENGTH);
    }
    Ok(())
}

/// Bodies come from their lists as long as these last; an extent always comes
/// from B.
fn room(frame: &[u8], bodies: &[Kind], extent: usize) -> Result<(), u32> {
    let (mut slots, mut bytes) = (0, extent);
    for kind in Kind::ALL {
        let needed = bodies.iter().filter(|body| **body == kind).count();
        let fresh = needed.saturating_sub(list_length(frame, kind.number()));
        slots += fresh;
        bytes += fresh * kind.body_bytes();
    }
    let slots_left = get32(frame, AT_N) - get32(frame, AT_U);
    let bytes_left = get32(frame, AT_F) - get32(frame, AT_B);
    if slots > slots_left || bytes > bytes_left {
        Err(NO_ROOM)
    } else {
        Ok(())
    }
}

// The way a key leads.

/// The field that names a slot.
#[derive(Clone, Copy, Debug)]
pub(crate) enum Link {
    Root,
    /// The place in the frame of a child field.
    Child(usize),
}

/// A slot on the way, with the number of walked bytes that lead to it.
#[derive(Clone, Copy, Debug)]
pub(crate) struct Step {
    pub link: Link,
    pub slot: usize,
    pub kind: Kind,
    pub depth: usize,
}

/// From the root as far as the walked string leads. The last step is a Leaf,
/// an EmptyRoot, a Prefix that does not match or an inner node without the byte.
pub(crate) fn walk(frame: &[u8], string: &[u8]) -> Vec<Step> {
    let mut steps = Vec::new();
    let (mut link, mut depth) = (Link::Root, 0);
    loop {
        let slot = linked(frame, link);
        let kind = slot_kind(frame, slot);
        steps.push(Step { link, slot, kind, depth });
        let next = match kind {
            Kind::EmptyRoot | Kind::Leaf => None,
            Kind::Prefix => {
                let bytes = prefix_bytes(frame, slot);
                let matched = string[depth..].starts_with(&bytes);
                matched.then(|| (Link::Child(body_at(frame, slot) + PREFIX_CHILD), bytes.len()))
            }
            _ => child_field(frame, slot, string[depth]).map(|at| (Link::Child(at), 1)),
        };
        match next {
            None => return steps,
            Some((field, bytes)) => {
                link = field;
                depth += bytes;
            }
        }
    }
}

fn last(steps: &[Step]) -> &Step {
    steps.last().expect("a walk has at least the root")
}

/// The Leaf at the end of the walk, if it holds this very key.
fn present(frame: &[u8], steps: &[Step], key: &[u8]) -> Option<LeafFields> {
    let end = last(steps);
    if end.kind != Kind::Leaf {
        return None;
    }
    let leaf = leaf_fields(frame, end.slot);
    (&frame[leaf.extent..][..leaf.key_length] == key).then_some(leaf)
}

pub(crate) fn linked(frame: &[u8], link: Link) -> usize {
    match link {
        Link::Root => get16(frame, AT_ROOT),
        Link::Child(at) => get32(frame, at),
    }
}

pub(crate) fn set_link(frame: &mut [u8], link: Link, slot: usize) {
    match link {
        Link::Root => set16(frame, AT_ROOT, slot),
        Link::Child(at) => set32(frame, at, slot),
    }
}

// Slots and lists.

pub(crate) fn body_at(frame: &[u8], slot: usize) -> usize {
    get_entry(frame, slot).0
}

/// Only for a slot that is known to be live.
pub(crate) fn slot_kind(frame: &[u8], slot: usize) -> Kind {
    Kind::of_number(get_entry(frame, slot).1).expect("a live slot of a good frame has a kind")
}

/// A body from its list, or slot U + 1 and bytes at B. The body's bytes are
/// left for the writer.
pub(crate) fn take(frame: &mut [u8], kind: Kind) -> usize {
    let head_at = list_head_at(kind.number());
    let head = get16(frame, head_at);
    if head != 0 {
        let (offset, next) = get_entry(frame, head);
        set16(frame, head_at, next);
        set_entry(frame, head, offset, kind.number());
        return head;
    }
    let slot = get32(frame, AT_U) + 1;
    let offset = get32(frame, AT_B);
    set32(frame, AT_U, slot);
    set32(frame, AT_B, offset + kind.body_bytes());
    set_entry(frame, slot, offset, kind.number());
    slot
}

pub(crate) fn release(frame: &mut [u8], slot: usize, kind: Kind) {
    let offset = clear_body(frame, slot, kind);
    let head_at = list_head_at(kind.number());
    let next = get16(frame, head_at);
    set_entry(frame, slot, offset, next);
    set16(frame, head_at, slot);
}

// Leaves and extents.

pub(crate) struct LeafFields {
    pub extent: usize,
    pub key_length: usize,
    pub value_length: usize,
    /// What edition 1 keeps zero.
    pub stamp: u64,
}

impl LeafFields {
    /// The whole extent, with its padding.
    pub fn bytes(&self) -> Range<usize> {
        self.extent..self.extent + extent_bytes(self.key_length, self.value_length)
    }
}

pub(crate) fn leaf_fields(frame: &[u8], slot: usize) -> LeafFields {
    let body = body_at(frame, slot);
    LeafFields {
        extent: get32(frame, body + LEAF_EXTENT),
        key_length: get16(frame, body + LEAF_KEY_LENGTH),
        value_length: get16(frame, body + LEAF_VALUE_LENGTH),
        stamp: get_stamp(frame, body + LEAF_STAMP.start),
    }
}

/// Key and value of a live Leaf.
pub(crate) fn leaf_record(frame: &[u8], slot: usize) -> (&[u8], Given<'_>) {
    let leaf = leaf_fields(frame, slot);
    let extent = &frame[leaf.extent..][..leaf.key_length + leaf.value_length];
    let (key, bytes) = extent.split_at(leaf.key_length);
    (key, Value { bytes, stamp: leaf.stamp })
}

pub(crate) fn leaf_walked(edition: Edition, frame: &[u8], slot: usize) -> Vec<u8> {
    let leaf = leaf_fields(frame, slot);
    edition.walked(&frame[leaf.extent..][..leaf.key_length])
}

/// A new Leaf with a new extent.
pub(crate) fn add_leaf(frame: &mut [u8], key: &[u8], value: Given) -> usize {
    let leaf = take(frame, Kind::Leaf);
    let fields = new_extent(frame, key, value);
    write_leaf(frame, leaf, &fields);
    leaf
}

/// A new extent, and the fields of the Leaf that names it.
pub(crate) fn new_extent(frame: &mut [u8], key: &[u8], value: Given) -> LeafFields {
    let Value { bytes, stamp } = value;
    let extent = write_extent(frame, key, bytes);
    LeafFields { extent, key_length: key.len(), value_length: bytes.len(), stamp }
}

/// A new extent at B, its padding zero; gives its place.
fn write_extent(frame: &mut [u8], key: &[u8], value: &[u8]) -> usize {
    let at = get32(frame, AT_B);
    let size = extent_bytes(key.len(), value.len());
    let extent = &mut frame[at..at + size];
    extent.fill(0);
    extent[..key.len()].copy_from_slice(key);
    extent[key.len()..key.len() + value.len()].copy_from_slice(value);
    set32(frame, AT_B, at + size);
    at
}

pub(crate) fn write_leaf(frame: &mut [u8], slot: usize, leaf: &LeafFields) {
    let body = clear_body(frame, slot, Kind::Leaf);
    set32(frame, body + LEAF_EXTENT, leaf.extent);
    set16(frame, body + LEAF_KEY_LENGTH, leaf.key_length);
    set16(frame, body + LEAF_VALUE_LENGTH, leaf.value_length);
    set_stamp(frame, body + LEAF_STAMP.start, leaf.stamp);
}

pub(crate) fn retire(frame: &mut [u8], leaf: &LeafFields) {
    let dead = leaf.bytes();
    set32(frame, AT_X, get32(frame, AT_X) + dead.len());
    frame[dead].fill(0);
}

fn clear_body(frame: &mut [u8], slot: usize, kind: Kind) -> usize {
    let body = body_at(frame, slot);
    frame[body..body + kind.body_bytes()].fill(0);
    body
}

// Prefixes, and chains of them.

pub(crate) fn prefix_bytes(frame: &[u8], slot: usize) -> Vec<u8> {
    let body = body_at(frame, slot);
    let length = get16(frame, body + PREFIX_LENGTH);
    frame[body + PREFIX_BYTES.start..][..length].to_vec()
}

pub(crate) fn prefix_child(frame: &[u8], slot: usize) -> usize {
    get32(frame, body_at(frame, slot) + PREFIX_CHILD)
}

pub(crate) fn write_prefix(frame: &mut [u8], slot: usize, bytes: &[u8], child: usize) {
    assert!((1..=LONGEST_PREFIX).contains(&bytes.len()), "a Prefix has 1 to 112 bytes");
    let body = clear_body(frame, slot, Kind::Prefix);
    set32(frame, body + PREFIX_CHILD, child);
    set16(frame, body + PREFIX_LENGTH, bytes.len());
    frame[body + PREFIX_BYTES.start..][..bytes.len()].copy_from_slice(bytes);
}

/// The Prefixes from a slot down, with all their bytes and the slot below them.
pub(crate) struct Chain {
    pub slots: Vec<usize>,
    pub bytes: Vec<u8>,
    pub below: usize,
}

/// None and no byte, if the slot is no Prefix.
pub(crate) fn chain(frame: &[u8], slot: usize) -> Chain {
    let (mut slots, mut bytes, mut below) = (Vec::new(), Vec::new(), slot);
    while slot_kind(frame, below) == Kind::Prefix {
        slots.push(below);
        bytes.extend(prefix_bytes(frame, below));
        below = prefix_child(frame, below);
    }
    Chain { slots, bytes, below }
}

/// So many bodies of a chain: these, and new ones behind them.
fn with_new(frame: &mut [u8], stay: &[usize], now: usize) -> Vec<usize> {
    let mut slots = stay.to_vec();
    slots.extend((stay.len()..now).map(|_| take(frame, Kind::Prefix)));
    slots
}

/// Writes a shared beginning into these bodies, each full but the last; gives the
/// slot of the first, or the one below if there is no byte.
pub(crate) fn write_chain(frame: &mut [u8], slots: &[usize], bytes: &[u8], below: usize) -> usize {
    assert_eq!(slots.len(), prefixes(bytes.len()), "as many bodies as the bytes take");
    slots.iter().zip(bytes.chunks(LONGEST_PREFIX)).rev().fold(below, |below, (slot, piece)| {
        write_prefix(frame, *slot, piece, below);
        *slot
    })
}

// Inner nodes.

fn sorted(mut pair: [(u8, usize); 2]) -> [(u8, usize); 2] {
    pair.sort();
    pair
}

/// The place in the frame of the field that names the child at this byte.
fn child_field(frame: &[u8], slot: usize, byte: u8) -> Option<usize> {
    let (body, kind) = (body_at(frame, slot), slot_kind(frame, slot));
    let index = match kind {
        Kind::Node256 => {
            let index = usize::from(byte);
            (get32(frame, body + kind.child_at(index)) != 0).then_some(index)
        }
        Kind::Node48 => {
            let place = frame[body + NODE48_INDEX + usize::from(byte)];
            (place != 0).then(|| usize::from(place) - 1)
        }
        _ => {
            let count = get16(frame, body + INNER_COUNT);
            let start = kind.branch_bytes().expect("a Node4 or a Node16").start;
            frame[body + start..][..count].iter().position(|there| *there == byte)
        }
    };
    index.map(|index| body + kind.child_at(index))
}

/// Bytes and child slots of an inner node, in byte order.
pub(crate) fn children(frame: &[u8], slot: usize) -> Vec<(u8, usize)> {
    let (body, kind) = (body_at(frame, slot), slot_kind(frame, slot));
    let bytes = match kind.branch_bytes() {
        None => (0..=u8::MAX).collect(),
        Some(field) => {
            let count = get16(frame, body + INNER_COUNT);
            frame[body + field.start..][..count].to_vec()
        }
    };
    let child = |byte| child_field(frame, slot, byte).map(|at| (byte, get32(frame, at)));
    bytes.into_iter().filter_map(child).collect()
}

/// Writes the whole body anew; `children` are in byte order, and in a Node48
/// they take places 1, 2 and so on.
pub(crate) fn write_inner(frame: &mut [u8], slot: usize, children: &[(u8, usize)]) {
    let kind = slot_kind(frame, slot);
    let body = clear_body(frame, slot, kind);
    set16(frame, body + INNER_COUNT, children.len());
    for (index, (byte, child)) in children.iter().enumerate() {
        let at_byte = usize::from(*byte);
        match kind {
            Kind::Node256 => set32(frame, body + kind.child_at(at_byte), *child),
            Kind::Node48 => {
                frame[body + NODE48_INDEX + at_byte] = place_number(index);
                set32(frame, body + kind.child_at(index), *child);
            }
            _ => {
                let start = kind.branch_bytes().expect("a Node4 or a Node16").start;
                frame[body + start + index] = *byte;
                set32(frame, body + kind.child_at(index), *child);
            }
        }
    }
}

fn place_number(index: usize) -> u8 {
    u8::try_from(index + 1).expect("a place from 1 to 48")
}

/// Adds a child to a node that is not full.
fn add_child(frame: &mut [u8], slot: usize, byte: u8, child: usize) {
    let (body, kind) = (body_at(frame, slot), slot_kind(frame, slot));
    let mut all = children(frame, slot);
    match kind {
        Kind::Node48 => {
            let lowest_empty = (0..kind.most_children())
                .find(|index| get32(frame, body + kind.child_at(*index)) == 0)
                .expect("a Node48 that is not full has an empty place");
            frame[body + NODE48_INDEX + usize::from(byte)] = place_number(lowest_empty);
            set32(frame, body + kind.child_at(lowest_empty), child);
            set16(frame, body + INNER_COUNT, all.len() + 1);
        }
        _ => {
            all.push((byte, child));
            all.sort();
            write_inner(frame, slot, &all);
        }
    }
}

/// Takes a child away; what stays in a Node48 keeps its place.
pub(crate) fn remove_child(frame: &mut [u8], slot: usize, byte: u8) {
    let (body, kind) = (body_at(frame, slot), slot_kind(frame, slot));
    let mut left = children(frame, slot);
    left.retain(|child| child.0 != byte);
    match kind {
        Kind::Node48 => {
            let field = child_field(frame, slot, byte).expect("the child to take away is there");
            set32(frame, field, 0);
            frame[body + NODE48_INDEX + usize::from(byte)] = 0;
            set16(frame, body + INNER_COUNT, left.len());
        }
        _ => write_inner(frame, slot, &left),
    }
}
