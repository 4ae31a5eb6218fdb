//! The exact check, as a list of named rules.
//!
//! Believed here: the section "A good frame" and the first two refusals of
//! document 01; Q-3 of document 02: in a good frame freed bodies, dead
//! extents and bytes from B on are zero; Q-7: the keys of edition 2, and its
//! chains of Prefixes, each full but the last; and Q-8: what edition 2 has in a
//! Leaf's last eight bytes, which are zero in edition 1, is a stamp. `read` looks at
//! a whole frame as one of an edition and collects every rule it breaks, each with
//! the first place where it does; a frame is good exactly if it breaks none, and was
//! good before Q-3 exactly if it breaks none but those of Q-3. It never looks at
//! padding.

use crate::layout::*;
use std::collections::BTreeMap;
use std::ops::Range;

/// One sentence of "A good frame" each; the last three are of Q-3.
#[derive(Clone, Copy, PartialEq, Eq, PartialOrd, Ord, Debug)]
pub enum Rule {
    /// The edition is the one that the frame is read as.
    Edition,
    /// N is even, from 8 to 10,240.
    SlotCapacity,
    /// The stored D is 64 + 4N.
    DataStart,
    /// D + 8 is at most F.
    DataFits,
    /// B is a multiple of 8 from D + 8 to F.
    FirstByteNeverGiven,
    /// U is from 1 to N.
    SlotsGiven,
    /// The last fourteen bytes of the header are zero.
    HeaderZero,
    /// Entries above U are zero.
    EntriesAboveU,
    /// List 3 is empty.
    ListThree,
    /// A list names only slots 1 to U.
    ListedSlot,
    /// No slot stands on lists twice.
    ListedOnce,
    /// No slot is both reached and listed.
    LiveOrListed,
    /// The root is a slot from 1 to U.
    RootSlot,
    /// A used child is a slot from 1 to U.
    ChildSlot,
    /// No slot is reached twice.
    ReachedOnce,
    /// Every slot 1 to U is reached or listed.
    NoneLost,
    /// A live slot is of one of the seven kinds.
    LiveKind,
    /// Bodies lie between D and B.
    BodyPlace,
    /// Live extents lie between D and B.
    ExtentPlace,
    /// Live extents stand at multiples of 8.
    ExtentMultiple,
    /// No two of them overlap.
    Overlap,
    /// B - D equals all their sizes plus X.
    Sum,
    /// An inner node has as many children as its kind allows.
    ChildrenAllowed,
    /// The count says how many children are in use.
    Count,
    /// The bytes of a Node4 or Node16 strictly ascend.
    BytesAscend,
    /// A Node48 index entry is 0 or a place from 1 to 48.
    IndexPlace,
    /// No two index entries name one place.
    IndexDistinct,
    /// The zero field of a live body is zero; a Leaf of edition 2 has none.
    ZeroField,
    /// Unused bytes of a live body are zero.
    UnusedBytes,
    /// Unused children of a live body are zero.
    UnusedChildren,
    /// A Prefix has 1 to 112 bytes.
    PrefixLength,
    /// The child of a Prefix is of kind 4 to 7; in edition 2 that of a full one
    /// may be a Prefix.
    PrefixChild,
    /// A Leaf's key has 1 to 112 bytes, in edition 2 1 to 255.
    KeyLength,
    /// A Leaf's key holds no byte 0, in edition 1.
    KeyZero,
    /// A Leaf's walked string begins with the path that leads to it.
    Path,
    /// EmptyRoot stands only at the root.
    EmptyRootPlace,
    /// R is 0 exactly with an EmptyRoot; otherwise it counts the Leaves.
    Records,
    /// Freed bodies are zero.
    FreedBody,
    /// Dead extents are zero.
    DeadExtent,
    /// Bytes from B on are zero.
    NeverGiven,
}

impl Rule {
    pub const ALL: [Rule; 40] = [
        Rule::Edition,
        Rule::SlotCapacity,
        Rule::DataStart,
        Rule::DataFits,
        Rule::FirstByteNeverGiven,
        Rule::SlotsGiven,
        Rule::HeaderZero,
        Rule::EntriesAboveU,
        Rule::ListThree,
        Rule::ListedSlot,
        Rule::ListedOnce,
        Rule::LiveOrListed,
        Rule::RootSlot,
        Rule::ChildSlot,
        Rule::ReachedOnce,
        Rule::NoneLost,
        Rule::LiveKind,
        Rule::BodyPlace,
        Rule::ExtentPlace,
        Rule::ExtentMultiple,
        Rule::Overlap,
        Rule::Sum,
        Rule::ChildrenAllowed,
        Rule::Count,
        Rule::BytesAscend,
        Rule::IndexPlace,
        Rule::IndexDistinct,
        Rule::ZeroField,
        Rule::UnusedBytes,
        Rule::UnusedChildren,
        Rule::PrefixLength,
        Rule::PrefixChild,
        Rule::KeyLength,
        Rule::KeyZero,
        Rule::Path,
        Rule::EmptyRootPlace,
        Rule::Records,
        Rule::FreedBody,
        Rule::DeadExtent,
        Rule::NeverGiven,
    ];

    /// What is freed, and what was never given out, is zero: the rules of Q-3.
    pub const WIPED: [Rule; 3] = [Rule::FreedBody, Rule::DeadExtent, Rule::NeverGiven];

    /// Those that a frame of this edition can break.
    pub fn of(edition: Edition) -> impl Iterator<Item = Rule> {
        let stands = move |rule: &Rule| edition == Edition::One || *rule != Rule::KeyZero;
        Rule::ALL.into_iter().filter(stands)
    }
}

/// Where a rule is broken.
#[derive(Clone, PartialEq, Eq, Debug)]
pub struct Place {
    /// The slot that the rule is about, where it is about one.
    pub slot: Option<usize>,
    /// The field, body or extent.
    pub bytes: Range<usize>,
    /// The slot that has the same bytes, where two overlap.
    pub other: Option<usize>,
}

impl Place {
    fn header(at: usize, width: usize) -> Place {
        Place { slot: None, bytes: at..at + width, other: None }
    }

    fn of(slot: usize, bytes: Range<usize>) -> Place {
        Place { slot: Some(slot), bytes, other: None }
    }

    fn entry(slot: usize) -> Place {
        Place::of(slot, entry_at(slot)..entry_at(slot) + ENTRY_BYTES)
    }

    /// A field of two or of four bytes in a slot's body.
    fn field16(slot: usize, at: usize) -> Place {
        Place::of(slot, at..at + 2)
    }

    fn field32(slot: usize, at: usize) -> Place {
        Place::of(slot, at..at + 4)
    }
}

/// What a frame holds, slot by slot.
#[derive(Default)]
pub struct Reading {
    /// Every rule that the frame breaks, and where it does first.
    pub broken: BTreeMap<Rule, Place>,
    pub live: BTreeMap<usize, Kind>,
    /// The slots of each list in its order, by kind number; 0 and 3 stay empty.
    pub lists: [Vec<usize>; LISTS + 1],
    /// The rounded extent of each live Leaf.
    pub extents: BTreeMap<usize, Range<usize>>,
}

impl Reading {
    /// By all rules.
    pub fn good(&self) -> bool {
        self.broken.is_empty()
    }

    /// By the rules before Q-3.
    pub fn good_before(&self) -> bool {
        self.broken.keys().all(|rule| Rule::WIPED.contains(rule))
    }
}

/// 0, 1 or 2.
pub fn check(edition: Edition, frame: &[u8]) -> u32 {
    verdict(edition, frame, Reading::good)
}

/// The same by the rules before Q-3.
pub fn check_before(edition: Edition, frame: &[u8]) -> u32 {
    verdict(edition, frame, Reading::good_before)
}

fn verdict(edition: Edition, frame: &[u8], good: fn(&Reading) -> bool) -> u32 {
    match read(edition, frame) {
        None => number::LENGTHS,
        Some(reading) if good(&reading) => number::DONE,
        Some(_) => number::NOT_GOOD,
    }
}

/// None if the slice's length is against F's limits or the stored F.
pub fn read(edition: Edition, frame: &[u8]) -> Option<Reading> {
    if !frame_length_allowed(frame.len()) || get32(frame, AT_F) != frame.len() {
        return None;
    }
    let mut reader = Reader {
        edition,
        frame,
        data: 0..0,
        slots_given: 0,
        taken: vec![NOBODY; frame.len() / UNIT],
        listed: Vec::new(),
        sizes: 0,
        reading: Reading::default(),
    };
    reader.whole_frame();
    Some(reader.reading)
}

/// No slot has this number.
const NOBODY: u16 = 0;

struct Reader<'a> {
    edition: Edition,
    frame: &'a [u8],
    /// From D to B.
    data: Range<usize>,
    /// U.
    slots_given: usize,
    /// Which slot's body or extent has a unit of the frame; of several the last
    /// one that was met, so a live one before a freed one.
    taken: Vec<u16>,
    /// Which slots stand on a list, by slot number.
    listed: Vec<bool>,
    /// The sizes of all bodies and live extents.
    sizes: usize,
    reading: Reading,
}

impl Reader<'_> {
    fn demand(&mut self, rule: Rule, kept: bool, place: Place) -> bool {
        if !kept {
            self.reading.broken.entry(rule).or_insert(place);
        }
        kept
    }

    /// All of these bytes are zero; the place is the first that is not.
    fn demand_zero(&mut self, rule: Rule, slot: Option<usize>, range: Range<usize>) {
        if let Some(at) = self.frame[range.clone()].iter().position(|byte| *byte != 0) {
            let at = range.start + at;
            self.demand(rule, false, Place { slot, bytes: at..at + 1, other: None });
        }
    }

    fn whole_frame(&mut self) {
        if !self.header() {
            return;
        }
        for kind in Kind::ALL {
            self.list(kind);
        }
        let root = get16(self.frame, AT_ROOT);
        let root_field = Place::header(AT_ROOT, 2);
        if self.demand(Rule::RootSlot, (1..=self.slots_given).contains(&root), root_field) {
            self.slot(root, AT_ROOT..AT_ROOT + 2, &mut Vec::new(), true);
        }
        for slot in 1..=self.slots_given {
            let found = self.listed[slot] || self.reading.live.contains_key(&slot);
            self.demand(Rule::NoneLost, found, Place::entry(slot));
        }
        let leaves = self.reading.live.values().filter(|kind| **kind == Kind::Leaf).count();
        let told = get32(self.frame, AT_R) == leaves;
        self.demand(Rule::Records, told, Place::header(AT_R, 4));
        let dead = get32(self.frame, AT_X);
        let sum_kept = self.data.len() == self.sizes + dead;
        self.demand(Rule::Sum, sum_kept, Place::header(AT_X, 4));
        self.wiped();
    }

    /// What nothing live has is zero, from D to the frame's end.
    fn wiped(&mut self) {
        for at in self.data.clone().step_by(UNIT) {
            let unit = at..at + UNIT;
            let slot = usize::from(self.taken[at / UNIT]);
            if slot == usize::from(NOBODY) {
                self.demand_zero(Rule::DeadExtent, None, unit);
            } else if self.listed[slot] && !self.reading.live.contains_key(&slot) {
                self.demand_zero(Rule::FreedBody, Some(slot), unit);
            }
        }
        self.demand_zero(Rule::NeverGiven, None, self.data.end..self.frame.len());
    }

    /// False if the rest of the frame cannot be read by it.
    fn header(&mut self) -> bool {
        let frame = self.frame;
        let edition_kept = get32(frame, AT_EDITION) == self.edition.number();
        self.demand(Rule::Edition, edition_kept, Place::header(AT_EDITION, 4));
        let n = get32(frame, AT_N);
        if !self.demand(Rule::SlotCapacity, slot_capacity_allowed(n), Place::header(AT_N, 4)) {
            return false;
        }
        let d = data_start(n);
        self.demand(Rule::DataStart, get32(frame, AT_D) == d, Place::header(AT_D, 4));
        let least_b = d + Kind::EmptyRoot.body_bytes();
        if !self.demand(Rule::DataFits, least_b <= frame.len(), Place::header(AT_N, 4)) {
            return false;
        }
        let b = get32(frame, AT_B);
        let b_in_place = b.is_multiple_of(UNIT) && (least_b..=frame.len()).contains(&b);
        let u = get32(frame, AT_U);
        let b_kept = self.demand(Rule::FirstByteNeverGiven, b_in_place, Place::header(AT_B, 4));
        let u_kept = self.demand(Rule::SlotsGiven, (1..=n).contains(&u), Place::header(AT_U, 4));
        if !b_kept || !u_kept {
            return false;
        }
        self.data = d..b;
        self.slots_given = u;
        self.listed = vec![false; u + 1];
        self.demand_zero(Rule::HeaderZero, None, HEADER_ZERO);
        self.demand_zero(Rule::EntriesAboveU, None, entry_at(u + 1)..d);
        let head_three = list_head_at(LEFT_OUT_KIND);
        let three_empty = get16(frame, head_three) == 0;
        self.demand(Rule::ListThree, three_empty, Place::header(head_three, LIST_HEAD_BYTES));
        true
    }

    fn list(&mut self, kind: Kind) {
        let head_at = list_head_at(kind.number());
        let mut link = Place::header(head_at, LIST_HEAD_BYTES);
        let mut next = get16(self.frame, head_at);
        while next != 0 {
            if !self.demand(Rule::ListedSlot, next <= self.slots_given, link.clone()) {
                return;
            }
            if !self.demand(
                Rule::ListedOnce,
                !self.listed[next],
                Place { slot: Some(next), ..link },
            ) {
                return;
            }
            self.listed[next] = true;
            self.reading.lists[kind.number()].push(next);
            let (offset, after) = get_entry(self.frame, next);
            self.claim(next, offset..offset + kind.body_bytes(), Rule::BodyPlace);
            link = Place::entry(next);
            next = after;
        }
    }

    fn inside(&self, part: &Range<usize>) -> bool {
        self.data.start <= part.start && part.end <= self.data.end
    }

    /// Takes the part for a slot's body or extent; false if it lies outside.
    fn claim(&mut self, slot: usize, part: Range<usize>, place_rule: Rule) -> bool {
        self.sizes += part.len();
        if !self.demand(place_rule, self.inside(&part), Place::of(slot, part.clone())) {
            return false;
        }
        let taker = u16::try_from(slot).expect("a slot of a frame");
        for unit in part.start / UNIT..part.end.div_ceil(UNIT) {
            let before = self.taken[unit];
            if before != NOBODY {
                let other = Some(usize::from(before));
                let bytes = unit * UNIT..(unit + 1) * UNIT;
                self.demand(Rule::Overlap, false, Place { slot: Some(slot), bytes, other });
            }
            self.taken[unit] = taker;
        }
        true
    }

    /// Reads a live slot and all below it; `path` leads to it, and the field
    /// `named` names it.
    fn slot(&mut self, slot: usize, named: Range<usize>, path: &mut Vec<u8>, at_root: bool) {
        let first = !self.reading.live.contains_key(&slot);
        if !self.demand(Rule::ReachedOnce, first, Place::of(slot, named)) {
            return;
        }
        // No legal walked string is longer, so no Leaf below could keep its rule.
        if !self.demand(Rule::Path, path.len() <= self.edition.longest_walked(), Place::entry(slot))
        {
            return;
        }
        let (offset, high) = get_entry(self.frame, slot);
        let kind = Kind::of_number(high);
        self.demand(Rule::LiveKind, kind.is_some(), Place::entry(slot));
        let Some(kind) = kind else {
            return;
        };
        let listed = self.listed[slot];
        self.demand(Rule::LiveOrListed, !listed, Place::entry(slot));
        self.reading.live.insert(slot, kind);
        let body = offset..offset + kind.body_bytes();
        // The list has claimed the body of a slot that is listed as well.
        let readable =
            if listed { self.inside(&body) } else { self.claim(slot, body, Rule::BodyPlace) };
        if !readable {
            return;
        }
        if let Some(zero) = kind.zero_field(self.edition) {
            let zero = offset + zero.start..offset + zero.end;
            self.demand_zero(Rule::ZeroField, Some(slot), zero);
        }
        match kind {
            Kind::EmptyRoot => {
                self.demand(Rule::EmptyRootPlace, at_root, Place::entry(slot));
            }
            Kind::Leaf => self.leaf(slot, offset, path),
            Kind::Prefix => self.prefix(slot, offset, path),
            _ => self.inner(slot, kind, offset, path),
        }
    }

    fn leaf(&mut self, slot: usize, body: usize, path: &[u8]) {
        let extent = get32(self.frame, body + LEAF_EXTENT);
        let key_length = get16(self.frame, body + LEAF_KEY_LENGTH);
        let value_length = get16(self.frame, body + LEAF_VALUE_LENGTH);
        let length_field = Place::field16(slot, body + LEAF_KEY_LENGTH);
        let length_legal = (1..=self.edition.longest_key()).contains(&key_length);
        let key_kept = self.demand(Rule::KeyLength, length_legal, length_field);
        let extent_field = Place::field32(slot, body + LEAF_EXTENT);
        self.demand(Rule::ExtentMultiple, extent.is_multiple_of(UNIT), extent_field);
        let part = extent..extent + extent_bytes(key_length, value_length);
        self.reading.extents.insert(slot, part.clone());
        if !self.claim(slot, part, Rule::ExtentPlace) || !key_kept {
            return;
        }
        let key_bytes = extent..extent + key_length;
        let key = &self.frame[key_bytes.clone()];
        let zero_legal = self.edition == Edition::Two || !key.contains(&0);
        self.demand(Rule::KeyZero, zero_legal, Place::of(slot, key_bytes.clone()));
        let on_its_path = self.edition.walked(key).starts_with(path);
        self.demand(Rule::Path, on_its_path, Place::of(slot, key_bytes));
    }

    fn prefix(&mut self, slot: usize, body: usize, path: &mut Vec<u8>) {
        let length = get16(self.frame, body + PREFIX_LENGTH);
        let length_field = Place::field16(slot, body + PREFIX_LENGTH);
        self.demand(Rule::PrefixLength, (1..=LONGEST_PREFIX).contains(&length), length_field);
        if length > LONGEST_PREFIX {
            return;
        }
        let bytes = body + PREFIX_BYTES.start..body + PREFIX_BYTES.start + length;
        self.demand_zero(Rule::UnusedBytes, Some(slot), bytes.end..body + PREFIX_BYTES.end);
        let child_field = body + PREFIX_CHILD;
        let Some(child) = self.child(slot, child_field) else {
            return;
        };
        let (_, high) = get_entry(self.frame, child);
        let kind = Kind::of_number(high);
        let over_inner = kind.is_some_and(Kind::is_inner);
        let in_chain =
            self.edition == Edition::Two && length == LONGEST_PREFIX && kind == Some(Kind::Prefix);
        let child_place = Place::field32(slot, child_field);
        self.demand(Rule::PrefixChild, over_inner || in_chain, child_place);
        // Only what lengthens the path is followed, so that every way ends.
        if over_inner || length > 0 {
            let depth = path.len();
            path.extend_from_slice(&self.frame[bytes]);
            self.slot(child, child_field..child_field + CHILD_BYTES, path, false);
            path.truncate(depth);
        }
    }

    fn inner(&mut self, slot: usize, kind: Kind, body: usize, path: &mut Vec<u8>) {
        let count = get16(self.frame, body + INNER_COUNT);
        let count_field = Place::field16(slot, body + INNER_COUNT);
        let readable = count <= kind.most_children();
        if !self.demand(Rule::ChildrenAllowed, readable, count_field.clone()) {
            return;
        }
        let children = match kind {
            Kind::Node48 => self.children_by_index(slot, kind, body),
            Kind::Node256 => self.children_by_byte(kind, body),
            _ => self.children_in_a_row(slot, kind, body, count),
        };
        self.demand(Rule::Count, children.len() == count, count_field.clone());
        let allowed = kind.children_allowed().contains(&children.len());
        self.demand(Rule::ChildrenAllowed, allowed, count_field);
        for (byte, field) in children {
            if let Some(child) = self.child(slot, field) {
                path.push(byte);
                self.slot(child, field..field + CHILD_BYTES, path, false);
                path.pop();
            }
        }
    }

    /// The slot that a child field names, if it is one.
    fn child(&mut self, slot: usize, field: usize) -> Option<usize> {
        let child = get32(self.frame, field);
        let given = (1..=self.slots_given).contains(&child);
        self.demand(Rule::ChildSlot, given, Place::field32(slot, field)).then_some(child)
    }

    // The bytes of the children in use, each with the place of its child field.

    /// Node4 and Node16: the first places, as many as the count.
    fn children_in_a_row(
        &mut self,
        slot: usize,
        kind: Kind,
        body: usize,
        count: usize,
    ) -> Vec<(u8, usize)> {
        let field = kind.branch_bytes().expect("only of Node4 and Node16");
        let bytes = body + field.start..body + field.end;
        for at in bytes.start + 1..bytes.start + count.max(1) {
            let ascends = self.frame[at - 1] < self.frame[at];
            self.demand(Rule::BytesAscend, ascends, Place::of(slot, at..at + 1));
        }
        self.demand_zero(Rule::UnusedBytes, Some(slot), bytes.start + count..bytes.end);
        let unused = body + kind.child_at(count)..body + kind.body_bytes();
        self.demand_zero(Rule::UnusedChildren, Some(slot), unused);
        (0..count)
            .map(|place| (self.frame[bytes.start + place], body + kind.child_at(place)))
            .collect()
    }

    fn children_by_index(&mut self, slot: usize, kind: Kind, body: usize) -> Vec<(u8, usize)> {
        let mut named = vec![false; kind.most_children()];
        let mut children = Vec::new();
        for byte in 0..=u8::MAX {
            let at = body + NODE48_INDEX + usize::from(byte);
            let place = usize::from(self.frame[at]);
            if place == 0 {
                continue;
            }
            let entry = Place::of(slot, at..at + 1);
            if !self.demand(Rule::IndexPlace, place <= named.len(), entry.clone()) {
                continue;
            }
            if !self.demand(Rule::IndexDistinct, !named[place - 1], entry) {
                continue;
            }
            named[place - 1] = true;
            children.push((byte, body + kind.child_at(place - 1)));
        }
        for (index, _) in named.iter().enumerate().filter(|(_, named)| !**named) {
            let field = body + kind.child_at(index);
            self.demand_zero(Rule::UnusedChildren, Some(slot), field..field + CHILD_BYTES);
        }
        children
    }

    fn children_by_byte(&mut self, kind: Kind, body: usize) -> Vec<(u8, usize)> {
        (0..=u8::MAX)
            .map(|byte| (byte, body + kind.child_at(usize::from(byte))))
            .filter(|(_, field)| get32(self.frame, *field) != 0)
            .collect()
    }
}
