//! Which bytes a put, a replacement or an erase may change.
//!
//! Believed here: "What each call has to settle". From the frame before, the
//! step names the bodies it rewrites, the slots it frees, the kinds it needs,
//! the child field it relinks, the extent it overwrites or retires, and the stamp
//! that it overwrites, which edition 2 alone has. All other bytes are equal after the call. What stays free is which listed slot
//! is taken, the places of fresh bodies and of the extent between the old B
//! and the new, the links of a list that is touched, and what padding holds.
//! Bytes that are freed change, and are zero after: a rule of the frame says so.
//! Where a shared beginning is cut or joined, docs/FREEDOMS.md has it settled which
//! body has which part: those that were there stand in the order in which they
//! stood, and a new one below them; a cut frees the Prefix that is cut, a join the
//! last one.

use crate::check::Reading;
use crate::layout::*;
use crate::store::{self, Chain, Link, Step};
use crate::value::Given;
use std::collections::BTreeSet;
use std::ops::Range;

/// What one step touches, by the frame before it.
#[derive(Debug, Default)]
pub struct Touched {
    rewritten: Vec<usize>,
    freed: Vec<usize>,
    beginning: Option<Beginning>,
    needed: Vec<Kind>,
    relinked: Option<Link>,
    extents: Vec<Range<usize>>,
    stamp: Option<Range<usize>>,
}

/// A shared beginning that is cut or joined.
#[derive(Debug)]
struct Beginning {
    /// The way to it and through it.
    path: Vec<u8>,
    /// The bytes of it that lead to the first body.
    from: usize,
    /// The bodies that stay, from the first on.
    stay: Vec<usize>,
}

/// For a put that is done: the key is new.
pub fn by_put(edition: Edition, before: &[u8], key: &[u8]) -> Touched {
    let string = edition.walked(key);
    let steps = store::walk(before, &string);
    let Step { link, slot, kind, depth } = steps[steps.len() - 1];
    let rest = &string[depth..];
    match kind {
        Kind::EmptyRoot => Touched {
            freed: vec![slot],
            needed: vec![Kind::Leaf],
            relinked: Some(link),
            ..Touched::default()
        },
        Kind::Leaf => {
            let there = store::leaf_walked(edition, before, slot);
            let needed = parting(prefixes(shared(rest, &there[depth..])));
            Touched { needed, relinked: Some(link), ..Touched::default() }
        }
        Kind::Prefix => {
            let Chain { slots, bytes, .. } = store::chain(before, slot);
            let matched = shared(rest, &bytes);
            let (had, after_part) = (slots.len(), bytes.len() - matched - 1);
            let now = prefixes(matched) + prefixes(after_part);
            let (freed, stay) = slots.split_at(had.saturating_sub(now));
            Touched {
                rewritten: stay.to_vec(),
                freed: freed.to_vec(),
                needed: parting(now.saturating_sub(had)),
                // The part before stays where it hangs.
                relinked: if matched > 0 { None } else { Some(link) },
                beginning: Some(Beginning {
                    path: [&string[..depth], &bytes].concat(),
                    from: depth,
                    stay: stay.to_vec(),
                }),
                ..Touched::default()
            }
        }
        _ if store::children(before, slot).len() < kind.most_children() => {
            Touched { rewritten: vec![slot], needed: vec![Kind::Leaf], ..Touched::default() }
        }
        _ => Touched {
            freed: vec![slot],
            needed: vec![Kind::Leaf, kind.larger().expect("a Node256 has a place for every byte")],
            relinked: Some(link),
            ..Touched::default()
        },
    }
}

/// A Leaf, a Node4 and so many Prefixes.
fn parting(prefixes: usize) -> Vec<Kind> {
    [&[Kind::Leaf, Kind::Node4][..], &vec![Kind::Prefix; prefixes]].concat()
}

/// For a replacement that is done: the key is present.
pub fn by_replace(
    edition: Edition,
    before: &[u8],
    reading: &Reading,
    key: &[u8],
    value: Given,
) -> Touched {
    let steps = store::walk(before, &edition.walked(key));
    let Step { slot, .. } = steps[steps.len() - 1];
    let touched = Touched { extents: vec![reading.extents[&slot].clone()], ..Touched::default() };
    if store::leaf_fields(before, slot).value_length != value.bytes.len() {
        return Touched { rewritten: vec![slot], ..touched };
    }
    let body = store::body_at(before, slot);
    let stamp = body + LEAF_STAMP.start..body + LEAF_STAMP.end;
    Touched { stamp: (edition == Edition::Two).then_some(stamp), ..touched }
}

/// For an erase that is not refused, of a key that is present beside others.
pub fn by_erase(edition: Edition, before: &[u8], reading: &Reading, key: &[u8]) -> Touched {
    let string = edition.walked(key);
    let steps = store::walk(before, &string);
    let [above @ .., node, leaf] = &steps[..] else {
        panic!("a Leaf beside others stands under an inner node");
    };
    let mut touched = Touched {
        freed: vec![leaf.slot],
        extents: vec![reading.extents[&leaf.slot].clone()],
        ..Touched::default()
    };
    let left: Vec<usize> = store::children(before, node.slot)
        .into_iter()
        .map(|(_, child)| child)
        .filter(|child| *child != leaf.slot)
        .collect();
    if let [child] = left[..] {
        touched.freed.push(node.slot);
        let chain_above = above.iter().rev().take_while(|step| step.kind == Kind::Prefix);
        if reading.live[&child] == Kind::Leaf {
            touched.relinked = Some(chain_above.clone().last().unwrap_or(node).link);
            touched.freed.extend(chain_above.map(|step| step.slot));
        } else {
            touched.join(before, chain_above.clone().next(), node, (&string, child));
        }
    } else if node.kind.shrink_mark() == Some(left.len()) {
        touched.freed.push(node.slot);
        touched.needed.push(node.kind.smaller().expect("a kind with a mark has a smaller one"));
        touched.relinked = Some(node.link);
    } else {
        touched.rewritten.push(node.slot);
    }
    touched
}

impl Touched {
    /// The byte that leads to the child joins the last Prefix above, if there is
    /// one, and those below.
    fn join(
        &mut self,
        before: &[u8],
        upper: Option<&Step>,
        node: &Step,
        (string, child): (&[u8], usize),
    ) {
        let lower = store::chain(before, child);
        let children = store::children(before, node.slot);
        let byte = children.iter().find(|(_, slot)| *slot == child).expect("a child of it").0;
        let from = upper.unwrap_or(node).depth;
        let path = [&string[..node.depth], &[byte], &lower.bytes].concat();
        let mut stay: Vec<usize> = upper.map(|upper| upper.slot).into_iter().collect();
        stay.extend(lower.slots);
        let now = prefixes(path.len() - from);
        self.needed.extend(vec![Kind::Prefix; now.saturating_sub(stay.len())]);
        self.freed.extend(stay.split_off(now.min(stay.len())));
        self.rewritten.extend(&stay);
        // A Prefix above stays where it hangs.
        self.relinked = upper.is_none().then_some(node.link);
        self.beginning = Some(Beginning { path, from, stay });
    }

    /// The first way in which the frame after breaks off from what the step
    /// may change, if there is one. Both frames are good.
    pub fn overstepped(
        &self,
        (before, was): (&[u8], &Reading),
        (after, is): (&[u8], &Reading),
    ) -> Option<String> {
        let freed: BTreeSet<usize> =
            was.live.keys().filter(|slot| !is.live.contains_key(slot)).copied().collect();
        if freed != self.freed.iter().copied().collect() {
            return Some(format!("slots {freed:?} were freed instead of {:?}", self.freed));
        }
        if let Some(Beginning { path, from, stay }) = &self.beginning {
            let slots = prefixes_on(after, path, *from);
            if !slots.starts_with(stay) {
                return Some(format!("slots {slots:?} have what {stay:?} should have"));
            }
        }
        if let Some(slot) = freed.iter().find(|s| !is.lists[was.live[s].number()].contains(s)) {
            return Some(format!("freed slot {slot} is not on the list of its kind"));
        }
        let used_before = get32(before, AT_U);
        let taken: Vec<usize> = is
            .live
            .keys()
            .filter(|slot| !was.live.contains_key(slot) && **slot <= used_before)
            .copied()
            .collect();
        for slot in &taken {
            let kind = is.live[slot];
            if !self.needed.contains(&kind) || !was.lists[kind.number()].contains(slot) {
                return Some(format!("slot {slot} was taken for a {kind:?}"));
            }
        }
        let may_change = self.may_change(before, was, after, &taken);
        (0..before.len())
            .find(|at| (before[*at] ^ after[*at]) & !may_change[*at] != 0)
            .map(|at| format!("byte {at} was {} and is {}", before[at], after[at]))
    }

    /// For each byte of the frame, the bits that may differ after the step.
    fn may_change(&self, before: &[u8], was: &Reading, after: &[u8], taken: &[usize]) -> Vec<u8> {
        let mut may_change = vec![0u8; before.len()];
        let mut allow = |part: Range<usize>| may_change[part].fill(u8::MAX);
        allow(AT_B..HEADER_ZERO.start);
        let (old_u, new_u) = (get32(before, AT_U), get32(after, AT_U));
        allow(entry_at(old_u + 1)..entry_at(new_u + 1));
        allow(get32(before, AT_B)..get32(after, AT_B));
        self.extents.iter().cloned().for_each(&mut allow);
        self.stamp.iter().cloned().for_each(&mut allow);
        if let Some(Link::Child(field)) = self.relinked {
            allow(field..field + CHILD_BYTES);
        }
        let body = |slot: usize, kind: Kind| {
            let at = store::body_at(before, slot);
            at..at + kind.body_bytes()
        };
        for slot in self.rewritten.iter().chain(&self.freed) {
            allow(body(*slot, was.live[slot]));
        }
        for slot in taken {
            let kind = self.needed.iter().find(|kind| was.lists[kind.number()].contains(slot));
            allow(body(*slot, *kind.expect("a taken slot was on a needed list")));
        }
        // A slot keeps its body: only the link or kind in the high bits differs.
        let kinds_freed = self.freed.iter().map(|slot| was.live[slot]);
        let kinds: Vec<Kind> = kinds_freed.chain(self.needed.iter().copied()).collect();
        let listed = kinds.iter().flat_map(|kind| &was.lists[kind.number()]);
        let high_bits = (!OFFSET_MASK).to_le_bytes();
        for slot in listed.chain(&self.freed) {
            for (place, bits) in (entry_at(*slot)..).zip(high_bits) {
                may_change[place] |= bits;
            }
        }
        may_change
    }
}

/// The Prefixes that a way goes through from so many bytes on.
fn prefixes_on(frame: &[u8], path: &[u8], from: usize) -> Vec<usize> {
    // It goes on somewhere, and ends before these bytes do.
    let behind = [END_BYTE; Edition::Two.longest_walked()];
    let steps = store::walk(frame, &[path, &behind].concat());
    let on_it = |step: &&Step| (from..path.len()).contains(&step.depth);
    let prefixes = steps.iter().filter(on_it).filter(|step| step.kind == Kind::Prefix);
    prefixes.map(|step| step.slot).collect()
}
