//! From the bytes of a good frame to the slotless model.
//!
//! Believed here: which parts of a frame document 01 settles apart from slots
//! and places: the counters, the list lengths and the tree with the places of
//! Node48 children. Two frames with equal models differ only in what is free.
//! A record's stamp is settled as its value is. The Prefixes of a chain are one
//! shared beginning: in a good frame its length says how it is cut into them. A
//! frame from before Q-3 has a model too: what it has freed is no part of it.

use crate::check::Reading;
use crate::layout::*;
use crate::slotless::{ByKind, State, Tree};
use crate::store::{body_at, chain, children, leaf_record, slot_kind};
use std::collections::BTreeMap;
use std::rc::Rc;

/// `reading` is the frame's own, as one of this edition, and breaks no rule, or
/// none but those of Q-3.
pub fn state(edition: Edition, frame: &[u8], reading: &Reading) -> State {
    assert!(reading.good_before(), "only a good frame has a model");
    let mut list_lengths = ByKind::default();
    for (length, list) in list_lengths.iter_mut().zip(&reading.lists) {
        *length = list.len();
    }
    State {
        edition,
        f: get32(frame, AT_F),
        n: get32(frame, AT_N),
        b: get32(frame, AT_B),
        u: get32(frame, AT_U),
        r: get32(frame, AT_R),
        x: get32(frame, AT_X),
        list_lengths,
        tree: tree(frame, get16(frame, AT_ROOT)),
    }
}

fn tree(frame: &[u8], slot: usize) -> Option<Rc<Tree>> {
    let below = |child| tree(frame, child).expect("an EmptyRoot stands only at the root");
    let node = match slot_kind(frame, slot) {
        Kind::EmptyRoot => return None,
        Kind::Leaf => {
            let (key, value) = leaf_record(frame, slot);
            Tree::Leaf { key: key.into(), value: value.owned() }
        }
        Kind::Prefix => {
            let chain = chain(frame, slot);
            Tree::Prefix { bytes: chain.bytes, below: below(chain.below) }
        }
        kind => Tree::Inner {
            kind,
            children: children(frame, slot)
                .into_iter()
                .map(|(byte, child)| (byte, below(child)))
                .collect(),
            places: places(frame, slot, kind),
        },
    };
    Some(Rc::new(node))
}

fn places(frame: &[u8], slot: usize, kind: Kind) -> BTreeMap<u8, u8> {
    if kind != Kind::Node48 {
        return BTreeMap::new();
    }
    let index = &frame[body_at(frame, slot) + NODE48_INDEX..][..INDEX_ENTRIES];
    (0..=u8::MAX).zip(index.iter().copied()).filter(|(_, place)| *place != 0).collect()
}
