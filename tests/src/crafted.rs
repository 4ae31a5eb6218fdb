//! Good frames that use every freedom document 01 leaves.
//!
//! Believed here: slot numbers, places, gaps, list order and Node48 places may
//! be any; padding may hold anything; freed bodies, dead extents and bytes from
//! B on are zero. No call of the store is used to make these frames.

use crate::layout::*;
use crate::random::Random;
use crate::slotless::{bodies, ByKind, State, Tree};
use crate::value::{set_stamp, Given};
use std::rc::Rc;

/// What is left to give out.
#[derive(Clone, Copy, Debug)]
pub struct Spare {
    pub slots: usize,
    pub bytes: usize,
}

enum Part {
    Body { slot: usize, size: usize },
    Extent { slot: usize, size: usize },
    Gap { size: usize },
}

/// A frame with this tree, these lists (list 8 may be lengthened so that N is
/// even and not too small), at least `dead` bytes of dead extents (more if F
/// would be too small) and exactly this spare room.
pub fn build(
    edition: Edition,
    random: &mut Random,
    tree: &Option<Rc<Tree>>,
    lists: &ByKind,
    dead: usize,
    spare: Spare,
) -> (Vec<u8>, State) {
    let mut list_lengths = *lists;
    let live = bodies(tree);
    let mut u: usize = live.iter().sum::<usize>() + list_lengths.iter().sum::<usize>();
    while !slot_capacity_allowed(u + spare.slots) {
        assert!(u < MOST_SLOTS, "the tree has too many slots for a frame");
        list_lengths[Kind::EmptyRoot.number()] += 1;
        u += 1;
    }
    let n = u + spare.slots;
    let d = data_start(n);
    let body_sizes: usize = Kind::ALL
        .iter()
        .map(|kind| (live[kind.number()] + list_lengths[kind.number()]) * kind.body_bytes())
        .sum();
    let mut extent_sizes = 0;
    let mut records = 0;
    each_record(tree, &mut |key, value| {
        extent_sizes += extent_bytes(key.len(), value.bytes.len());
        records += 1;
    });
    let least = d + body_sizes + extent_sizes + dead + spare.bytes;
    let x = dead + SHORTEST_FRAME.saturating_sub(least);
    let b = d + body_sizes + extent_sizes + x;
    let f = b + spare.bytes;
    assert!(frame_length_allowed(f), "no frame has {f} bytes");
    let state = State { edition, f, n, b, u, r: records, x, list_lengths, tree: tree.clone() };
    let frame = Builder::new(random, &state).finish(random);
    (frame, state)
}

fn each_record(tree: &Option<Rc<Tree>>, visit: &mut dyn FnMut(&[u8], Given)) {
    if let Some(tree) = tree {
        tree.each(&mut |node| {
            if let Tree::Leaf { key, value } = node {
                visit(key, value.given());
            }
        });
    }
}

struct Builder<'a> {
    state: &'a State,
    frame: Vec<u8>,
    /// Slot numbers not yet given, in no order.
    slots: Vec<usize>,
    parts: Vec<Part>,
    /// The place of each slot's body and extent.
    body_places: Vec<usize>,
    extent_places: Vec<usize>,
}

impl<'a> Builder<'a> {
    fn new(random: &mut Random, state: &'a State) -> Builder<'a> {
        let mut slots: Vec<usize> = (1..=state.u).collect();
        random.shuffle(&mut slots);
        let places = vec![0; state.u + 1];
        Builder {
            state,
            frame: vec![0; state.f],
            slots,
            parts: Vec::new(),
            body_places: places.clone(),
            extent_places: places,
        }
    }

    fn finish(mut self, random: &mut Random) -> Vec<u8> {
        let state = self.state;
        let d = data_start(state.n);
        let fields =
            [state.edition.number(), state.f, state.n, d, state.b, state.u, state.r, state.x];
        let places = [AT_EDITION, AT_F, AT_N, AT_D, AT_B, AT_U, AT_R, AT_X];
        for (place, field) in places.into_iter().zip(fields) {
            set32(&mut self.frame, place, field);
        }
        // Slots are given and sizes noted first; then places; then bytes.
        let mut live = Vec::new();
        self.number(state.tree.as_deref(), &mut live);
        let lists = self.number_lists();
        self.place(random);
        let mut numbered = live.iter().copied();
        let root = match &state.tree {
            Some(tree) => self.write(tree, &mut numbered),
            None => {
                let (slot, _) = self.live_body(numbered.next(), Kind::EmptyRoot);
                slot
            }
        };
        set16(&mut self.frame, AT_ROOT, root);
        for (kind, list) in lists {
            let mut next = 0;
            for slot in list {
                set_entry(&mut self.frame, slot, self.body_places[slot], next);
                next = slot;
            }
            set16(&mut self.frame, list_head_at(kind.number()), next);
        }
        self.frame
    }

    fn give(&mut self, kind: Kind) -> usize {
        let slot = self.slots.pop().expect("there are U slots");
        self.parts.push(Part::Body { slot, size: kind.body_bytes() });
        slot
    }

    /// Gives a slot to every live node, parent first.
    fn number(&mut self, tree: Option<&Tree>, live: &mut Vec<usize>) {
        let Some(tree) = tree else {
            live.push(self.give(Kind::EmptyRoot));
            return;
        };
        tree.each(&mut |node| {
            for _ in 0..node.bodies() {
                let slot = self.give(node.kind());
                if let Tree::Leaf { key, value } = node {
                    let size = extent_bytes(key.len(), value.bytes.len());
                    self.parts.push(Part::Extent { slot, size });
                }
                live.push(slot);
            }
        });
    }

    fn number_lists(&mut self) -> Vec<(Kind, Vec<usize>)> {
        let lengths = self.state.list_lengths;
        Kind::ALL
            .into_iter()
            .map(|kind| (kind, (0..lengths[kind.number()]).map(|_| self.give(kind)).collect()))
            .collect()
    }

    /// Puts bodies, extents and gaps between D and B in any order; an extent's
    /// bytes are any, and so is what of them stays as padding.
    fn place(&mut self, random: &mut Random) {
        let mut dead = self.state.x;
        while dead > 0 {
            let size = random.from_to(1, dead.div_ceil(UNIT)) * UNIT;
            let size = size.min(dead);
            self.parts.push(Part::Gap { size });
            dead -= size;
        }
        random.shuffle(&mut self.parts);
        let mut at = data_start(self.state.n);
        for part in &self.parts {
            let size = match part {
                Part::Body { slot, size } => {
                    self.body_places[*slot] = at;
                    size
                }
                Part::Extent { slot, size } => {
                    self.extent_places[*slot] = at;
                    self.frame[at..at + size].copy_from_slice(&random.bytes(*size));
                    size
                }
                Part::Gap { size } => size,
            };
            at += size;
        }
        assert_eq!(at, self.state.b, "the parts fill the data up to B");
    }

    fn live_body(&mut self, slot: Option<usize>, kind: Kind) -> (usize, usize) {
        let slot = slot.expect("every live node has a slot");
        let body = self.body_places[slot];
        set_entry(&mut self.frame, slot, body, kind.number());
        (slot, body)
    }

    /// Writes a node and all below it; gives its slot.
    fn write(&mut self, tree: &Tree, live: &mut dyn Iterator<Item = usize>) -> usize {
        let kind = tree.kind();
        let (slot, body) = self.live_body(live.next(), kind);
        match tree {
            Tree::Leaf { key, value } => {
                let extent = self.extent_places[slot];
                set32(&mut self.frame, body + LEAF_EXTENT, extent);
                set16(&mut self.frame, body + LEAF_KEY_LENGTH, key.len());
                let Given { bytes, stamp } = value.given();
                set16(&mut self.frame, body + LEAF_VALUE_LENGTH, bytes.len());
                set_stamp(&mut self.frame, body + LEAF_STAMP.start, stamp);
                self.frame[extent..][..key.len()].copy_from_slice(key);
                self.frame[extent + key.len()..][..bytes.len()].copy_from_slice(bytes);
            }
            Tree::Prefix { bytes, below } => {
                // A chain: all full but the last, which has the tree below.
                let mut pieces = bytes.chunks(LONGEST_PREFIX);
                let mut body = body;
                loop {
                    let piece = pieces.next().expect("as many pieces as bodies");
                    set16(&mut self.frame, body + PREFIX_LENGTH, piece.len());
                    self.frame[body + PREFIX_BYTES.start..][..piece.len()].copy_from_slice(piece);
                    if pieces.len() == 0 {
                        break;
                    }
                    let (next, next_body) = self.live_body(live.next(), kind);
                    set32(&mut self.frame, body + PREFIX_CHILD, next);
                    body = next_body;
                }
                let child = self.write(below, live);
                set32(&mut self.frame, body + PREFIX_CHILD, child);
            }
            Tree::Inner { children, places, .. } => {
                set16(&mut self.frame, body + INNER_COUNT, children.len());
                for (index, (byte, below)) in children.iter().enumerate() {
                    let child = self.write(below, live);
                    let place = match kind {
                        Kind::Node256 => usize::from(*byte),
                        Kind::Node48 => {
                            self.frame[body + NODE48_INDEX + usize::from(*byte)] = places[byte];
                            usize::from(places[byte]) - 1
                        }
                        _ => {
                            let start = kind.branch_bytes().expect("a Node4 or a Node16").start;
                            self.frame[body + start + index] = *byte;
                            index
                        }
                    };
                    set32(&mut self.frame, body + kind.child_at(place), child);
                }
            }
        }
        slot
    }
}
