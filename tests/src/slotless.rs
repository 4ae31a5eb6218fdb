//! The slotless model: what each call gives, without slots, places or bytes.
//!
//! Believed here: how the tree changes with a put, a replacement and an erase, and that a
//! call needs and frees, of each kind, exactly the bodies by which the tree
//! after differs from the tree before. A shared beginning is whole in the tree,
//! however long it is; how many Prefixes it takes is a matter of its length
//! . The model holds the tree, U, B, R, X and the eight list lengths, and
//! predicts them with the number for each call. It is another reading of the
//! documents than the store's list of needs.

use crate::layout::number::*;
use crate::layout::*;
use crate::names::Asked;
use crate::store::Records;
use crate::trees::Change;
use crate::value::{Given, Value};
use std::collections::{BTreeMap, BTreeSet};
use std::rc::Rc;

/// A count for each kind number; 0 is not used.
pub type ByKind = [usize; LISTS + 1];

#[derive(Clone, PartialEq, Eq, Debug)]
pub enum Tree {
    Leaf {
        key: Rc<[u8]>,
        value: Value<Rc<[u8]>>,
    },
    /// A shared beginning of any length.
    Prefix {
        bytes: Vec<u8>,
        below: Rc<Tree>,
    },
    /// `places` has the places of a Node48's children, and is empty for others.
    Inner {
        kind: Kind,
        children: BTreeMap<u8, Rc<Tree>>,
        places: BTreeMap<u8, u8>,
    },
}

/// Where a walk ends that does not find its key.
#[derive(Clone, Copy, PartialEq, Eq, PartialOrd, Ord, Debug)]
pub enum End {
    EmptyFrame,
    AnotherLeaf,
    NoSuchByte,
    PrefixDiffers,
}

/// What is left of a Node4 that falls to one child.
#[derive(Clone, Copy, PartialEq, Eq, PartialOrd, Ord, Debug)]
pub enum Survivor {
    Leaf,
    Prefix,
    Inner,
}

/// The cases of "What a call needs and frees".
#[derive(Clone, Copy, PartialEq, Eq, PartialOrd, Ord, Debug)]
pub enum Case {
    PutInEmptyFrame,
    PutSplitsLeaf { shared: bool },
    PutAdds(Kind),
    PutGrows(Kind),
    PutCutsPrefix { before: bool, after: bool },
    ReplaceSameLength,
    ReplaceOtherLength { same_rounded: bool },
    EraseOnlyRecord,
    EraseRemoves(Kind),
    EraseShrinks(Kind),
    EraseCollapses { survivor: Survivor, prefix_above: bool },
}

/// What a change does to shared beginnings, by their bytes.
#[derive(Clone, Copy, PartialEq, Eq, PartialOrd, Ord, Debug)]
pub enum Beginning {
    /// A put shares so many with a Leaf.
    Begun { bytes: usize },
    /// A put leaves one at a byte, counted from 0.
    Cut { bytes: usize, at: usize },
    /// An erase leaves one byte between these; 0 is none.
    Joined { above: usize, below: usize },
    /// An erase leaves a Leaf alone below one.
    Dropped { bytes: usize },
}

/// What the room rule compares.
#[derive(Clone, Debug)]
pub struct Room {
    pub from_list: Vec<Kind>,
    pub fresh: Vec<Kind>,
    pub fresh_bytes: usize,
    pub slots_left: usize,
    pub bytes_left: usize,
}

impl Room {
    pub fn lacks_slots(&self) -> bool {
        self.fresh.len() > self.slots_left
    }

    pub fn lacks_bytes(&self) -> bool {
        self.fresh_bytes > self.bytes_left
    }
}

/// What the model says of one call.
#[derive(Clone, Debug)]
pub struct Told {
    pub number: u32,
    pub case: Option<(Case, Room)>,
    /// The Prefixes that the frame has more if the call is done.
    pub prefixes: isize,
    pub beginning: Option<Beginning>,
    /// Set with 8.
    pub end: Option<End>,
}

impl Told {
    fn only(number: u32) -> Told {
        Told { number, case: None, prefixes: 0, beginning: None, end: None }
    }

    fn absent(end: End) -> Told {
        Told { end: Some(end), ..Told::only(ABSENT) }
    }
}

#[derive(Clone, PartialEq, Eq, Debug)]
pub struct State {
    pub edition: Edition,
    pub f: usize,
    pub n: usize,
    pub b: usize,
    pub u: usize,
    pub r: usize,
    pub x: usize,
    pub list_lengths: ByKind,
    pub tree: Option<Rc<Tree>>,
}

impl State {
    /// As format leaves a frame.
    pub fn fresh(edition: Edition, f: usize, n: usize) -> State {
        State {
            edition,
            f,
            n,
            b: data_start(n) + Kind::EmptyRoot.body_bytes(),
            u: 1,
            r: 0,
            x: 0,
            list_lengths: ByKind::default(),
            tree: None,
        }
    }

    pub fn records(&self) -> Records {
        let mut found = Records::new();
        if let Some(tree) = &self.tree {
            tree.each(&mut |node| {
                if let Tree::Leaf { key, value } = node {
                    found.insert(key.to_vec(), value.given().owned());
                }
            });
        }
        found
    }

    /// The value of a present key, or where the walk ends.
    pub fn find(&self, key: &[u8]) -> Result<Value<Rc<[u8]>>, End> {
        let string = self.edition.walked(key);
        let mut rest = &string[..];
        let mut tree = self.tree.as_ref().ok_or(End::EmptyFrame)?;
        loop {
            match &**tree {
                Tree::Leaf { key: there, value } => {
                    return if **there == *key { Ok(value.clone()) } else { Err(End::AnotherLeaf) };
                }
                Tree::Prefix { bytes, below } => {
                    rest = rest.strip_prefix(&bytes[..]).ok_or(End::PrefixDiffers)?;
                    tree = below;
                }
                Tree::Inner { children, .. } => {
                    tree = children.get(&rest[0]).ok_or(End::NoSuchByte)?;
                    rest = &rest[1..];
                }
            }
        }
    }

    /// How many slots the way of a key enters, the one where it ends included.
    pub fn visits(&self, key: &[u8]) -> usize {
        fn below(tree: &Tree, rest: &[u8]) -> usize {
            match tree {
                Tree::Leaf { .. } => 1,
                Tree::Prefix { bytes, below: under } => match shared(rest, bytes) {
                    all if all == bytes.len() => prefixes(all) + below(under, &rest[all..]),
                    // Those that match, and the one that does not.
                    some => some / LONGEST_PREFIX + 1,
                },
                Tree::Inner { children, .. } => {
                    1 + children.get(&rest[0]).map_or(0, |child| below(child, &rest[1..]))
                }
            }
        }
        // An EmptyRoot is one slot too.
        self.tree.as_ref().map_or(1, |tree| below(tree, &self.edition.walked(key)))
    }

    /// All entries of a listing, whatever its buffer.
    pub fn entries(&self, asked: &Asked) -> BTreeSet<Vec<u8>> {
        let cut = |key: Vec<u8>| {
            let (prefix, behind) = key.split_at(asked.prefix.len());
            match asked.delimiter {
                Some(delimiter) => {
                    let part = behind.split_inclusive(|byte| *byte == delimiter).next();
                    [prefix, part.unwrap_or_default()].concat()
                }
                None => key,
            }
        };
        let matching = self.records().into_keys().filter(|key| key.starts_with(asked.prefix));
        let after = |entry: &Vec<u8>| asked.start.is_none_or(|start| &entry[..] > start);
        matching.map(cut).filter(after).collect()
    }

    pub fn put(&mut self, key: &[u8], value: Given) -> Told {
        if let Some(refused) = self.record_refusal(key, value) {
            return Told::only(refused);
        }
        if self.find(key).is_ok() {
            return Told::only(PRESENT);
        }
        let (change, after) = self.with(key, value);
        self.settle(change, after, extent_bytes(key.len(), value.bytes.len()), 0, DONE)
    }

    pub fn replace(&mut self, key: &[u8], value: Given) -> Told {
        if let Some(refused) = self.record_refusal(key, value) {
            return Told::only(refused);
        }
        let old = match self.find(key) {
            Err(end) => return Told::absent(end),
            Ok(old) => old,
        };
        let (change, after) = self.with(key, value);
        let (new_extent, retired) = match change {
            (Case::ReplaceSameLength, _) => (0, 0),
            _ => {
                let size = |value: Given| extent_bytes(key.len(), value.bytes.len());
                (size(value), size(old.given()))
            }
        };
        self.settle(change, after, new_extent, retired, REPLACED)
    }

    /// The refusal that a put or a replacement earns by its key and its value.
    fn record_refusal(&self, key: &[u8], value: Given) -> Option<u32> {
        let of_value = (value.bytes.len() > LONGEST_VALUE).then_some(VALUE_LENGTH);
        self.edition.key_refusal(key).or(of_value)
    }

    /// The tree with this record, whatever value and stamp the key had.
    fn with(&self, key: &[u8], value: Given) -> (Changed, Option<Rc<Tree>>) {
        let mut after = self.tree.clone();
        let change = match &mut after {
            None => {
                after = Some(leaf(key, value));
                (Case::PutInEmptyFrame, None)
            }
            Some(tree) => insert(self.edition, Rc::make_mut(tree), 0, key, value),
        };
        (change, after)
    }

    pub fn make(&mut self, change: &Change) -> Told {
        match change {
            Change::Put { key, value } => self.put(key, value.given()),
            Change::Replace { key, value } => self.replace(key, value.given()),
            Change::Erase { key } => self.erase(key),
        }
    }

    pub fn erase(&mut self, key: &[u8]) -> Told {
        if let Some(refused) = self.edition.key_refusal(key) {
            return Told::only(refused);
        }
        let old = match self.find(key) {
            Err(end) => return Told::absent(end),
            Ok(old) => old,
        };
        if self.r == 1 {
            let room = self.room(&ByKind::default(), 0);
            *self = State::fresh(self.edition, self.f, self.n);
            return Told { case: Some((Case::EraseOnlyRecord, room)), ..Told::only(DONE) };
        }
        let mut after = self.tree.clone();
        let tree = after.as_mut().expect("a key is present");
        let change = remove(Rc::make_mut(tree), &self.edition.walked(key), 0);
        let retired = extent_bytes(key.len(), old.bytes.len());
        self.settle(change, after, 0, retired, DONE)
    }

    /// Compares the needs with the room; takes and frees if there is enough.
    fn settle(
        &mut self,
        (case, beginning): Changed,
        after: Option<Rc<Tree>>,
        new_extent: usize,
        retired: usize,
        given: u32,
    ) -> Told {
        let (had, has) = (bodies(&self.tree), bodies(&after));
        let mut needs = ByKind::default();
        let mut frees = ByKind::default();
        for kind in 0..=LISTS {
            needs[kind] = has[kind].saturating_sub(had[kind]);
            frees[kind] = had[kind].saturating_sub(has[kind]);
        }
        let room = self.room(&needs, new_extent);
        let more = |kind: Kind| has[kind.number()] as isize - had[kind.number()] as isize;
        let prefixes = more(Kind::Prefix);
        let lacking = room.lacks_slots() || room.lacks_bytes();
        let number = if lacking { NO_ROOM } else { given };
        let told =
            Told { number, case: Some((case, room.clone())), prefixes, beginning, end: None };
        if lacking {
            return told;
        }
        for kind in &room.from_list {
            self.list_lengths[kind.number()] -= 1;
        }
        for (length, freed) in self.list_lengths.iter_mut().zip(frees) {
            *length += freed;
        }
        self.u += room.fresh.len();
        self.b += room.fresh_bytes;
        self.x += retired;
        self.r = has[Kind::Leaf.number()];
        self.tree = after;
        told
    }

    fn room(&self, needs: &ByKind, new_extent: usize) -> Room {
        let (mut from_list, mut fresh) = (Vec::new(), Vec::new());
        for kind in Kind::ALL {
            let needed = needs[kind.number()];
            let listed = needed.min(self.list_lengths[kind.number()]);
            from_list.extend(std::iter::repeat_n(kind, listed));
            fresh.extend(std::iter::repeat_n(kind, needed - listed));
        }
        let fresh_bytes = fresh.iter().map(|kind| kind.body_bytes()).sum::<usize>() + new_extent;
        let (slots_left, bytes_left) = (self.n - self.u, self.f - self.b);
        Room { from_list, fresh, fresh_bytes, slots_left, bytes_left }
    }
}

/// The case of a change, and what it does to shared beginnings.
type Changed = (Case, Option<Beginning>);

/// How many live bodies there are of each kind.
pub fn bodies(tree: &Option<Rc<Tree>>) -> ByKind {
    let mut counts = ByKind::default();
    match tree {
        None => counts[Kind::EmptyRoot.number()] = 1,
        Some(tree) => tree.each(&mut |node| counts[node.kind().number()] += node.bodies()),
    }
    counts
}

impl Tree {
    pub fn kind(&self) -> Kind {
        match self {
            Tree::Leaf { .. } => Kind::Leaf,
            Tree::Prefix { .. } => Kind::Prefix,
            Tree::Inner { kind, .. } => *kind,
        }
    }

    /// How many bodies it stands in.
    pub fn bodies(&self) -> usize {
        match self {
            Tree::Prefix { bytes, .. } => prefixes(bytes.len()),
            Tree::Leaf { .. } | Tree::Inner { .. } => 1,
        }
    }

    /// Visits a node and all below it, parent first, in byte order.
    pub fn each(&self, visit: &mut dyn FnMut(&Tree)) {
        visit(self);
        match self {
            Tree::Leaf { .. } => {}
            Tree::Prefix { below, .. } => below.each(visit),
            Tree::Inner { children, .. } => children.values().for_each(|child| child.each(visit)),
        }
    }
}

fn leaf(key: &[u8], value: Given) -> Rc<Tree> {
    Rc::new(Tree::Leaf { key: key.into(), value: value.owned() })
}

/// An inner node whose children all take their places anew, in byte order.
pub fn inner(kind: Kind, children: BTreeMap<u8, Rc<Tree>>) -> Tree {
    let places = match kind {
        Kind::Node48 => children.keys().copied().zip(1..).collect(),
        _ => BTreeMap::new(),
    };
    Tree::Inner { kind, children, places }
}

fn prefixed(bytes: &[u8], below: Rc<Tree>) -> Rc<Tree> {
    if bytes.is_empty() {
        below
    } else {
        Rc::new(Tree::Prefix { bytes: bytes.to_vec(), below })
    }
}

fn fork(one: (u8, Rc<Tree>), other: (u8, Rc<Tree>)) -> Rc<Tree> {
    Rc::new(inner(Kind::Node4, BTreeMap::from([one, other])))
}

fn insert(edition: Edition, tree: &mut Tree, depth: usize, key: &[u8], value: Given) -> Changed {
    let string = edition.walked(key);
    let rest = &string[depth..];
    match tree {
        Tree::Leaf { key: there, value: old } if **there == *key => {
            let (was, is) = (old.bytes.len(), value.bytes.len());
            let case = if was == is {
                Case::ReplaceSameLength
            } else {
                let same_rounded = extent_bytes(key.len(), is) == extent_bytes(key.len(), was);
                Case::ReplaceOtherLength { same_rounded }
            };
            *old = value.owned();
            (case, None)
        }
        Tree::Leaf { key: there, .. } => {
            let other = edition.walked(there);
            let other = &other[depth..];
            let q = shared(rest, other);
            let below = fork((other[q], Rc::new(tree.clone())), (rest[q], leaf(key, value)));
            *tree = (*prefixed(&rest[..q], below)).clone();
            (Case::PutSplitsLeaf { shared: q > 0 }, Some(Beginning::Begun { bytes: q }))
        }
        Tree::Prefix { bytes, below } => {
            let q = shared(rest, bytes);
            if q == bytes.len() {
                return insert(edition, Rc::make_mut(below), depth + q, key, value);
            }
            let lower = prefixed(&bytes[q + 1..], below.clone());
            let below = fork((bytes[q], lower), (rest[q], leaf(key, value)));
            let case = Case::PutCutsPrefix { before: q > 0, after: q + 1 < bytes.len() };
            let cut = Beginning::Cut { bytes: bytes.len(), at: q };
            *tree = (*prefixed(&rest[..q], below)).clone();
            (case, Some(cut))
        }
        Tree::Inner { kind, children, places } => {
            if let Some(child) = children.get_mut(&rest[0]) {
                return insert(edition, Rc::make_mut(child), depth + 1, key, value);
            }
            let full = children.len() == kind.most_children();
            let was = *kind;
            if full {
                *kind = was.larger().expect("a Node256 has a place for every byte");
                let carried_over = std::mem::take(children);
                let Tree::Inner { children: carried, places: anew, .. } =
                    inner(*kind, carried_over)
                else {
                    unreachable!("an inner node was made");
                };
                (*children, *places) = (carried, anew);
            }
            if *kind == Kind::Node48 {
                let lowest_empty = (1..).find(|place| !places.values().any(|used| used == place));
                places.insert(rest[0], lowest_empty.expect("a place is left"));
            }
            children.insert(rest[0], leaf(key, value));
            (if full { Case::PutGrows(was) } else { Case::PutAdds(was) }, None)
        }
    }
}

/// Takes away a key that is present and not the only one.
fn remove(tree: &mut Tree, string: &[u8], depth: usize) -> Changed {
    match tree {
        Tree::Leaf { .. } => panic!("the only record is not removed"),
        Tree::Prefix { bytes, below } => {
            let long = bytes.len();
            let mut change = remove(Rc::make_mut(below), string, depth + long);
            // A Prefix stands only above an inner node: else it vanishes or joins.
            let joined = match &**below {
                Tree::Inner { .. } => None,
                Tree::Leaf { .. } => Some((**below).clone()),
                Tree::Prefix { bytes: lower, below } => {
                    let bytes = [&bytes[..], &lower[..]].concat();
                    Some(Tree::Prefix { bytes, below: below.clone() })
                }
            };
            if let Some(joined) = joined {
                if let Case::EraseCollapses { prefix_above, .. } = &mut change.0 {
                    *prefix_above = true;
                }
                match &mut change.1 {
                    Some(Beginning::Joined { above, .. }) => *above = long,
                    Some(Beginning::Dropped { bytes }) => *bytes = long,
                    _ => {}
                }
                *tree = joined;
            }
            change
        }
        Tree::Inner { kind, children, places } => {
            let byte = string[depth];
            let child = children.get_mut(&byte).expect("the key is present");
            if child.kind() != Kind::Leaf {
                return remove(Rc::make_mut(child), string, depth + 1);
            }
            children.remove(&byte);
            places.remove(&byte);
            let was = *kind;
            if children.len() == 1 {
                let (byte, child) = children.pop_first().expect("one child is left");
                let joined = |below: usize| Beginning::Joined { above: 0, below };
                let (survivor, beginning, left) = match &*child {
                    Tree::Leaf { .. } => {
                        (Survivor::Leaf, Beginning::Dropped { bytes: 0 }, (*child).clone())
                    }
                    Tree::Prefix { bytes: lower, below } => {
                        let bytes = [&[byte], &lower[..]].concat();
                        let left = Tree::Prefix { bytes, below: below.clone() };
                        (Survivor::Prefix, joined(lower.len()), left)
                    }
                    Tree::Inner { .. } => {
                        let left = Tree::Prefix { bytes: vec![byte], below: child.clone() };
                        (Survivor::Inner, joined(0), left)
                    }
                };
                *tree = left;
                let case = Case::EraseCollapses { survivor, prefix_above: false };
                return (case, Some(beginning));
            }
            if was.shrink_mark() == Some(children.len()) {
                let smaller = was.smaller().expect("a kind with a mark has a smaller one");
                *tree = inner(smaller, std::mem::take(children));
                return (Case::EraseShrinks(was), None);
            }
            (Case::EraseRemoves(was), None)
        }
    }
}
