//! Random trees that a good frame can hold, and changes aimed at their nodes.
//!
//! Believed here: which trees are legal: which walked bytes can follow others.
//! Child numbers stand at or beside the marks where a node grows or gives way
//! more often than elsewhere, and in edition 2 the lengths of shared beginnings,
//! and the bytes where they are cut, at or beside the ends of full Prefixes;
//! Node48 places are any distinct ones; an inner node may be of any kind that its
//! number of children allows.

use crate::layout::*;
use crate::random::Random;
use crate::slotless::{self, Tree};
use crate::value::{Given, Value};
use std::collections::BTreeMap;
use std::rc::Rc;

/// What a path of walked bytes tells of the keys that it leads to.
struct Begun {
    edition: Edition,
    /// The bytes that all of them begin with.
    key: Vec<u8>,
    tail: Tail,
}

#[derive(Clone, Copy, PartialEq, Eq, Debug)]
enum Tail {
    Open,
    /// In edition 2 a byte 0: of the key if 255 follows, of its end if 0 does.
    Zero,
    /// There is but one key.
    Ended,
}

impl Begun {
    fn new(edition: Edition, path: &[u8]) -> Begun {
        let mut begun = Begun { edition, key: Vec::new(), tail: Tail::Open };
        path.iter().for_each(|byte| begun.step(*byte));
        begun
    }

    fn step(&mut self, byte: u8) {
        self.tail = match (self.edition, self.tail, byte) {
            (_, Tail::Ended, _) => panic!("nothing follows the end of a walked string"),
            (Edition::One, _, END_BYTE) | (Edition::Two, Tail::Zero, END_BYTE) => Tail::Ended,
            (Edition::Two, Tail::Open, END_BYTE) => Tail::Zero,
            (Edition::Two, Tail::Zero, _) => {
                self.key.push(0);
                Tail::Open
            }
            _ => {
                self.key.push(byte);
                Tail::Open
            }
        };
    }

    /// The bytes that the walked string of some key goes on with.
    fn next_bytes(&self) -> Vec<u8> {
        let may_end = !self.key.is_empty();
        let may_grow = self.key.len() < self.edition.longest_key();
        let goes_on = |byte: &u8| match (self.edition, self.tail, *byte) {
            (_, Tail::Ended, _) => false,
            (Edition::One, _, END_BYTE) | (Edition::Two, Tail::Zero, END_BYTE) => may_end,
            (Edition::Two, Tail::Open, END_BYTE) => may_end || may_grow,
            (Edition::Two, Tail::Zero, byte) => byte == ESCAPE && may_grow,
            _ => may_grow,
        };
        (0..=u8::MAX).filter(goes_on).collect()
    }

    /// Whether a node can stand here.
    fn branches(&self) -> bool {
        self.next_bytes().len() > 1
    }

    /// Some key below, with a few bytes more or none.
    fn some_key(mut self, random: &mut Random) -> Vec<u8> {
        let room = self.edition.longest_key() - self.key.len();
        match self.tail {
            Tail::Ended => return self.key,
            Tail::Zero if room == 0 || !self.key.is_empty() && random.one_in(2) => return self.key,
            Tail::Zero => self.key.push(0),
            Tail::Open => {}
        }
        extended(self.edition, random, self.key)
    }
}

const LONGEST_SUFFIX: usize = 4;
/// Bytes of shared beginnings, at and beside the ends of full Prefixes; in edition
/// 2 no longer one leads to a node.
pub const BEGINNINGS: [usize; 8] = [111, 112, 113, 224, 225, 336, 337, 509];

/// A tree with about so many Leaves.
pub fn random_tree(edition: Edition, random: &mut Random, leaves: usize) -> Rc<Tree> {
    let mut left = leaves;
    node(edition, random, &mut Vec::new(), &mut left, leaves > 1)
}

fn node(
    edition: Edition,
    random: &mut Random,
    path: &mut Vec<u8>,
    left: &mut usize,
    branch: bool,
) -> Rc<Tree> {
    let begun = Begun::new(edition, path);
    if !branch || *left < 2 || !begun.branches() {
        return Rc::new(leaf(random, begun));
    }
    if random.one_in(2) {
        return Rc::new(inner(edition, random, path, left));
    }
    let bytes = beginning(random, begun);
    let depth = path.len();
    path.extend_from_slice(&bytes);
    let below = inner(edition, random, path, left);
    path.truncate(depth);
    Rc::new(if bytes.is_empty() { below } else { Tree::Prefix { bytes, below: Rc::new(below) } })
}

/// A shared beginning that leads to a node.
fn beginning(random: &mut Random, mut begun: Begun) -> Vec<u8> {
    let edition = begun.edition;
    let wanted = match (edition, random.below(6)) {
        (_, 0) => random.from_to(1, edition.longest_key()),
        (Edition::One, 1) => random.from_to(1, edition.longest_key()),
        (Edition::Two, 1) => *random.pick(&BEGINNINGS),
        _ => random.from_to(1, 3),
    };
    let zeros = edition == Edition::Two && (wanted > edition.longest_key() || random.one_in(4));
    let mut bytes = Vec::new();
    while bytes.len() < wanted || !begun.branches() {
        // The last byte of a key is left to those that part.
        let grows = begun.key.len() + 1 < edition.longest_key();
        let byte = match begun.tail {
            Tail::Zero if grows => ESCAPE,
            Tail::Open if zeros && !random.one_in(9) => 0,
            Tail::Open if grows => random.byte_not_0(),
            _ => break,
        };
        begun.step(byte);
        bytes.push(byte);
    }
    bytes
}

fn inner(edition: Edition, random: &mut Random, path: &mut Vec<u8>, left: &mut usize) -> Tree {
    let mut bytes = Begun::new(edition, path).next_bytes();
    let fits: Vec<Kind> = Kind::INNER
        .into_iter()
        .filter(|kind| *kind == Kind::Node4 || kind.children_allowed().start() <= left)
        .filter(|kind| *kind.children_allowed().start() <= bytes.len())
        .collect();
    let kind = *random.pick(&fits);
    let (fewest, most) = (*kind.children_allowed().start(), kind.most_children().min(bytes.len()));
    let count = match random.below(7) {
        0 | 1 => fewest,
        2 => (fewest + 1).min(most),
        3 => (most - 1).max(fewest),
        4 | 5 => most,
        _ => random.from_to(fewest, most),
    };
    random.shuffle(&mut bytes);
    bytes.truncate(count);
    *left = left.saturating_sub(count);
    bytes.sort();
    let largest = *bytes.last().expect("every node has children");
    // One Leaf from falling to an inner child, with no Prefix between.
    let lopsided = count == *Kind::Node4.children_allowed().start()
        && Begun::new(edition, &[&path[..], &[largest]].concat()).branches()
        && *left > count
        && random.one_in(2);
    let branching = random.from_to(1, 6);
    let children: BTreeMap<u8, Rc<Tree>> = bytes
        .into_iter()
        .map(|byte| {
            path.push(byte);
            let child = if lopsided && byte == largest {
                Rc::new(inner(edition, random, path, left))
            } else {
                let branch = !lopsided && random.one_in(branching);
                node(edition, random, path, left, branch)
            };
            path.pop();
            (byte, child)
        })
        .collect();
    let mut places: Vec<u8> = (1..=Kind::Node48.most_children() as u8).collect();
    random.shuffle(&mut places);
    let places = match kind {
        Kind::Node48 => children.keys().copied().zip(places).collect(),
        _ => BTreeMap::new(),
    };
    Tree::Inner { kind, children, places }
}

fn leaf(random: &mut Random, begun: Begun) -> Tree {
    let edition = begun.edition;
    let key = begun.some_key(random);
    let value = small_value(edition, random);
    Tree::Leaf { key: key.into(), value: value.given().owned() }
}

/// The beginning of a key, made a key by a few bytes more, or none; in edition 2
/// at times by as many as it can have.
fn extended(edition: Edition, random: &mut Random, mut start: Vec<u8>) -> Vec<u8> {
    let least = usize::from(start.is_empty());
    let room = edition.longest_key() - start.len();
    let most = LONGEST_SUFFIX.min(room);
    let suffix = match edition {
        Edition::Two if random.one_in(12) => room,
        _ => random.from_to(least, most.max(least)),
    };
    start.extend((0..suffix).map(|_| random.key_byte(edition)));
    start
}

/// In edition 2 at times one that many records have, so that a replacement can differ
/// in the stamp alone.
pub fn small_value(edition: Edition, random: &mut Random) -> Value<Vec<u8>> {
    if edition == Edition::Two && random.one_in(6) {
        return Value { bytes: b"same".to_vec(), stamp: random.stamp(edition) };
    }
    let length = if random.one_in(12) { random.below(300) } else { random.below(20) };
    random.value(edition, length)
}

#[derive(Clone, PartialEq, Eq, Debug)]
pub enum Change {
    Put { key: Vec<u8>, value: Value<Vec<u8>> },
    Replace { key: Vec<u8>, value: Value<Vec<u8>> },
    Erase { key: Vec<u8> },
}

impl Change {
    pub fn key(&self) -> &[u8] {
        match self {
            Change::Put { key, .. } | Change::Replace { key, .. } | Change::Erase { key } => key,
        }
    }
}

/// A change that meets a node of some kind in the tree: a put of a new key, or
/// a replacement or an erase of one that is there.
pub fn aimed(edition: Edition, random: &mut Random, tree: &Option<Rc<Tree>>) -> Change {
    let Some(tree) = tree else {
        let key = extended(edition, random, Vec::new());
        return Change::Put { key, value: small_value(edition, random) };
    };
    match at_some_node(edition, random, tree) {
        Change::Put { key, value } if holds(tree, &key) => Change::Replace { key, value },
        change => change,
    }
}

fn holds(tree: &Tree, key: &[u8]) -> bool {
    let mut held = false;
    tree.each(&mut |node| held |= leaf_key(node).is_some_and(|there| **there == *key));
    held
}

fn at_some_node(edition: Edition, random: &mut Random, tree: &Rc<Tree>) -> Change {
    let mut nodes = Vec::new();
    with_paths(tree, &mut Vec::new(), &mut nodes);
    if random.one_in(5) {
        let keys: Vec<(Kind, &Rc<[u8]>)> = nodes.iter().filter_map(|n| collapsing(n.1)).collect();
        let inner: Vec<(Kind, &Rc<[u8]>)> =
            keys.iter().filter(|(left, _)| left.is_inner()).copied().collect();
        let keys = if inner.is_empty() || random.one_in(3) { keys } else { inner };
        if !keys.is_empty() {
            return Change::Erase { key: random.pick(&keys).1.to_vec() };
        }
    }
    let kinds: Vec<Kind> =
        Kind::ALL.into_iter().filter(|kind| nodes.iter().any(|n| n.1.kind() == *kind)).collect();
    let kind = *random.pick(&kinds);
    let mut of_kind: Vec<&(Vec<u8>, &Tree)> = nodes.iter().filter(|n| n.1.kind() == kind).collect();
    if random.one_in(2) && of_kind.iter().any(|n| at_a_mark(n.1)) {
        of_kind.retain(|n| at_a_mark(n.1));
    }
    let (path, node) = random.pick(&of_kind);
    match node {
        Tree::Leaf { key, value } => at_leaf(edition, random, path, key, value.given()),
        Tree::Prefix { bytes, .. } => {
            let matched = cut_at(random, bytes.len());
            parting(edition, random, [path, &bytes[..matched]].concat(), &[bytes[matched]])
        }
        Tree::Inner { children, .. } => {
            let leaves: Vec<&Rc<[u8]>> =
                children.values().filter_map(|child| leaf_key(child)).collect();
            if !leaves.is_empty() && random.one_in(2) {
                return Change::Erase { key: random.pick(&leaves).to_vec() };
            }
            let there: Vec<u8> = children.keys().copied().collect();
            parting(edition, random, path.clone(), &there)
        }
    }
}

/// A byte of a shared beginning, of a chain often one about the end of a Prefix.
fn cut_at(random: &mut Random, bytes: usize) -> usize {
    let about: Vec<usize> = cuts(bytes).collect();
    if bytes > LONGEST_PREFIX && random.one_in(2) {
        *random.pick(&about)
    } else {
        random.below(bytes)
    }
}

/// The first and the last byte of a shared beginning, and those about the ends of
/// the Prefixes that it takes.
pub fn cuts(bytes: usize) -> impl Iterator<Item = usize> {
    let about = |at: &usize| [0, 1, LONGEST_PREFIX - 1].contains(&(at % LONGEST_PREFIX));
    (0..bytes).filter(move |at| about(at) || at + 1 == bytes)
}

/// For a Node4 with a Leaf and one child more: that child's kind, and the key
/// whose erase leaves it alone there.
fn collapsing(tree: &Tree) -> Option<(Kind, &Rc<[u8]>)> {
    let Tree::Inner { children, .. } = tree else {
        return None;
    };
    let (first, last) = (children.values().next()?, children.values().last()?);
    let (leaf, other) = if leaf_key(first).is_some() { (first, last) } else { (last, first) };
    (children.len() == 2).then_some((other.kind(), leaf_key(leaf)?))
}

/// The next child more or less makes it another kind.
fn at_a_mark(tree: &Tree) -> bool {
    match tree {
        Tree::Inner { kind, children, .. } => {
            let allowed = kind.children_allowed();
            [allowed.start(), allowed.end()].contains(&&children.len())
        }
        _ => false,
    }
}

fn leaf_key(tree: &Tree) -> Option<&Rc<[u8]>> {
    match tree {
        Tree::Leaf { key, .. } => Some(key),
        _ => None,
    }
}

fn with_paths<'a>(tree: &'a Tree, path: &mut Vec<u8>, found: &mut Vec<(Vec<u8>, &'a Tree)>) {
    found.push((path.clone(), tree));
    let depth = path.len();
    match tree {
        Tree::Leaf { .. } => {}
        Tree::Prefix { bytes, below } => {
            path.extend_from_slice(bytes);
            with_paths(below, path, found);
        }
        Tree::Inner { children, .. } => {
            for (byte, child) in children {
                path.push(*byte);
                with_paths(child, path, found);
                path.truncate(depth);
            }
        }
    }
    path.truncate(depth);
}

fn at_leaf(edition: Edition, random: &mut Random, path: &[u8], key: &[u8], value: Given) -> Change {
    let string = edition.walked(key);
    let long = value.bytes.len();
    match random.below(6) {
        0 => Change::Erase { key: key.to_vec() },
        1 if edition == Edition::Two && random.one_in(2) => {
            let stamp = random.stamp(edition);
            Change::Replace { key: key.to_vec(), value: Value { stamp, ..value.owned() } }
        }
        1 => Change::Replace { key: key.to_vec(), value: random.value(edition, long) },
        2 => {
            // Another length, most often with the same rounded size.
            let length = if long == 0 { 1 } else { long - 1 };
            Change::Replace { key: key.to_vec(), value: random.value(edition, length) }
        }
        3 => Change::Replace { key: key.to_vec(), value: small_value(edition, random) },
        _ if path.len() == string.len() => Change::Erase { key: key.to_vec() },
        _ => {
            let shared = random.from_to(path.len(), string.len() - 1);
            parting(edition, random, string[..shared].to_vec(), &[string[shared]])
        }
    }
}

/// A put of a key whose walked string goes with `start` and then with none of
/// `there`; if no legal one does, of some key that goes with `start`.
fn parting(edition: Edition, random: &mut Random, start: Vec<u8>, there: &[u8]) -> Change {
    let key = match leaving(edition, random, &start, there) {
        Some(key) => key,
        None => Begun::new(edition, &start).some_key(random),
    };
    Change::Put { key, value: small_value(edition, random) }
}

/// A key whose walked string goes with `start` and then with none of `there`, if
/// there is one.
pub fn leaving(
    edition: Edition,
    random: &mut Random,
    start: &[u8],
    there: &[u8],
) -> Option<Vec<u8>> {
    let mut bytes = Begun::new(edition, start).next_bytes();
    bytes.retain(|byte| !there.contains(byte));
    let byte = (!bytes.is_empty()).then(|| *random.pick(&bytes))?;
    Some(Begun::new(edition, &[start, &[byte]].concat()).some_key(random))
}

/// A Node4 at the end of a path, with two Leaves.
pub fn fork(edition: Edition, random: &mut Random, path: &[u8]) -> Rc<Tree> {
    let mut bytes = Begun::new(edition, path).next_bytes();
    random.shuffle(&mut bytes);
    let children = bytes.into_iter().take(2).map(|byte| {
        let begun = Begun::new(edition, &[path, &[byte]].concat());
        (byte, Rc::new(leaf(random, begun)))
    });
    Rc::new(slotless::inner(Kind::Node4, children.collect()))
}
