//! Named damages of frames of either edition, each aimed at one rule of "A good
//! frame".
//!
//! Believed here: for each damage, the number every call must give, the rule
//! it breaks, and mostly that it breaks no other. In edition 2 one that meets a
//! stamp breaks none. A damage that breaks one
//! rule alone shows a check that lacks just this rule; so the book-keeping
//! around it (lists, X, R, zeros in what is freed) is made right again where it
//! has to be. The number of the packing that takes the old rule is another one
//! where only rules of Q-3 are broken.

use crate::check::{self, Rule};
use crate::crafted::{build, Spare};
use crate::layout::*;
use crate::random::Random;
use crate::slotless::{inner, ByKind, Tree};
use crate::store::{
    self, body_at, children, release, take, write_chain, write_inner, write_prefix, Chain,
    LeafFields,
};
use crate::unused::soiled;
use crate::value::Value;
use std::collections::BTreeMap;
use std::ops::Range;
use std::rc::Rc;
use std::sync::OnceLock;

pub struct Damage {
    pub name: String,
    pub bytes: Vec<u8>,
    pub aim: Aim,
}

#[derive(Clone, Copy, PartialEq, Eq, Debug)]
pub enum Aim {
    /// Gives 1.
    Lengths,
    /// Gives 2 for this rule and no other.
    Alone(Rule),
    /// Gives 2 for this rule, and others break with it.
    Among(Rule),
    /// Gives 0: a good frame, in which the record of this key has another stamp.
    Stamp(&'static [u8]),
}

impl Damage {
    pub fn number(&self) -> u32 {
        match self.aim {
            Aim::Lengths => number::LENGTHS,
            Aim::Alone(_) | Aim::Among(_) => number::NOT_GOOD,
            Aim::Stamp(_) => number::DONE,
        }
    }
}

const DEAD: usize = 200;
const LAYOUT_SEED: u64 = 20;
/// The largest number of two and of four bytes.
const MOST_16: usize = u16::MAX as usize;
const MOST_32: usize = u32::MAX as usize;
const MOST_UNITS: usize = OFFSET_MASK as usize;

/// A value that a key which is too long can be made of.
fn long_value(edition: Edition) -> usize {
    match edition {
        Edition::One => 150,
        Edition::Two => 300,
    }
}

fn spare(edition: Edition) -> Spare {
    match edition {
        Edition::One => Spare { slots: 4, bytes: 512 },
        Edition::Two => Spare { slots: 10, bytes: 2_048 },
    }
}

/// The stamp of every record in edition 2: no two bytes are alike, and none is 0.
const STAMP: u64 = 0x0102_0304_0506_0708;

fn leaf(edition: Edition, key: &[u8], value: &[u8]) -> Rc<Tree> {
    let value = Value::stamped(edition, value.into(), STAMP);
    Rc::new(Tree::Leaf { key: key.into(), value })
}

/// An inner node at `path` whose children are Leaves: one for the path itself, and
/// one for each of these bytes behind it.
fn leaves(
    edition: Edition,
    kind: Kind,
    path: &[u8],
    bytes: impl IntoIterator<Item = u8>,
) -> Rc<Tree> {
    let one = |byte: u8| (byte, leaf(edition, &[path, &[byte]].concat(), b"v"));
    let mut children = BTreeMap::from([(END_BYTE, leaf(edition, path, b"v"))]);
    children.extend(bytes.into_iter().map(one));
    Rc::new(inner(kind, children))
}

/// In edition 2, under "g": a shared beginning that two full Prefixes and one of
/// one byte take. A byte 0 of the keys ends the second, with the 255 behind it.
const CHAIN: [u8; 225] = {
    let mut bytes = [b'u'; 225];
    bytes[222] = 0;
    bytes[223] = ESCAPE;
    bytes
};

/// The keys below it.
fn chained_key(last: u8) -> Vec<u8> {
    let key =
        |part: &[u8]| part.iter().copied().filter(|byte| *byte != ESCAPE).collect::<Vec<u8>>();
    [b"g", &key(&CHAIN)[..], &[last]].concat()
}

/// All kinds, live and freed: Node16 at the root and under "h", a Prefix over
/// a Node4 under "b", Node48 under "c", Node256 under "d", Node4 under "e".
fn full_tree(edition: Edition) -> Rc<Tree> {
    let below = leaves(edition, Kind::Node4, b"bxyz", [b'm']);
    let mut children = BTreeMap::from([
        (b'a', leaf(edition, b"apple", b"red")),
        (b'b', Rc::new(Tree::Prefix { bytes: b"xyz".to_vec(), below })),
        (b'c', leaves(edition, Kind::Node48, b"c", b'A'..=b'L')),
        (b'd', leaves(edition, Kind::Node256, b"d", 100..=136)),
        (b'e', leaves(edition, Kind::Node4, b"e", [b'a', b'b'])),
        (b'f', leaf(edition, b"f", &vec![b'v'; long_value(edition)])),
        (b'h', leaves(edition, Kind::Node16, b"h", [b'a', b'b', b'c'])),
    ]);
    if edition == Edition::Two {
        let ends = [b'a', b'b'].map(|byte| (byte, leaf(edition, &chained_key(byte), b"v")));
        let below = Rc::new(inner(Kind::Node4, BTreeMap::from(ends)));
        children.insert(b'g', Rc::new(Tree::Prefix { bytes: CHAIN.to_vec(), below }));
    }
    Rc::new(inner(Kind::Node16, children))
}

/// A frame under the knife.
struct Specimen {
    edition: Edition,
    bytes: Vec<u8>,
}

impl Specimen {
    fn of(edition: Edition, tree: Option<Rc<Tree>>) -> Specimen {
        let mut lists = ByKind::default();
        for kind in Kind::ALL {
            lists[kind.number()] = 2;
        }
        let random = &mut Random::new(LAYOUT_SEED);
        let (bytes, _) = build(edition, random, &tree, &lists, DEAD, spare(edition));
        Specimen { edition, bytes }
    }

    /// Not yet formatted.
    fn blank(edition: Edition, length: usize) -> Specimen {
        Specimen { edition, bytes: vec![0; length] }
    }

    fn reading(&self) -> check::Reading {
        check::read(self.edition, &self.bytes).expect("the lengths agree")
    }

    fn walked(&self, key: &[u8]) -> Vec<u8> {
        self.edition.walked(key)
    }

    fn get(&self, at: usize) -> usize {
        get32(&self.bytes, at)
    }

    fn set(&mut self, at: usize, value: usize) {
        set32(&mut self.bytes, at, value);
    }

    fn add(&mut self, at: usize, value: usize) {
        self.set(at, self.get(at) + value);
    }

    fn subtract(&mut self, at: usize, value: usize) {
        self.set(at, self.get(at) - value);
    }

    /// The lowest node of this kind on the way to a key.
    fn node(&self, key: &[u8], kind: Kind) -> usize {
        let steps = store::walk(&self.bytes, &self.walked(key));
        steps.iter().rfind(|step| step.kind == kind).expect("such a node is on the way").slot
    }

    fn body(&self, key: &[u8], kind: Kind) -> usize {
        body_at(&self.bytes, self.node(key, kind))
    }

    fn list(&self, kind: Kind) -> Vec<usize> {
        self.reading().lists[kind.number()].clone()
    }

    fn set_head(&mut self, kind_number: usize, slot: usize) {
        set16(&mut self.bytes, list_head_at(kind_number), slot);
    }

    fn set_high_bits(&mut self, slot: usize, high: usize) {
        let (offset, _) = get_entry(&self.bytes, slot);
        set_entry(&mut self.bytes, slot, offset, high);
    }

    fn set_offset(&mut self, slot: usize, offset: usize) {
        let (_, high) = get_entry(&self.bytes, slot);
        set_entry(&mut self.bytes, slot, offset, high);
    }

    /// Frees a Leaf with all that belongs to it, but leaves its parent alone.
    fn free_leaf(&mut self, key: &[u8]) {
        let slot = self.node(key, Kind::Leaf);
        let fields = store::leaf_fields(&self.bytes, slot);
        release(&mut self.bytes, slot, Kind::Leaf);
        store::retire(&mut self.bytes, &fields);
        self.subtract(AT_R, 1);
    }

    /// Zero where a key's extent stood, which is named elsewhere now.
    fn wipe_extent(&mut self, key: &[u8]) {
        let extent = store::leaf_fields(&self.bytes, self.node(key, Kind::Leaf)).bytes();
        self.bytes[extent].fill(0);
    }

    /// Takes a Leaf out, and lets its parent stand as it is.
    fn take_out(&mut self, key: &[u8]) {
        let string = self.walked(key);
        let steps = store::walk(&self.bytes, &string);
        let [.., parent, leaf] = &steps[..] else {
            panic!("a Leaf under an inner node");
        };
        let (slot, byte) = (parent.slot, string[leaf.depth - 1]);
        self.free_leaf(key);
        store::remove_child(&mut self.bytes, slot, byte);
    }

    /// The place in the frame of the field that leads to this key's Leaf.
    fn field_to(&self, key: &[u8]) -> usize {
        let steps = store::walk(&self.bytes, &self.walked(key));
        match steps[steps.len() - 1].link {
            store::Link::Child(at) => at,
            store::Link::Root => AT_ROOT,
        }
    }

    /// Puts a Prefix above the slot that a child field names.
    fn insert_prefix(&mut self, field: usize, bytes: &[u8]) -> usize {
        let prefix = take(&mut self.bytes, Kind::Prefix);
        let below = self.get(field);
        write_prefix(&mut self.bytes, prefix, bytes, below);
        self.set(field, prefix);
        prefix
    }

    /// A formatted frame with so many bodies given out, the first the root.
    fn chain(&mut self, kind: Kind, bodies: usize) -> Vec<usize> {
        store::format(self.edition, &mut self.bytes, LONGEST_FRAME, MOST_SLOTS);
        release(&mut self.bytes, 1, Kind::EmptyRoot);
        let slots: Vec<usize> = (0..bodies).map(|_| take(&mut self.bytes, kind)).collect();
        set16(&mut self.bytes, AT_ROOT, slots[0]);
        slots
    }

    /// The first Prefix of the chain under "g".
    fn chain_top(&self) -> usize {
        let steps = store::walk(&self.bytes, &self.walked(&chained_key(b'a')));
        steps.iter().find(|step| step.kind == Kind::Prefix).expect("a chain is on the way").slot
    }

    /// The keys below that chain without the byte that its last Prefix has.
    fn shorten_chained_keys(&mut self) {
        for last in [b'a', b'b'] {
            let node = store::chain(&self.bytes, self.chain_top()).below;
            let (_, slot) = children(&self.bytes, node)
                .into_iter()
                .find(|(byte, _)| *byte == last)
                .expect("a Leaf for each");
            let old = chained_key(last);
            let key = [&old[..old.len() - 2], &[last]].concat();
            let fields = store::leaf_fields(&self.bytes, slot);
            store::retire(&mut self.bytes, &fields);
            let new = store::new_extent(&mut self.bytes, &key, Value::plain(b"v"));
            store::write_leaf(&mut self.bytes, slot, &new);
        }
    }

    /// A dead part of so many bytes.
    fn dead_part(&self, size: usize) -> Range<usize> {
        let reading = self.reading();
        let mut used: Vec<Range<usize>> = reading.extents.values().cloned().collect();
        let mut body = |slot: usize, kind: Kind| {
            let at = body_at(&self.bytes, slot);
            used.push(at..at + kind.body_bytes());
        };
        reading.live.iter().for_each(|(slot, kind)| body(*slot, *kind));
        for kind in Kind::ALL {
            reading.lists[kind.number()].iter().for_each(|slot| body(*slot, kind));
        }
        (self.get(AT_D)..self.get(AT_B) - size)
            .step_by(UNIT)
            .map(|at| at..at + size)
            .find(|part| used.iter().all(|u| u.end <= part.start || part.end <= u.start))
            .expect("there is a dead part of this size")
    }
}

/// A number that depends on the frame.
type Figure = fn(&Specimen) -> usize;

struct Workshop {
    edition: Edition,
    full_frame: Vec<u8>,
    empty_frame: Vec<u8>,
    damages: Vec<Damage>,
}

impl Workshop {
    fn damage(&mut self, aim: Aim, name: &str, specimen: Specimen) {
        self.damages.push(Damage { name: name.to_string(), bytes: specimen.bytes, aim });
    }

    /// A damage of the frame with all kinds.
    fn full(&mut self, aim: Aim, name: &str, hurt: impl FnOnce(&mut Specimen)) {
        let mut specimen = Specimen { edition: self.edition, bytes: self.full_frame.clone() };
        hurt(&mut specimen);
        self.damage(aim, name, specimen);
    }

    /// A damage of the frame without records.
    fn empty(&mut self, aim: Aim, name: &str, hurt: impl FnOnce(&mut Specimen)) {
        let mut specimen = Specimen { edition: self.edition, bytes: self.empty_frame.clone() };
        hurt(&mut specimen);
        self.damage(aim, name, specimen);
    }
}

/// The frames that the damages start from; both are good.
pub fn undamaged(edition: Edition) -> [Vec<u8>; 2] {
    [Some(full_tree(edition)), None].map(|tree| Specimen::of(edition, tree).bytes)
}

/// All damages of frames of an edition, made once.
pub fn all(edition: Edition) -> &'static [Damage] {
    static ALL: [OnceLock<Vec<Damage>>; 2] = [OnceLock::new(), OnceLock::new()];
    let made = match edition {
        Edition::One => &ALL[0],
        Edition::Two => &ALL[1],
    };
    made.get_or_init(|| make_all(edition))
}

fn make_all(edition: Edition) -> Vec<Damage> {
    let [full_frame, empty_frame] = undamaged(edition);
    let mut shop = Workshop { edition, full_frame, empty_frame, damages: Vec::new() };
    lengths(&mut shop);
    header(&mut shop);
    lists(&mut shop);
    slots(&mut shop);
    places(&mut shop);
    inner_nodes(&mut shop);
    zeros(&mut shop);
    leaf_ends(&mut shop);
    single_prefixes(&mut shop);
    leaf_keys(&mut shop);
    if edition == Edition::Two {
        chains(&mut shop);
    }
    records(&mut shop);
    unwiped(&mut shop);
    shop.damages
}

fn lengths(shop: &mut Workshop) {
    let cut = |length: usize| move |s: &mut Specimen| s.bytes.resize(length, 0);
    for length in [0, 1, 4, 7, 8, 63, 64, 1_016, 1_023] {
        let name = format!("a slice of {length} bytes");
        shop.full(Aim::Lengths, &name, cut(length));
    }
    shop.full(Aim::Lengths, "the last unit missing", |s| {
        s.bytes.truncate(s.bytes.len() - UNIT);
    });
    shop.full(Aim::Lengths, "one byte more", |s| s.bytes.push(0));
    shop.full(Aim::Lengths, "one unit more", |s| s.bytes.extend([0; UNIT]));
    shop.full(Aim::Lengths, "no length divisible by 8, stored alike", |s| {
        s.bytes.extend([0; 4]);
        s.add(AT_F, 4);
    });
    shop.full(Aim::Lengths, "one unit above the longest frame, stored alike", |s| {
        s.bytes.resize(LONGEST_FRAME + UNIT, 0);
        s.set(AT_F, LONGEST_FRAME + UNIT);
    });
    shop.full(Aim::Lengths, "one unit below the shortest frame, stored alike", |s| {
        s.bytes.truncate(SHORTEST_FRAME - UNIT);
        s.set(AT_F, SHORTEST_FRAME - UNIT);
    });
    shop.full(Aim::Lengths, "stored F 0", |s| s.set(AT_F, 0));
    shop.full(Aim::Lengths, "stored F one unit more", |s| s.add(AT_F, UNIT));
    shop.full(Aim::Lengths, "stored F one unit less", |s| s.subtract(AT_F, UNIT));
    shop.full(Aim::Lengths, "stored F with its highest bit", |s| s.bytes[AT_F + 3] |= 0x80);
    shop.full(Aim::Lengths, "stored F wrong and edition wrong", |s| {
        s.add(AT_F, UNIT);
        s.set(AT_EDITION, 0);
    });
}

fn header(shop: &mut Workshop) {
    let (right, other) = (shop.edition.number(), shop.edition.other().number());
    for edition in [0, other, 3, 256 + right, (1 << 24) + right, MOST_32] {
        let name = format!("edition {edition}");
        shop.full(Aim::Alone(Rule::Edition), &name, |s| s.set(AT_EDITION, edition));
    }
    for n in [0, 1, 2, 6, 7, 10_241, 10_242, 65_544, (1 << 30) + 8, MOST_32 - 1, MOST_32] {
        let name = format!("N {n}, D to match where it can");
        shop.full(Aim::Alone(Rule::SlotCapacity), &name, |s| {
            s.set(AT_N, n);
            if n <= MOST_SLOTS {
                s.set(AT_D, data_start(n));
            }
        });
    }
    shop.full(Aim::Alone(Rule::SlotCapacity), "N odd, D to match", |s| {
        s.add(AT_N, 1);
        s.add(AT_D, ENTRY_BYTES);
    });
    shop.full(Aim::Among(Rule::EntriesAboveU), "N two more, D to match", |s| {
        s.add(AT_N, 2);
        s.add(AT_D, UNIT);
    });
    shop.full(Aim::Alone(Rule::Sum), "N two less, D to match", |s| {
        s.subtract(AT_N, 2);
        s.subtract(AT_D, UNIT);
    });
    shop.full(Aim::Alone(Rule::DataStart), "D one unit more", |s| s.add(AT_D, UNIT));
    shop.full(Aim::Alone(Rule::DataStart), "D one unit less", |s| s.subtract(AT_D, UNIT));
    shop.full(Aim::Alone(Rule::DataStart), "D 0", |s| s.set(AT_D, 0));
    shop.full(Aim::Alone(Rule::DataStart), "D one byte more", |s| s.add(AT_D, 1));
    shop.full(Aim::Alone(Rule::DataStart), "D with its highest bit", |s| {
        s.bytes[AT_D + 3] |= 0x80;
    });
    shop.full(Aim::Among(Rule::DataStart), "N two less without D", |s| s.subtract(AT_N, 2));
    for n in [240, 242, 10_240] {
        let name = format!("D + 8 above F with N {n} in 1,024 bytes");
        shop.empty(Aim::Alone(Rule::DataFits), &name, |s| {
            s.bytes.truncate(SHORTEST_FRAME);
            s.set(AT_F, SHORTEST_FRAME);
            s.set(AT_N, n);
            s.set(AT_D, data_start(n));
        });
    }
    let b_rule = Aim::Alone(Rule::FirstByteNeverGiven);
    shop.full(b_rule, "B at D", |s| s.set(AT_B, s.get(AT_D)));
    shop.full(b_rule, "B 0", |s| s.set(AT_B, 0));
    shop.full(b_rule, "B four bytes more", |s| s.add(AT_B, 4));
    shop.full(b_rule, "B one byte less", |s| s.subtract(AT_B, 1));
    shop.full(b_rule, "B one unit above F", |s| s.set(AT_B, s.bytes.len() + UNIT));
    shop.full(b_rule, "B the largest number", |s| s.set(AT_B, MOST_32 - 7));
    shop.full(Aim::Alone(Rule::Sum), "B one unit more", |s| s.add(AT_B, UNIT));
    shop.full(Aim::Among(Rule::Sum), "B one unit less", |s| s.subtract(AT_B, UNIT));
    let u_rule = Aim::Alone(Rule::SlotsGiven);
    shop.full(u_rule, "U 0", |s| s.set(AT_U, 0));
    shop.full(u_rule, "U one above N", |s| s.set(AT_U, s.get(AT_N) + 1));
    shop.full(u_rule, "U the largest number", |s| s.set(AT_U, MOST_32));
    shop.full(u_rule, "U with bit 16", |s| s.add(AT_U, 1 << 16));
    shop.full(Aim::Alone(Rule::NoneLost), "U one more", |s| s.add(AT_U, 1));
    shop.full(Aim::Among(Rule::EntriesAboveU), "U one less", |s| s.subtract(AT_U, 1));
    for at in HEADER_ZERO {
        let name = format!("header byte {at} set");
        shop.full(Aim::Alone(Rule::HeaderZero), &name, |s| s.bytes[at] = 1);
    }
    shop.full(Aim::Alone(Rule::EntriesAboveU), "the entry after U set", |s| {
        let at = entry_at(s.get(AT_U) + 1);
        s.bytes[at] = 1;
    });
    shop.full(Aim::Alone(Rule::EntriesAboveU), "the last byte before D set", |s| {
        let at = s.get(AT_D) - 1;
        s.bytes[at] = 0x80;
    });
    for x in [0, MOST_32, MOST_32 - 7] {
        let name = format!("X {x}");
        shop.full(Aim::Alone(Rule::Sum), &name, |s| s.set(AT_X, x));
    }
    shop.full(Aim::Alone(Rule::Sum), "X one unit more", |s| s.add(AT_X, UNIT));
    shop.full(Aim::Alone(Rule::Sum), "X one unit less", |s| s.subtract(AT_X, UNIT));
    shop.full(Aim::Alone(Rule::Sum), "X one byte more", |s| s.add(AT_X, 1));
    shop.full(Aim::Alone(Rule::Sum), "X with bit 31", |s| s.bytes[AT_X + 3] |= 0x80);
}

fn lists(shop: &mut Workshop) {
    shop.full(Aim::Alone(Rule::ListThree), "list 3 names a live slot", |s| {
        s.set_head(LEFT_OUT_KIND, 1);
    });
    shop.full(Aim::Alone(Rule::ListThree), "list 3 shares a freed slot", |s| {
        let slot = s.list(Kind::Leaf)[0];
        s.set_head(LEFT_OUT_KIND, slot);
    });
    shop.full(Aim::Alone(Rule::ListThree), "list 3 names no slot", |s| {
        s.set_head(LEFT_OUT_KIND, MOST_16);
    });
    for kind in Kind::ALL {
        let end = move |s: &Specimen| *s.list(kind).last().expect("two on each list");
        let name = format!("the {kind:?} list ends in a slot above U");
        shop.full(Aim::Alone(Rule::ListedSlot), &name, move |s| {
            s.set_high_bits(end(s), s.get(AT_U) + 1);
        });
        let name = format!("the {kind:?} list runs in a ring");
        shop.full(Aim::Alone(Rule::ListedOnce), &name, move |s| {
            s.set_high_bits(end(s), s.list(kind)[0]);
        });
        let name = format!("the {kind:?} list ends in itself");
        shop.full(Aim::Alone(Rule::ListedOnce), &name, move |s| {
            s.set_high_bits(end(s), end(s));
        });
        let name = format!("the {kind:?} list lacks its first slot");
        shop.full(Aim::Alone(Rule::NoneLost), &name, move |s| {
            s.set_head(kind.number(), s.list(kind)[1]);
            s.add(AT_X, kind.body_bytes());
        });
    }
    shop.full(Aim::Alone(Rule::ListedSlot), "a link of 15 bits", |s| {
        let end = s.list(Kind::Leaf)[1];
        s.set_high_bits(end, (1 << 15) - 1);
    });
    shop.full(Aim::Among(Rule::ListedSlot), "a list head above U", |s| {
        s.set_head(Kind::Leaf.number(), MOST_16);
    });
    shop.full(Aim::Among(Rule::ListedOnce), "two lists share their end", |s| {
        let (end, first) = (s.list(Kind::Leaf)[1], s.list(Kind::Node4)[1]);
        s.set_high_bits(end, first);
    });
    shop.full(Aim::Among(Rule::ListedOnce), "two lists with one head", |s| {
        let slot = s.list(Kind::Leaf)[0];
        s.set_head(Kind::EmptyRoot.number(), slot);
    });
    shop.full(Aim::Among(Rule::LiveOrListed), "a list ends in a live Leaf", |s| {
        let (end, live) = (s.list(Kind::Leaf)[1], s.node(b"apple", Kind::Leaf));
        s.set_high_bits(end, live);
    });
    // The root's kind reads as a link to slot 8, which heads the rest of list 8.
    let mut specimen = Specimen::blank(shop.edition, SHORTEST_FRAME);
    store::format(shop.edition, &mut specimen.bytes, SHORTEST_FRAME, FEWEST_SLOTS);
    let freed: Vec<usize> =
        (2..=FEWEST_SLOTS).map(|_| take(&mut specimen.bytes, Kind::EmptyRoot)).collect();
    for slot in freed {
        release(&mut specimen.bytes, slot, Kind::EmptyRoot);
    }
    let root = get16(&specimen.bytes, AT_ROOT);
    specimen.set_head(Kind::EmptyRoot.number(), root);
    shop.damage(Aim::Alone(Rule::LiveOrListed), "the root heads list 8", specimen);
    shop.full(Aim::Alone(Rule::Overlap), "a freed Leaf on the list of Prefixes", |s| {
        let (leaves, prefixes) = (s.list(Kind::Leaf), s.list(Kind::Prefix));
        s.set_head(Kind::Leaf.number(), leaves[1]);
        s.set_high_bits(leaves[0], prefixes[0]);
        s.set_head(Kind::Prefix.number(), leaves[0]);
        s.subtract(AT_X, Kind::Prefix.body_bytes() - Kind::Leaf.body_bytes());
    });
    shop.full(Aim::Alone(Rule::Sum), "a freed Leaf on the list of EmptyRoots", |s| {
        let (leaves, roots) = (s.list(Kind::Leaf), s.list(Kind::EmptyRoot));
        s.set_head(Kind::Leaf.number(), leaves[1]);
        s.set_high_bits(leaves[0], roots[0]);
        s.set_head(Kind::EmptyRoot.number(), leaves[0]);
    });
}

fn slots(shop: &mut Workshop) {
    for (name, root) in [("root slot 0", 0), ("root slot the largest number", MOST_16)] {
        shop.full(Aim::Among(Rule::RootSlot), name, |s| set16(&mut s.bytes, AT_ROOT, root));
        shop.empty(Aim::Alone(Rule::RootSlot), &format!("{name}, all freed"), |s| {
            let slot = get16(&s.bytes, AT_ROOT);
            release(&mut s.bytes, slot, Kind::EmptyRoot);
            set16(&mut s.bytes, AT_ROOT, root);
        });
    }
    shop.full(Aim::Among(Rule::RootSlot), "root slot above U", |s| {
        let above = s.get(AT_U) + 1;
        set16(&mut s.bytes, AT_ROOT, above);
    });
    shop.full(Aim::Among(Rule::NoneLost), "the root a node lower", |s| {
        let lower = s.node(b"e", Kind::Node4);
        set16(&mut s.bytes, AT_ROOT, lower);
    });
    shop.full(Aim::Among(Rule::NoneLost), "the root a freed slot", |s| {
        let freed = s.list(Kind::Node4)[0];
        set16(&mut s.bytes, AT_ROOT, freed);
    });
    let no_slots: [(&str, Figure); 4] = [
        ("0", |_| 0),
        ("above U", |s| s.get(AT_U) + 1),
        ("the largest number", |_| MOST_32),
        ("with bit 31", |_| (1 << 31) + 1),
    ];
    for (what, slot) in no_slots {
        for (parent, key) in [("Node4", &b"eb"[..]), ("Node16", b"hb"), ("Node48", b"cC")] {
            let name = format!("a child of a {parent} {what}");
            shop.full(Aim::Alone(Rule::ChildSlot), &name, |s| {
                let field = s.field_to(key);
                s.free_leaf(key);
                s.set(field, slot(s));
            });
        }
        // In a Node256 a child 0 is no child, and no damage.
        if what != "0" {
            let name = format!("a child of a Node256 {what}");
            shop.full(Aim::Alone(Rule::ChildSlot), &name, |s| {
                let field = s.field_to(b"d\x64");
                s.free_leaf(b"d\x64");
                s.set(field, slot(s));
            });
        }
        let name = format!("a Prefix's child {what}");
        shop.full(Aim::Among(Rule::ChildSlot), &name, |s| {
            let prefix = s.body(b"bxyzm", Kind::Prefix);
            s.set(prefix + PREFIX_CHILD, slot(s));
        });
    }
    for (parent, key) in [("Node4", &b"eb"[..]), ("Node256", b"d\x65")] {
        let name = format!("a right child of a {parent} with bit 16");
        shop.full(Aim::Among(Rule::ChildSlot), &name, |s| {
            let field = s.field_to(key);
            s.add(field, 1 << 16);
        });
    }
    shop.full(Aim::Alone(Rule::ReachedOnce), "one Leaf under two bytes", |s| {
        let (one, other) = (s.field_to(b"ea"), s.field_to(b"eb"));
        let slot = s.get(one);
        s.free_leaf(b"eb");
        s.set(other, slot);
    });
    shop.full(Aim::Alone(Rule::ReachedOnce), "a child that is its own parent", |s| {
        let field = s.field_to(b"eb");
        s.free_leaf(b"eb");
        s.set(field, s.node(b"ea", Kind::Node4));
    });
    shop.full(Aim::Alone(Rule::ReachedOnce), "a child that is the root", |s| {
        let field = s.field_to(b"d\x64");
        s.free_leaf(b"d\x64");
        s.set(field, get16(&s.bytes, AT_ROOT));
    });
    for kind in [0, 3, 9, 15, 16 + 1, (1 << 15) - 1] {
        let name = format!("a live Leaf of kind {kind}");
        shop.full(Aim::Among(Rule::LiveKind), &name, |s| {
            s.set_high_bits(s.node(b"apple", Kind::Leaf), kind);
        });
        let name = format!("a root of kind {kind}");
        shop.full(Aim::Among(Rule::LiveKind), &name, |s| {
            s.set_high_bits(get16(&s.bytes, AT_ROOT), kind);
        });
    }
    shop.empty(Aim::Alone(Rule::LiveKind), "a freed root that links to no slot", |s| {
        let root = get16(&s.bytes, AT_ROOT);
        let list = s.list(Kind::EmptyRoot);
        s.set_high_bits(list[list.len() - 1], root);
        s.set_high_bits(root, 0);
    });
    shop.full(Aim::Among(Rule::Count), "a Node4 called a Node48", |s| {
        s.set_high_bits(s.node(b"e", Kind::Node4), Kind::Node48.number());
    });
    shop.full(Aim::Among(Rule::Sum), "a Node16 called a Node4", |s| {
        s.set_high_bits(s.node(b"h", Kind::Node16), Kind::Node4.number());
    });
}

fn places(shop: &mut Workshop) {
    let rule = Aim::Alone(Rule::BodyPlace);
    shop.full(rule, "a freed body just below D", |s| {
        s.set_offset(s.list(Kind::EmptyRoot)[0], s.get(AT_D) - UNIT);
    });
    shop.full(rule, "a freed body at the frame's start", |s| {
        s.set_offset(s.list(Kind::Node4)[0], 0);
    });
    shop.full(rule, "a freed body at B", |s| s.set_offset(s.list(Kind::Leaf)[0], s.get(AT_B)));
    shop.full(rule, "a freed body across B", |s| {
        s.set_offset(s.list(Kind::Node256)[0], s.get(AT_B) - UNIT);
    });
    shop.full(rule, "a freed body past the frame", |s| {
        s.set_offset(s.list(Kind::Leaf)[0], MOST_UNITS * UNIT);
    });
    shop.full(rule, "a freed body with bit 16 of its offset", |s| {
        let slot = s.list(Kind::Leaf)[0];
        s.set_offset(slot, body_at(&s.bytes, slot) + (1 << 16) * UNIT);
    });
    shop.full(rule, "a live Leaf's body past the frame, its record gone", |s| {
        let slot = s.node(b"apple", Kind::Leaf);
        let fields = store::leaf_fields(&s.bytes, slot);
        store::retire(&mut s.bytes, &fields);
        let body = body_at(&s.bytes, slot);
        s.bytes[body..body + Kind::Leaf.body_bytes()].fill(0);
        s.set_offset(slot, MOST_UNITS * UNIT);
    });
    shop.empty(rule, "the EmptyRoot's body below D", |s| {
        s.set_offset(get16(&s.bytes, AT_ROOT), 0);
    });
    shop.full(Aim::Among(Rule::BodyPlace), "the root's body at B", |s| {
        s.set_offset(get16(&s.bytes, AT_ROOT), s.get(AT_B));
    });
    shop.full(Aim::Among(Rule::BodyPlace), "the root's body past the frame", |s| {
        s.set_offset(get16(&s.bytes, AT_ROOT), MOST_UNITS * UNIT);
    });
    let places: [(&str, Figure); 6] = [
        ("at the frame's start", |_| 0),
        ("just below D", |s| s.get(AT_D) - UNIT),
        ("at B", |s| s.get(AT_B)),
        ("at F", |s| s.bytes.len()),
        ("at the largest number", |_| MOST_32 - 7),
        ("with bit 31", |s| s.get(AT_D) + (1 << 31)),
    ];
    for (what, place) in places {
        let name = format!("an extent {what}");
        shop.full(Aim::Alone(Rule::ExtentPlace), &name, |s| {
            let leaf = s.body(b"eb", Kind::Leaf);
            s.wipe_extent(b"eb");
            s.set(leaf + LEAF_EXTENT, place(s));
        });
    }
    shop.full(Aim::Alone(Rule::ExtentPlace), "an extent across B", |s| {
        let leaf = s.body(b"f", Kind::Leaf);
        s.wipe_extent(b"f");
        s.set(leaf + LEAF_EXTENT, s.get(AT_B) - UNIT);
    });
    shop.full(Aim::Among(Rule::Sum), "a value length 32,768 more", |s| {
        let leaf = s.body(b"eb", Kind::Leaf);
        s.bytes[leaf + LEAF_VALUE_LENGTH + 1] |= 0x80;
    });
    for shift in [1, 4, 7] {
        let name = format!("an extent {shift} bytes past a multiple of 8");
        shop.full(Aim::Alone(Rule::ExtentMultiple), &name, |s| {
            let body = s.body(b"eb", Kind::Leaf);
            let fields = store::leaf_fields(&s.bytes, s.node(b"eb", Kind::Leaf));
            let content = fields.extent..fields.extent + fields.key_length + fields.value_length;
            let to = s.dead_part(2 * UNIT).start + shift;
            s.bytes.copy_within(content, to);
            s.wipe_extent(b"eb");
            s.set(body + LEAF_EXTENT, to);
        });
    }
    let rule = Aim::Alone(Rule::Overlap);
    shop.full(rule, "two freed bodies in one place", |s| {
        let list = s.list(Kind::Leaf);
        s.set_offset(list[0], body_at(&s.bytes, list[1]));
    });
    shop.full(rule, "a freed body over the end of another", |s| {
        let (small, large) = (s.list(Kind::EmptyRoot)[0], s.list(Kind::Node256)[0]);
        s.set_offset(small, body_at(&s.bytes, large) + Kind::Node256.body_bytes() - UNIT);
    });
    shop.full(rule, "a freed body over a live body", |s| {
        s.set_offset(s.list(Kind::Leaf)[0], s.body(b"apple", Kind::Leaf));
    });
    shop.full(rule, "a freed body over a live extent", |s| {
        let extent = store::leaf_fields(&s.bytes, s.node(b"f", Kind::Leaf)).extent;
        s.set_offset(s.list(Kind::EmptyRoot)[0], extent + UNIT);
    });
    shop.full(rule, "an extent over a freed body", |s| {
        let body = s.body(b"eb", Kind::Leaf);
        let freed = body_at(&s.bytes, s.list(Kind::Node16)[0]);
        s.bytes[freed..freed + 3].copy_from_slice(b"ebv");
        s.wipe_extent(b"eb");
        s.set(body + LEAF_EXTENT, freed);
    });
    shop.full(rule, "an extent inside another's value", |s| {
        let body = s.body(b"eb", Kind::Leaf);
        let extent = store::leaf_fields(&s.bytes, s.node(b"f", Kind::Leaf)).extent + 2 * UNIT;
        s.bytes[extent..extent + 3].copy_from_slice(b"ebv");
        s.wipe_extent(b"eb");
        s.set(body + LEAF_EXTENT, extent);
    });
    shop.full(rule, "a freed body over the last unit of a live Leaf", |s| {
        let freed = s.list(Kind::Leaf)[0];
        let live = s.node(b"apple", Kind::Leaf);
        s.set_offset(freed, body_at(&s.bytes, live) + UNIT);
    });
}

fn inner_nodes(shop: &mut Workshop) {
    let rule = Aim::Alone(Rule::ChildrenAllowed);
    shop.full(rule, "a Node4 with one child", |s| {
        s.take_out(b"ea");
        s.take_out(b"eb");
    });
    shop.full(rule, "a Node4 with no child", |s| {
        for key in [&b"ea"[..], b"eb", b"e"] {
            s.take_out(key);
        }
    });
    shop.full(rule, "a Node16 with three children", |s| s.take_out(b"hb"));
    shop.full(rule, "a Node48 with twelve children", |s| s.take_out(b"cC"));
    shop.full(rule, "a Node256 with 37 children", |s| s.take_out(b"d\x66"));
    for (kind, key) in [
        (Kind::Node4, &b"e"[..]),
        (Kind::Node16, b"h"),
        (Kind::Node48, b"c"),
        (Kind::Node256, b"d"),
    ] {
        for count in [kind.most_children() + 1, 32_768, MOST_16] {
            let name = format!("a {kind:?} that counts {count}");
            shop.full(Aim::Among(Rule::ChildrenAllowed), &name, |s| {
                let body = s.body(key, kind);
                set16(&mut s.bytes, body + INNER_COUNT, count);
            });
        }
        for (what, change) in [("one more", 1), ("one less", -1)] {
            let by_itself = matches!(kind, Kind::Node48 | Kind::Node256);
            let aim = match (by_itself, change) {
                (true, _) => Aim::Alone(Rule::Count),
                (false, 1) => Aim::Among(Rule::ChildSlot),
                (false, _) => Aim::Among(Rule::UnusedChildren),
            };
            shop.full(aim, &format!("a {kind:?} that counts {what}"), |s| {
                let body = s.body(key, kind);
                let count = get16(&s.bytes, body + INNER_COUNT) as isize + change;
                set16(&mut s.bytes, body + INNER_COUNT, count as usize);
            });
        }
    }
    for (kind, key) in [(Kind::Node4, &b"e"[..]), (Kind::Node16, b"h")] {
        let name = format!("two children of a {kind:?} in falling order");
        shop.full(Aim::Alone(Rule::BytesAscend), &name, |s| {
            let body = s.body(key, kind);
            let bytes = body + kind.branch_bytes().expect("a row of bytes").start;
            s.bytes.swap(bytes + 1, bytes + 2);
            let (one, two) = (body + kind.child_at(1), body + kind.child_at(2));
            let (first, second) = (s.get(one), s.get(two));
            s.set(one, second);
            s.set(two, first);
        });
        let name = format!("one byte of a {kind:?} twice");
        shop.full(Aim::Alone(Rule::BytesAscend), &name, |s| {
            // Both Leaves hold the same key, so that the path is kept.
            let body = s.body(key, kind);
            let bytes = body + kind.branch_bytes().expect("a row of bytes").start;
            s.bytes[bytes + 2] = s.bytes[bytes + 1];
            let second = s.get(body + kind.child_at(2));
            let extent = store::leaf_fields(&s.bytes, second).extent;
            s.bytes[extent + key.len()] = s.bytes[bytes + 1];
        });
    }
    for place in [49, 50, 128, 255] {
        let name = format!("an index entry that names place {place}");
        shop.full(Aim::Alone(Rule::IndexPlace), &name, |s| {
            let body = s.body(b"c", Kind::Node48);
            s.bytes[body + NODE48_INDEX + usize::from(b'z')] = place;
        });
    }
    for (byte, aim) in [
        (b'z', Aim::Alone(Rule::IndexDistinct)),
        (u8::MAX, Aim::Alone(Rule::IndexDistinct)),
        (1, Aim::Among(Rule::IndexDistinct)),
    ] {
        let name = format!("index entry {byte} names a used place");
        shop.full(aim, &name, |s| {
            let body = s.body(b"c", Kind::Node48);
            let used = s.bytes[body + NODE48_INDEX + usize::from(b'C')];
            s.bytes[body + NODE48_INDEX + usize::from(byte)] = used;
        });
    }
    shop.full(Aim::Among(Rule::ChildSlot), "an index entry that names an empty place", |s| {
        let body = s.body(b"c", Kind::Node48);
        s.bytes[body + NODE48_INDEX + usize::from(b'z')] = 48;
    });
}

fn zeros(shop: &mut Workshop) {
    let live: [(Kind, &[u8]); 5] = [
        (Kind::Prefix, b"bxyz"),
        (Kind::Node4, b"e"),
        (Kind::Node16, b"h"),
        (Kind::Node48, b"c"),
        (Kind::Node256, b"d"),
    ];
    for (kind, key) in live {
        let zero = kind.zero_field(shop.edition).expect("only a Leaf can have none");
        for at in [zero.start, zero.end - 1] {
            let name = format!("byte {at} of a {kind:?} set");
            shop.full(Aim::Alone(Rule::ZeroField), &name, |s| {
                let body = s.body(key, kind);
                s.bytes[body + at] = 0x80;
            });
        }
    }
    for at in [0, 7] {
        let name = format!("byte {at} of the EmptyRoot set");
        shop.empty(Aim::Alone(Rule::ZeroField), &name, |s| {
            let body = body_at(&s.bytes, get16(&s.bytes, AT_ROOT));
            s.bytes[body + at] = 1;
        });
    }
    for at in [PREFIX_BYTES.start + 3, PREFIX_BYTES.end - 1] {
        let name = format!("unused byte {at} of a Prefix set");
        shop.full(Aim::Alone(Rule::UnusedBytes), &name, |s| {
            let body = s.body(b"bxyz", Kind::Prefix);
            s.bytes[body + at] = 1;
        });
    }
    let unused: [(Kind, &[u8], &[usize]); 2] =
        [(Kind::Node4, b"e", &[3]), (Kind::Node16, b"h", &[4, 15])];
    for (kind, key, places) in unused {
        for place in places.iter().copied() {
            let name = format!("unused byte {place} of a {kind:?} set");
            shop.full(Aim::Alone(Rule::UnusedBytes), &name, |s| {
                let body = s.body(key, kind);
                s.bytes[body + kind.branch_bytes().expect("a row of bytes").start + place] = 255;
            });
            let name = format!("unused child {place} of a {kind:?} set");
            shop.full(Aim::Alone(Rule::UnusedChildren), &name, |s| {
                let body = s.body(key, kind);
                s.set(body + kind.child_at(place), 1);
            });
        }
    }
    for place in [14, 48] {
        let name = format!("unnamed place {place} of a Node48 set");
        shop.full(Aim::Alone(Rule::UnusedChildren), &name, |s| {
            let body = s.body(b"c", Kind::Node48);
            s.bytes[body + Kind::Node48.child_at(place - 1) + CHILD_BYTES - 1] = 1;
        });
    }
}

/// A Leaf's last eight bytes are zero in edition 1, and in edition 2 a stamp, which
/// can be any.
fn leaf_ends(shop: &mut Workshop) {
    const KEY: &[u8] = b"apple";
    let aim = match shop.edition {
        Edition::One => Aim::Alone(Rule::ZeroField),
        Edition::Two => Aim::Stamp(KEY),
    };
    for at in LEAF_STAMP {
        let bit = at % 8;
        shop.full(aim, &format!("bit {bit} of byte {at} of a Leaf turned"), |s| {
            let body = s.body(KEY, Kind::Leaf);
            s.bytes[body + at] ^= 1 << bit;
        });
    }
    shop.full(aim, "the last eight bytes of a Leaf 255", |s| {
        let body = s.body(KEY, Kind::Leaf);
        s.bytes[body + LEAF_STAMP.start..body + LEAF_STAMP.end].fill(u8::MAX);
    });
}

fn single_prefixes(shop: &mut Workshop) {
    shop.full(Aim::Alone(Rule::PrefixLength), "a Prefix of no byte", |s| {
        let root = s.body(b"apple", Kind::Node16);
        let index = (0..s.get(root + INNER_COUNT) & MOST_16)
            .find(|index| s.get(root + Kind::Node16.child_at(*index)) == s.node(b"e", Kind::Node4))
            .expect("the Node4 hangs from the root");
        let prefix = s.insert_prefix(root + Kind::Node16.child_at(index), b"-");
        let body = body_at(&s.bytes, prefix);
        set16(&mut s.bytes, body + PREFIX_LENGTH, 0);
        s.bytes[body + PREFIX_BYTES.start] = 0;
    });
    for length in [0, LONGEST_PREFIX + 1, 32_768 + 3, MOST_16] {
        let name = format!("a Prefix that says it has {length} bytes");
        shop.full(Aim::Among(Rule::PrefixLength), &name, |s| {
            let body = s.body(b"bxyz", Kind::Prefix);
            set16(&mut s.bytes, body + PREFIX_LENGTH, length);
        });
    }
    let mut specimen = Specimen::blank(shop.edition, LONGEST_FRAME);
    let chain = specimen.chain(Kind::Prefix, 3_000);
    for pair in chain.windows(2) {
        // As a Prefix of one byte; then without it.
        write_prefix(&mut specimen.bytes, pair[0], b"-", pair[1]);
        let body = body_at(&specimen.bytes, pair[0]);
        set16(&mut specimen.bytes, body + PREFIX_LENGTH, 0);
        specimen.bytes[body + PREFIX_BYTES.start] = 0;
    }
    shop.damage(Aim::Among(Rule::PrefixLength), "thousands of Prefixes of no byte", specimen);
    let mut specimen = Specimen::blank(shop.edition, LONGEST_FRAME);
    let chain = specimen.chain(Kind::Prefix, 3_000);
    for pair in chain.windows(2) {
        write_prefix(&mut specimen.bytes, pair[0], b"-", pair[1]);
    }
    shop.damage(Aim::Among(Rule::PrefixChild), "thousands of Prefixes in a row", specimen);
    let mut specimen = Specimen::blank(shop.edition, LONGEST_FRAME);
    let chain = specimen.chain(Kind::Node4, 10_000);
    for three in chain.windows(3) {
        write_inner(&mut specimen.bytes, three[0], &[(1, three[1]), (2, three[2])]);
    }
    shop.damage(Aim::Among(Rule::Path), "thousands of Node4 in a row", specimen);
    shop.full(Aim::Alone(Rule::PrefixChild), "a Prefix over a Leaf", |s| {
        let field = s.field_to(b"apple");
        s.insert_prefix(field, b"pp");
    });
    shop.full(Aim::Alone(Rule::PrefixChild), "a Prefix over a Prefix", |s| {
        let upper = s.node(b"bxyz", Kind::Prefix);
        let below = store::prefix_child(&s.bytes, upper);
        let lower = take(&mut s.bytes, Kind::Prefix);
        write_prefix(&mut s.bytes, lower, b"z", below);
        write_prefix(&mut s.bytes, upper, b"xy", lower);
    });
    shop.full(Aim::Among(Rule::PrefixChild), "a Prefix over an EmptyRoot", |s| {
        let upper = s.body(b"bxyz", Kind::Prefix);
        let root = take(&mut s.bytes, Kind::EmptyRoot);
        s.set(upper + PREFIX_CHILD, root);
    });
    shop.full(Aim::Alone(Rule::Path), "a Prefix one byte short", |s| {
        let prefix = s.node(b"bxyz", Kind::Prefix);
        let below = store::prefix_child(&s.bytes, prefix);
        write_prefix(&mut s.bytes, prefix, b"xy", below);
    });
    for (what, bytes) in [("another byte", b"xYz"), ("a byte 0", b"xy\0")] {
        let name = format!("a Prefix with {what}");
        shop.full(Aim::Alone(Rule::Path), &name, |s| {
            let prefix = s.node(b"bxyz", Kind::Prefix);
            let below = store::prefix_child(&s.bytes, prefix);
            write_prefix(&mut s.bytes, prefix, bytes, below);
        });
    }
}

fn leaf_keys(shop: &mut Workshop) {
    let relength = |key: &'static [u8], key_length: usize| {
        // The value's length makes up for the key's, so that no size changes.
        move |s: &mut Specimen| {
            let slot = s.node(key, Kind::Leaf);
            let fields = store::leaf_fields(&s.bytes, slot);
            let value_length = fields.key_length + fields.value_length - key_length;
            let other = LeafFields { key_length, value_length, ..fields };
            store::write_leaf(&mut s.bytes, slot, &other);
        }
    };
    let rule = Aim::Alone(Rule::KeyLength);
    shop.full(rule, "a key of no byte", relength(b"f", 0));
    let most = shop.edition.longest_key();
    for length in [most + 1, long_value(shop.edition) + 1] {
        shop.full(rule, &format!("a key of {length} bytes"), relength(b"f", length));
    }
    shop.full(Aim::Among(Rule::KeyLength), "a key of 65,535 bytes", |s| {
        let leaf = s.body(b"f", Kind::Leaf);
        set16(&mut s.bytes, leaf + LEAF_KEY_LENGTH, MOST_16);
    });
    let set_byte = |key: &'static [u8], place: usize, byte: u8| {
        move |s: &mut Specimen| {
            let extent = store::leaf_fields(&s.bytes, s.node(key, Kind::Leaf)).extent;
            s.bytes[extent + place] = byte;
        }
    };
    let at_start = match shop.edition {
        Edition::One => Aim::Among(Rule::KeyZero),
        Edition::Two => Aim::Alone(Rule::Path),
    };
    shop.full(at_start, "a byte 0 at a key's start", set_byte(b"apple", 0, 0));
    if shop.edition == Edition::One {
        let rule = Aim::Alone(Rule::KeyZero);
        shop.full(rule, "a byte 0 within a key", set_byte(b"apple", 2, 0));
        shop.full(rule, "a byte 0 at a key's end", set_byte(b"apple", 4, 0));
    }
    let rule = Aim::Alone(Rule::Path);
    shop.full(rule, "another first byte in a key", set_byte(b"apple", 0, b'b'));
    shop.full(rule, "another byte where the Prefix stands", set_byte(b"bxyzm", 2, b'Y'));
    shop.full(rule, "another byte where the node parts", set_byte(b"d\x70", 1, 0x71));
    shop.full(rule, "a key that ends before its path", relength(b"bxyzm", 3));
    shop.full(rule, "a key that goes on where it should end", |s| {
        relength(b"e", 2)(s);
    });
    for (kind, key, place) in [(Kind::Node4, b"e", 2), (Kind::Node16, b"h", 3)] {
        shop.full(rule, &format!("another byte in a {kind:?}"), |s| {
            let bytes = s.body(key, kind) + kind.branch_bytes().expect("a row of bytes").start;
            s.bytes[bytes + place] = b'z';
        });
    }
    shop.full(rule, "two index entries exchanged", |s| {
        let index = s.body(b"c", Kind::Node48) + NODE48_INDEX;
        s.bytes.swap(index + usize::from(b'C'), index + usize::from(b'z'));
    });
    shop.full(rule, "a child of a Node256 at another byte", |s| {
        let body = s.body(b"d", Kind::Node256);
        let (from, to) = (body + Kind::Node256.child_at(0x70), body + Kind::Node256.child_at(0xF0));
        let child = s.get(from);
        s.set(from, 0);
        s.set(to, child);
    });
    shop.full(rule, "a walked string that is only the beginning of its path", |s| {
        // Two Leaves with the key "e", parted below its end byte.
        let field = s.field_to(b"e");
        let first = s.get(field);
        let node = take(&mut s.bytes, Kind::Node4);
        let second = take(&mut s.bytes, Kind::Leaf);
        let new = store::new_extent(&mut s.bytes, b"e", Value::plain(b""));
        store::write_leaf(&mut s.bytes, second, &new);
        write_inner(&mut s.bytes, node, &[(1, first), (2, second)]);
        s.set(field, node);
        s.add(AT_R, 1);
    });
    shop.full(Aim::Alone(Rule::Path), "a path longer than any walked string", |s| {
        let field = s.field_to(b"apple");
        let node = take(&mut s.bytes, Kind::Node4);
        let slots = [s.get(field), take(&mut s.bytes, Kind::Leaf)];
        // As long as a walked string that begins with "a" can be.
        let most = s.edition.longest_key();
        let key = match s.edition {
            Edition::One => [&b"apple"[..], &vec![b'x'; most - 5]].concat(),
            Edition::Two => [&b"a"[..], &vec![0; most - 1]].concat(),
        };
        let fields = store::leaf_fields(&s.bytes, slots[0]);
        store::retire(&mut s.bytes, &fields);
        for slot in slots {
            let new = store::new_extent(&mut s.bytes, &key, Value::plain(b""));
            store::write_leaf(&mut s.bytes, slot, &new);
        }
        write_inner(&mut s.bytes, node, &[(1, slots[0]), (2, slots[1])]);
        let path = s.walked(&key)[1..].to_vec();
        let ended = path.len() - usize::from(s.edition == Edition::One);
        let bodies: Vec<usize> =
            (0..prefixes(ended)).map(|_| take(&mut s.bytes, Kind::Prefix)).collect();
        let top = write_chain(&mut s.bytes, &bodies, &path[..ended], node);
        s.set(field, top);
        s.add(AT_R, 1);
    });
}

/// Chains of Prefixes, in edition 2.
fn chains(shop: &mut Workshop) {
    /// Cuts the shared beginning into other pieces, in more bodies if it takes them.
    fn pieces(s: &mut Specimen, lengths: &[usize]) {
        let Chain { mut slots, bytes, below } = store::chain(&s.bytes, s.chain_top());
        while slots.len() < lengths.len() {
            slots.push(take(&mut s.bytes, Kind::Prefix));
        }
        assert_eq!(lengths.iter().sum::<usize>(), bytes.len(), "the same bytes");
        let (mut end, mut below) = (bytes.len(), below);
        for (slot, length) in slots.into_iter().zip(lengths).rev() {
            write_prefix(&mut s.bytes, slot, &bytes[end - length..end], below);
            (end, below) = (end - length, slot);
        }
    }
    let rule = Aim::Alone(Rule::PrefixChild);
    for lengths in [
        &[111, 112, 2][..],
        &[112, 111, 2],
        &[1, 112, 112],
        &[112, 1, 112],
        &[56, 57, 112],
        &[112, 111, 1, 1],
        &[111, 1, 112, 1],
        &[110, 1, 1, 112, 1],
    ] {
        let name = format!("a chain of Prefixes of {lengths:?} bytes");
        shop.full(rule, &name, |s| pieces(s, lengths));
    }
    shop.full(rule, "two full Prefixes over a Leaf", |s| {
        let field = s.field_to(b"apple");
        let (first, key) = (s.get(field), [&b"apple"[..], &[b'p'; 230]].concat());
        let fields = store::leaf_fields(&s.bytes, first);
        store::retire(&mut s.bytes, &fields);
        let new = store::new_extent(&mut s.bytes, &key, Value::plain(b""));
        store::write_leaf(&mut s.bytes, first, &new);
        let bodies = [take(&mut s.bytes, Kind::Prefix), take(&mut s.bytes, Kind::Prefix)];
        let top = write_chain(&mut s.bytes, &bodies, &key[1..1 + 2 * LONGEST_PREFIX], first);
        s.set(field, top);
    });
    for (what, bytes) in [("half a byte 0", &[0][..]), ("a byte 0", &[0, ESCAPE])] {
        shop.full(rule, &format!("a Prefix of {what} over a Leaf"), |s| {
            let field = s.field_to(b"apple");
            let leaf = s.get(field);
            let fields = store::leaf_fields(&s.bytes, leaf);
            store::retire(&mut s.bytes, &fields);
            let new = store::new_extent(&mut s.bytes, b"a\0", Value::plain(b""));
            store::write_leaf(&mut s.bytes, leaf, &new);
            s.insert_prefix(field, bytes);
        });
    }
    shop.full(Aim::Alone(Rule::PrefixLength), "a chain that ends in a Prefix of no byte", |s| {
        let Chain { slots, .. } = store::chain(&s.bytes, s.chain_top());
        let last = slots[slots.len() - 1];
        // The byte that it had goes into the keys no longer: both lose it.
        let body = body_at(&s.bytes, last);
        set16(&mut s.bytes, body + PREFIX_LENGTH, 0);
        s.bytes[body + PREFIX_BYTES.start] = 0;
        s.shorten_chained_keys();
    });
    shop.full(Aim::Among(Rule::PrefixChild), "a full Prefix over an EmptyRoot", |s| {
        let Chain { slots, .. } = store::chain(&s.bytes, s.chain_top());
        let root = take(&mut s.bytes, Kind::EmptyRoot);
        let body = body_at(&s.bytes, slots[1]);
        s.set(body + PREFIX_CHILD, root);
    });
    for (what, to) in [("itself", 1), ("the one above", 0)] {
        let name = format!("a full Prefix over {what}");
        shop.full(Aim::Among(Rule::ReachedOnce), &name, |s| {
            let Chain { slots, .. } = store::chain(&s.bytes, s.chain_top());
            let body = body_at(&s.bytes, slots[1]);
            s.set(body + PREFIX_CHILD, slots[to]);
        });
    }
    shop.full(Aim::Among(Rule::ReachedOnce), "a child that is a Prefix within a chain", |s| {
        let field = s.field_to(b"eb");
        s.free_leaf(b"eb");
        let Chain { slots, .. } = store::chain(&s.bytes, s.chain_top());
        s.set(field, slots[1]);
    });
    let rule = Aim::Alone(Rule::Path);
    for (what, place, at) in [
        ("first byte of its first", 0, 0),
        ("last byte of its first", 0, 111),
        ("first byte of its second", 1, 0),
        ("byte 0 in its second", 1, 110),
        ("byte 255 behind a byte 0 in its second", 1, 111),
        ("byte of its last", 2, 0),
    ] {
        let name = format!("a chain with another {what} Prefix");
        shop.full(rule, &name, |s| {
            let Chain { slots, .. } = store::chain(&s.bytes, s.chain_top());
            let body = body_at(&s.bytes, slots[place]);
            s.bytes[body + PREFIX_BYTES.start + at] ^= 1;
        });
    }
    shop.full(rule, "a chain without the byte 255 behind a byte 0", |s| {
        let Chain { slots, bytes, below } = store::chain(&s.bytes, s.chain_top());
        let bytes: Vec<u8> = bytes.into_iter().filter(|byte| *byte != ESCAPE).collect();
        release(&mut s.bytes, slots[2], Kind::Prefix);
        write_chain(&mut s.bytes, &slots[..2], &bytes, below);
    });
    shop.full(rule, "a chain with two of its Prefixes exchanged", |s| {
        let Chain { slots, bytes, below } = store::chain(&s.bytes, s.chain_top());
        let (first, rest) = bytes.split_at(LONGEST_PREFIX);
        let (second, last) = rest.split_at(LONGEST_PREFIX);
        write_chain(&mut s.bytes, &slots, &[second, first, last].concat(), below);
    });
    shop.full(rule, "a chain one Prefix short", |s| {
        let Chain { slots, bytes, below } = store::chain(&s.bytes, s.chain_top());
        release(&mut s.bytes, slots[2], Kind::Prefix);
        write_chain(&mut s.bytes, &slots[..2], &bytes[..2 * LONGEST_PREFIX], below);
    });
    // A path through a byte 0 that is neither a key's nor its end.
    shop.full(rule, "a key that goes on behind a byte 0 as if it were no other", |s| {
        let field = s.field_to(b"e");
        let (first, second) = (s.get(field), take(&mut s.bytes, Kind::Leaf));
        let new = store::new_extent(&mut s.bytes, b"e\0a", Value::plain(b""));
        store::write_leaf(&mut s.bytes, second, &new);
        let node = take(&mut s.bytes, Kind::Node4);
        write_inner(&mut s.bytes, node, &[(0, first), (b'a', second)]);
        s.set(field, node);
        s.add(AT_R, 1);
    });
    let mut specimen = Specimen::blank(shop.edition, LONGEST_FRAME);
    let row = specimen.chain(Kind::Prefix, 3_000);
    for pair in row.windows(2) {
        write_prefix(&mut specimen.bytes, pair[0], &[b'-'; LONGEST_PREFIX], pair[1]);
    }
    shop.damage(Aim::Among(Rule::Path), "thousands of full Prefixes in a row", specimen);
}

fn records(shop: &mut Workshop) {
    shop.full(Aim::Alone(Rule::EmptyRootPlace), "an EmptyRoot below the root", |s| {
        let field = s.field_to(b"eb");
        s.free_leaf(b"eb");
        let root = take(&mut s.bytes, Kind::EmptyRoot);
        let body = body_at(&s.bytes, root);
        s.bytes[body..body + Kind::EmptyRoot.body_bytes()].fill(0);
        s.set(field, root);
    });
    let rule = Aim::Alone(Rule::Records);
    shop.full(rule, "R one more", |s| s.add(AT_R, 1));
    shop.full(rule, "R one less", |s| s.subtract(AT_R, 1));
    shop.full(rule, "R 0 with Leaves", |s| s.set(AT_R, 0));
    shop.full(rule, "R with bit 16", |s| s.add(AT_R, 1 << 16));
    shop.empty(rule, "R 1 with an EmptyRoot", |s| s.set(AT_R, 1));
    shop.empty(rule, "R the largest number with an EmptyRoot", |s| s.set(AT_R, MOST_32));
}

/// What was freed and what was never given out, with one byte or more left in it.
fn unwiped(shop: &mut Workshop) {
    for kind in Kind::ALL {
        for (what, at) in [("first", 0), ("last", kind.body_bytes() - 1)] {
            let name = format!("the {what} byte of a freed {kind:?} set");
            shop.full(Aim::Alone(Rule::FreedBody), &name, |s| {
                let body = body_at(&s.bytes, s.list(kind)[1]);
                s.bytes[body + at] = 1;
            });
        }
    }
    shop.full(Aim::Alone(Rule::FreedBody), "a freed Leaf as it was", |s| {
        let body = body_at(&s.bytes, s.list(Kind::Leaf)[0]);
        let live = s.body(b"apple", Kind::Leaf);
        s.bytes.copy_within(live..live + Kind::Leaf.body_bytes(), body);
    });
    let rule = Aim::Alone(Rule::DeadExtent);
    shop.full(rule, "an old password in a dead extent", |s| {
        let dead = s.dead_part(2 * UNIT).start;
        s.bytes[dead..dead + 12].copy_from_slice(b"pinhunter2!!");
    });
    shop.full(rule, "the first byte of a dead extent set", |s| {
        let dead = s.dead_part(UNIT).start;
        s.bytes[dead] = 0x80;
    });
    shop.full(rule, "the last byte of a dead extent set", |s| {
        let dead = s.dead_part(UNIT).end;
        s.bytes[dead - 1] = 1;
    });
    shop.full(rule, "a Leaf taken out, and its extent left as it was", |s| {
        let extent = store::leaf_fields(&s.bytes, s.node(b"hc", Kind::Leaf)).bytes();
        let left = s.bytes[extent.clone()].to_vec();
        store::erase(s.edition, &mut s.bytes, b"hc");
        s.bytes[extent].copy_from_slice(&left);
    });
    shop.full(rule, "the last unit before B dead and not zero", |s| {
        let b = s.get(AT_B);
        s.add(AT_B, UNIT);
        s.add(AT_X, UNIT);
        s.bytes[b + UNIT - 1] = 1;
    });
    let places: [(&str, Figure); 4] = [
        ("at B", |s| s.get(AT_B)),
        ("just behind a unit from B on", |s| s.get(AT_B) + UNIT),
        ("amid what was never given out", |s| (s.get(AT_B) + s.bytes.len()) / 2),
        ("at the frame's end", |s| s.bytes.len() - 1),
    ];
    for (what, place) in places {
        let rule = Aim::Alone(Rule::NeverGiven);
        let set = |s: &mut Specimen| {
            let at = place(s);
            s.bytes[at] = 1;
        };
        shop.full(rule, &format!("the byte {what} set"), set);
        shop.empty(rule, &format!("the byte {what} set, all freed"), set);
    }
    shop.full(Aim::Among(Rule::DeadExtent), "nothing wiped that was freed", |s| {
        let reading = s.reading();
        s.bytes = soiled(&mut Random::new(LAYOUT_SEED), &s.bytes, &reading, &Rule::WIPED);
    });
    shop.full(
        Aim::Among(Rule::DeadExtent),
        "a freed body and a dead extent not zero, R wrong",
        |s| {
            let reading = s.reading();
            let rules = [Rule::FreedBody, Rule::DeadExtent];
            s.bytes = soiled(&mut Random::new(LAYOUT_SEED), &s.bytes, &reading, &rules);
            s.add(AT_R, 1);
        },
    );
}
