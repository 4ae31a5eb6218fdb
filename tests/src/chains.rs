//! Shared beginnings of edition 2, at and beside the ends of full Prefixes.
//!
//! Believed here: what Q-7 of document 02 says of chains. `worked_chains` has
//! figures that were worked out by hand from its words and from the table of kinds;
//! they do not come from any reading in this crate. `chains` begins, cuts, joins and
//! drops shared beginnings of every length that it aims at, in frames with just the
//! room that it takes and with less.

use crate::compare::{Compared, Comparer, Held};
use crate::history::to_the_brim;
use crate::layout::*;
use crate::random::Random;
use crate::run::Rounds;
use crate::slotless::{inner, Beginning, ByKind, Tree};
use crate::trees::{cuts, fork, leaving, small_value, Change, BEGINNINGS};
use crate::value::Value;
use crate::worked::{formatted, put, Figures};
use std::collections::BTreeMap;
use std::rc::Rc;

const EDITION: Edition = Edition::Two;

/// 200 bytes of which the last is this one.
fn long_key(last: u8) -> Vec<u8> {
    [&[b'k'; 199][..], &[last]].concat()
}

/// Bytes of a shared beginning, the byte at which it is cut, and the Prefixes that
/// the frame has more after it.
const CUTS: [(usize, usize, isize); 16] = [
    // 112, 112 and 1: 224 are two; 112 and 112 are two
    (225, 0, -1),
    (225, 112, -1),
    // 111 and 113 are one and two; 113 and 111 are two and one
    (225, 111, 0),
    (225, 113, 0),
    (225, 224, -1),
    // 100 and 123 are one and two, for two
    (224, 100, 1),
    (224, 0, 0),
    (224, 111, 0),
    (224, 112, 0),
    (224, 223, 0),
    // document 01's list, as far as one Prefix goes
    (112, 0, 0),
    (112, 50, 1),
    (112, 111, 0),
    (113, 0, -1),
    (113, 112, -1),
    (1, 0, -1),
];

/// Bytes above and below the byte of a Node4 that goes, and the Prefixes that the
/// frame has more after it.
const JOINS: [(usize, usize, isize); 15] = [
    // 225 are three for two, 224 two for two, 3 one for two
    (112, 112, 1),
    (111, 112, 0),
    (112, 111, 0),
    (111, 111, 0),
    (1, 1, -1),
    (55, 56, -1),
    (56, 56, 0),
    (0, 0, 1),
    (0, 111, 0),
    (0, 112, 1),
    (0, 113, 0),
    (111, 0, 0),
    (112, 0, 1),
    (113, 0, 0),
    // 224 are two for three
    (113, 110, -1),
];

/// Bytes of a shared beginning, and the Prefixes that it takes.
const LONG: [(usize, usize); 12] = [
    (0, 0),
    (1, 1),
    (111, 1),
    (112, 1),
    (113, 2),
    (224, 2),
    (225, 3),
    (300, 3),
    (336, 3),
    (337, 4),
    (448, 4),
    (509, 5),
];

/// What a frame tells of its Prefixes: U, and the length of list 2.
fn counted(held: &Held) -> (usize, usize) {
    let state = held.state();
    (state.u, state.list_lengths[Kind::Prefix.number()])
}

fn done(name: &'static str) -> Figures {
    Figures { name, number: 0, fields: &[] }
}

/// Letters and digits, as far as a key can hold them; all of them differ from
/// those beside them.
fn text(bytes: usize) -> Vec<u8> {
    (0..bytes).map(|at| b'A' + (at % 50) as u8).collect()
}

pub fn worked_chains(comparer: &mut Comparer) -> Compared<()> {
    comparer.begin("worked chains".to_string());
    two_long_keys(comparer)?;
    for (bytes, at, more) in CUTS {
        cut(comparer, bytes, at, more)?;
    }
    for (above, below, more) in JOINS {
        join(comparer, above, below, more)?;
    }
    for (bytes, prefixes) in LONG {
        begin_and_drop(comparer, bytes, prefixes)?;
    }
    slots_on_the_way(comparer)?;
    keys_of_zeros(comparer)
}

/// F 4,096, N 16, so D 128: two keys of 200 bytes that part at the last.
fn two_long_keys(comparer: &mut Comparer) -> Compared<()> {
    let mut held = formatted(comparer, (4_096, 16), 0xEE)?;
    // 136 + 16 + 208
    let first = Figures { name: "200 bytes", number: 0, fields: &[(AT_U, 2), (AT_B, 360)] };
    put(comparer, &mut held, &long_key(b'1'), b"v", first)?;
    // 16 + 24 + 256 + 208 more: 199 bytes are 112 and 87
    let second = Figures { name: "and 200 more", number: 0, fields: &[(AT_U, 6), (AT_B, 864)] };
    put(comparer, &mut held, &long_key(b'2'), b"v", second)?;

    // Two Prefixes, a Node4 and two Leaves: 128 + 256 + 24 + 32 + 416. The entries
    // are 2 and 4 times 131,072, and 128, 256 and 384 divided by 8.
    let packed = comparer.pack(&held, &[0xEE; 4_096])?.expect("a good frame packs");
    let fields = &[(AT_U, 5), (AT_B, 856), (AT_R, 2), (64, 262_160), (68, 262_176), (72, 524_336)];
    Figures { name: "packed", number: 0, fields }.hold(comparer, &packed, 0)?;

    let mut erased = held.clone();
    let number = comparer.erase(&mut erased, &long_key(b'1'))?;
    let fields = &[(AT_U, 6), (AT_B, 864), (AT_R, 1), (AT_X, 208)];
    Figures { name: "one of two erased", number: 0, fields }.hold(comparer, &erased, number)?;
    let lists = erased.state().list_lengths;
    if lists != [0, 1, 2, 0, 1, 0, 0, 0, 1] {
        return comparer.differs(format!("one of two erased: the lists have {lists:?} bodies"));
    }

    // It leaves at byte 112: 112 and 86 are two as before; 16 + 24 + 120 more
    let key = [&[b'k'; 112][..], b"x"].concat();
    let third = Figures { name: "a third key", number: 0, fields: &[(AT_U, 8), (AT_B, 1_024)] };
    put(comparer, &mut held, &key, b"v", third)?;
    if counted(&held) != (8, 0) {
        return comparer.differs("a cut between two Prefixes needs and frees none".to_string());
    }
    Ok(())
}

/// EmptyRoot, two Leaves and a Node4, and the Prefixes between.
const SLOTS_OF_TWO: usize = 4;

fn cut(comparer: &mut Comparer, bytes: usize, at: usize, more: isize) -> Compared<()> {
    let mut held = formatted(comparer, (4_096, 40), 0)?;
    let shared = text(bytes);
    for last in [b"1", b"2"] {
        put(comparer, &mut held, &[&shared[..], last].concat(), b"", done("to be cut"))?;
    }
    let before = SLOTS_OF_TWO + bytes.div_ceil(112);
    let key = [&shared[..at], b"-"].concat();
    put(comparer, &mut held, &key, b"", done("a cut"))?;
    // A Leaf and a Node4 besides.
    let expected = after(before + 2, more);
    if counted(&held) != expected {
        let (is, what) = (counted(&held), format!("{bytes} bytes cut at {at}"));
        return comparer.differs(format!("{what}: U and list 2 are {is:?}, not {expected:?}"));
    }
    Ok(())
}

/// U, and the length of list 2, with so many Prefixes more.
fn after(slots: usize, more: isize) -> (usize, usize) {
    (slots + more.max(0) as usize, (-more).max(0) as usize)
}

fn join(comparer: &mut Comparer, above: usize, below: usize, more: isize) -> Compared<()> {
    let mut held = formatted(comparer, (4_096, 40), 0)?;
    let joined = text(above + 1 + below);
    let goes = [&joined[..above], b"-"].concat();
    for key in [&goes, &[&joined[..], b"1"].concat(), &[&joined[..], b"2"].concat()] {
        put(comparer, &mut held, key, b"", done("to be joined"))?;
    }
    let before = 2 * (SLOTS_OF_TWO - 1) + above.div_ceil(112) + below.div_ceil(112);
    comparer.erase(&mut held, &goes)?;
    let expected = after(before, more);
    if counted(&held) != expected {
        let (is, what) = (counted(&held), format!("{above} and {below} bytes joined"));
        return comparer.differs(format!("{what}: U and list 2 are {is:?}, not {expected:?}"));
    }
    Ok(())
}

/// Two keys that share so many walked bytes and no more, whatever it takes.
fn sharing(bytes: usize) -> [Vec<u8>; 2] {
    // Bytes 0 count twice, and before the end of a key one more is shared.
    let zeros = vec![0; bytes / 2];
    match bytes {
        ..=200 => [b"1", b"2"].map(|last| [&text(bytes)[..], last].concat()),
        _ if bytes.is_multiple_of(2) => [b"1", b"2"].map(|last| [&zeros[..], last].concat()),
        _ => [&b""[..], &[0]].map(|last| [&zeros[..], last].concat()),
    }
}

fn begin_and_drop(comparer: &mut Comparer, bytes: usize, prefixes: usize) -> Compared<()> {
    let mut held = formatted(comparer, (4_096, 40), 0)?;
    let [one, other] = sharing(bytes);
    put(comparer, &mut held, &one, b"", done("one of two"))?;
    put(comparer, &mut held, &other, b"", done("two that share bytes"))?;
    let expected = (SLOTS_OF_TWO + prefixes, 0);
    if counted(&held) != expected {
        let (is, what) = (counted(&held), format!("{bytes} bytes shared"));
        return comparer.differs(format!("{what}: U and list 2 are {is:?}, not {expected:?}"));
    }
    comparer.erase(&mut held, &one)?;
    let expected = (SLOTS_OF_TWO + prefixes, prefixes);
    if counted(&held) != expected {
        let (is, what) = (counted(&held), format!("a Leaf left under {bytes} bytes"));
        return comparer.differs(format!("{what}: U and list 2 are {is:?}, not {expected:?}"));
    }
    Ok(())
}

/// through 225 bytes three Prefixes, a Node4 and a Leaf.
fn slots_on_the_way(comparer: &mut Comparer) -> Compared<()> {
    let mut held = formatted(comparer, (4_096, 40), 0)?;
    let shared = text(225);
    let with = |at: usize, last: &[u8]| [&shared[..at], last].concat();
    for last in [b"1", b"2"] {
        put(comparer, &mut held, &with(225, last), b"", done("225 bytes"))?;
    }
    for (key, slots) in [
        (with(225, b"1"), 5),
        (with(225, b"3"), 4),
        (with(225, b""), 4),
        (with(224, b"-"), 3),
        (with(224, b""), 3),
        (with(223, b"-"), 2),
        (with(112, b"-"), 2),
        (with(112, b""), 2),
        (with(111, b"-"), 1),
        (with(0, b"-"), 1),
    ] {
        let told = comparer.look_up(&held, &key)?.slots;
        if told != slots {
            let long = key.len();
            return comparer.differs(format!("{long} bytes lead to {slots} slots, and not {told}"));
        }
    }
    Ok(())
}

/// Bytes 0 of many lengths, each key the beginning of the next one, and taken out
/// again.
fn keys_of_zeros(comparer: &mut Comparer) -> Compared<()> {
    const MOST: usize = 255;
    const F: usize = 40_960;
    let mut held = formatted(comparer, (F, 400), 0)?;
    let zeros = [0; MOST];
    let lengths: Vec<usize> = (1..=MOST).rev().step_by(3).chain([1, 2, 254]).collect();
    let order: Vec<usize> = (0..lengths.len()).map(|turn| turn * 37 % lengths.len()).collect();
    for length in order.iter().map(|at| lengths[*at]) {
        put(comparer, &mut held, &zeros[..length], b"v", done("bytes 0"))?;
    }
    for length in 1..=MOST {
        comparer.look_up(&held, &zeros[..length])?;
    }
    for (key, bytes) in [(&zeros[..], &b"another value"[..]), (&zeros[..1], b"w")] {
        let value = comparer.stamped(bytes);
        comparer.replace(&mut held, key, value)?;
    }
    let packed = comparer.pack(&held, &[0xEE; F])?.expect("a good frame packs");
    comparer.look_up(&packed, &zeros)?;
    for length in order.iter().rev().map(|at| lengths[*at]) {
        let number = comparer.erase(&mut held, &zeros[..length])?;
        if number != number::DONE {
            return comparer.differs(format!("an erase of {length} bytes 0 gave {number}"));
        }
    }
    Ok(())
}

/// Bytes above and below that are joined; 0 is none.
const PARTS: [usize; 14] = [0, 1, 2, 110, 111, 112, 113, 222, 223, 224, 225, 335, 336, 337];
/// With the bytes 0 and 255 of a key that begins with another byte.
const MOST_JOINED: usize = 507;

/// The walked bytes of keys: of letters, or after one letter of bytes 0.
#[derive(Clone, Copy, Debug)]
enum Flavour {
    Letters,
    Zeros,
}

impl Flavour {
    const BOTH: [Flavour; 2] = [Flavour::Letters, Flavour::Zeros];

    /// So many bytes, if there are keys that go on behind them.
    fn bytes(self, long: usize) -> Option<Vec<u8>> {
        match self {
            Flavour::Letters => (long <= 250).then(|| text(long)),
            // Nothing but bytes 0 shares the most bytes.
            Flavour::Zeros if long > MOST_JOINED => Some(escaped().take(long).collect()),
            Flavour::Zeros => Some([b'z'].into_iter().chain(escaped()).take(long).collect()),
        }
    }
}

fn escaped() -> impl Iterator<Item = u8> {
    [0, ESCAPE].into_iter().cycle()
}

/// What `chains` aims at.
pub fn expected() -> Vec<Beginning> {
    let mut all = vec![Beginning::Begun { bytes: 0 }, Beginning::Dropped { bytes: 0 }];
    for bytes in BEGINNINGS {
        all.extend([Beginning::Begun { bytes }, Beginning::Dropped { bytes }]);
        // No key is a byte 0 and then its end.
        let leaves = |at: &usize| (bytes, *at) != (509, 1);
        all.extend(cuts(bytes).filter(leaves).map(|at| Beginning::Cut { bytes, at }));
    }
    let joined = |above: usize| PARTS.map(|below| Beginning::Joined { above, below });
    let short = |beginning: &Beginning| match beginning {
        Beginning::Joined { above, below } => above + 1 + below <= MOST_JOINED,
        _ => false,
    };
    all.extend(PARTS.into_iter().flat_map(joined).filter(short));
    all
}

/// Every beginning that is aimed at, at the root and below a node; with freed
/// Prefixes to take, and without.
pub fn chains(comparer: &mut Comparer, seed: u64, rounds: Rounds) -> Compared<()> {
    for round in rounds {
        let mut random = Random::new(seed.wrapping_mul(1_000_181).wrapping_add(round));
        for beginning in expected() {
            for flavour in Flavour::BOTH {
                let stage = format!("chains of seed {seed}, round {round}");
                comparer.begin(format!("{stage}: {beginning:?}, {flavour:?}"));
                one(comparer, &mut random, beginning, flavour)?;
            }
        }
    }
    Ok(())
}

fn one(
    comparer: &mut Comparer,
    random: &mut Random,
    beginning: Beginning,
    flavour: Flavour,
) -> Compared<()> {
    let Some((tree, change)) = aimed_at(random, beginning, flavour) else {
        return Ok(());
    };
    for freed in 0..=2 {
        let mut lists = ByKind::default();
        lists[Kind::Prefix.number()] = freed;
        to_the_brim(comparer, random, &Some(tree.clone()), &lists, 0, &change)?;
    }
    if let Some(tree) = below_a_node(&tree) {
        to_the_brim(comparer, random, &Some(tree), &ByKind::default(), UNIT, &change)?;
    }
    Ok(())
}

/// A tree, and a change of it that does this to a shared beginning.
fn aimed_at(
    random: &mut Random,
    beginning: Beginning,
    flavour: Flavour,
) -> Option<(Rc<Tree>, Change)> {
    let value = Value { bytes: Rc::from([b'v'; 3]), stamp: random.stamp(EDITION) };
    let leaf = |key: Vec<u8>| Rc::new(Tree::Leaf { key: key.into(), value: value.clone() });
    match beginning {
        Beginning::Begun { bytes } => {
            let path = flavour.bytes(bytes)?;
            let one = leaving(EDITION, random, &path, &[])?;
            let byte = EDITION.walked(&one)[bytes];
            let key = leaving(EDITION, random, &path, &[byte])?;
            Some((leaf(one), Change::Put { key, value: small_value(EDITION, random) }))
        }
        Beginning::Cut { bytes, at } => {
            let path = flavour.bytes(bytes)?;
            let tree = above(&path, fork(EDITION, random, &path));
            let key = leaving(EDITION, random, &path[..at], &path[at..=at])?;
            Some((tree, Change::Put { key, value: small_value(EDITION, random) }))
        }
        Beginning::Joined { above: upper, below } => {
            let path = flavour.bytes(upper + 1 + below)?;
            let key = leaving(EDITION, random, &path[..upper], &path[upper..=upper])?;
            let lower = above(&path[upper + 1..], fork(EDITION, random, &path));
            let parts = [(path[upper], lower), (EDITION.walked(&key)[upper], leaf(key.clone()))];
            let node = Rc::new(inner(Kind::Node4, BTreeMap::from(parts)));
            Some((above(&path[..upper], node), Change::Erase { key }))
        }
        Beginning::Dropped { bytes } => {
            let path = flavour.bytes(bytes)?;
            let node = fork(EDITION, random, &path);
            let Tree::Inner { children, .. } = &*node else {
                unreachable!("a fork is a node");
            };
            let leaves: Vec<&Rc<Tree>> = children.values().collect();
            let Tree::Leaf { key, .. } = &***random.pick(&leaves) else {
                unreachable!("a fork has two Leaves");
            };
            let change = Change::Erase { key: key.to_vec() };
            Some((above(&path, node), change))
        }
    }
}

fn above(bytes: &[u8], below: Rc<Tree>) -> Rc<Tree> {
    if bytes.is_empty() {
        return below;
    }
    Rc::new(Tree::Prefix { bytes: bytes.to_vec(), below })
}

/// The same tree, but that a node leads to it by the first byte of its beginning.
fn below_a_node(tree: &Rc<Tree>) -> Option<Rc<Tree>> {
    let Tree::Prefix { bytes, below } = &**tree else {
        return None;
    };
    let (first, rest) = bytes.split_first()?;
    let key = [first.wrapping_add(1).max(1); 9];
    let value = Value { bytes: Rc::from([b'v'; 3]), stamp: u64::MAX };
    let beside = Tree::Leaf { key: key.into(), value };
    let children = [(*first, above(rest, below.clone())), (key[0], Rc::new(beside))];
    Some(Rc::new(inner(Kind::Node4, BTreeMap::from(children))))
}
