//! Long random histories, cuts to the brim, frames from before Q-3 and of the other
//! edition, and bytes of any kind.
//!
//! Believed here: nothing but that these calls are worth making. Small
//! alphabets make deep Prefixes, and in edition 2 chains; wide ones make every
//! node grow and give way; crafted frames cut to the brim make each case succeed
//! with its last slots and last bytes and fail for either.

use crate::batch::laid;
use crate::check::{self, Rule};
use crate::compare::{Compared, Comparer, Held};
use crate::crafted::{build, Spare};
use crate::layout::*;
use crate::names::Asked;
use crate::random::Random;
use crate::run::Rounds;
use crate::slotless::{bodies, ByKind, State, Tree};
use crate::store;
use crate::tally::Entry;
use crate::trees::{aimed, random_tree, small_value, Change};
use crate::unused::{soiled, speckled};
use crate::value::Value;
use std::rc::Rc;

/// How keys of one history look.
enum Alphabet {
    /// Any bytes of these, up to a length.
    Few { letters: &'static [u8], longest: usize },
    /// A long common beginning of one byte, cut anywhere, and a few bytes more.
    LongBeginning(u8),
    /// One or two bytes of all.
    Wide,
}

/// Where long common beginnings are cut.
fn starts(edition: Edition) -> &'static [usize] {
    match edition {
        Edition::One => &[0, 1, 20, 50, 51, 52, 100, 110, 111],
        // Of bytes 0 the walked string has two for each.
        Edition::Two => &[0, 1, 55, 56, 57, 111, 112, 113, 168, 169, 223, 224, 225, 252, 253],
    }
}

impl Alphabet {
    fn key(&self, edition: Edition, random: &mut Random) -> Vec<u8> {
        match self {
            Alphabet::Few { letters, longest } => {
                let length = random.from_to(1, *longest);
                (0..length).map(|_| *random.pick(letters)).collect()
            }
            Alphabet::LongBeginning(byte) => {
                let start = *random.pick(starts(edition));
                let mut key = vec![*byte; start];
                let more = random.from_to(1, 4).min(edition.longest_key() - start);
                key.extend((0..more).map(|_| byte + *random.pick(&[0, 1, 2])));
                key
            }
            Alphabet::Wide => {
                let first = *random.pick(b"mn");
                match random.below(8) {
                    0 => vec![first],
                    1 => vec![random.key_byte(edition)],
                    _ => vec![first, random.key_byte(edition)],
                }
            }
        }
    }
}

/// Keys that are refused, of which some are legal in the other edition.
fn refused_keys(edition: Edition) -> &'static [&'static [u8]] {
    match edition {
        Edition::One => &[b"", b"a\0b", &[b'p'; 113], &[0; 200]],
        Edition::Two => &[b"", &[b'p'; 256], &[0; 256], &[0; 400]],
    }
}

/// Puts, replacements, erases, look-ups, checks and packs over one frame after
/// another.
pub fn histories(comparer: &mut Comparer, seed: u64, rounds: Rounds) -> Compared<()> {
    for round in rounds {
        comparer.begin(format!("history of seed {seed}, round {round}"));
        let mut random = Random::new(seed.wrapping_mul(1_000_003).wrapping_add(round));
        let (alphabet, f, n) = match (comparer.edition(), round % 6) {
            (_, 0) => (Alphabet::Few { letters: b"ab", longest: 6 }, 4_096, 100),
            (Edition::One, 1) => (Alphabet::Few { letters: b"abc", longest: 40 }, 8_192, 64),
            (Edition::Two, 1) => (Alphabet::LongBeginning(0), 32_768, 200),
            (Edition::One, 2) => (Alphabet::LongBeginning(b'p'), 8_192, 100),
            (Edition::Two, 2) => (Alphabet::LongBeginning(b'p'), 32_768, 200),
            (_, 3) => (Alphabet::Wide, 32_768, 700),
            (_, 4) => (Alphabet::Few { letters: b"abcdefghijklmnopqrst", longest: 2 }, 16_384, 400),
            (Edition::One, _) => (Alphabet::Few { letters: b"a\xff\x01", longest: 3 }, 1_024, 20),
            (Edition::Two, _) => (Alphabet::Few { letters: b"\0\x01\xff", longest: 4 }, 2_048, 40),
        };
        let dirt = random.bytes(f);
        let mut held = comparer.format(&dirt, f, n)?.expect("F and N are within the limits");
        history(comparer, &mut random, &alphabet, &mut held)?;
    }
    Ok(())
}

fn history(
    comparer: &mut Comparer,
    random: &mut Random,
    alphabet: &Alphabet,
    held: &mut Held,
) -> Compared<()> {
    let edition = comparer.edition();
    let wide = matches!(alphabet, Alphabet::Wide);
    let phase = if wide { 300 } else { 60 };
    for step in 0..phase * 8 {
        let growing = step / phase % 2 == 0;
        if step % phase == 0 && random.one_in(2) {
            // Go on with the packed frame, or B would soon stand at F.
            let out = random.bytes(held.bytes().len());
            *held = comparer.pack(held, &out)?.expect("a good frame packs");
        }
        let key = match random.below(40) {
            0 => random.pick(refused_keys(edition)).to_vec(),
            _ => alphabet.key(edition, random),
        };
        let put_chance = if growing { 8 } else { 2 };
        if random.below(10) < put_chance {
            let value = if wide { random.value(edition, 0) } else { small_value(edition, random) };
            match random.below(4) {
                0 => comparer.put(held, &key, value.given())?,
                1 => comparer.replace(held, &key, value.given())?,
                _ => comparer.put_or_replace(held, &key, value.given())?,
            };
        } else if random.one_in(3) {
            comparer.erase(held, &key)?;
        } else if let Some(there) = some_key(random, held.state()) {
            comparer.erase(held, &there)?;
        }
        match random.below(12) {
            0 => comparer.check(held)?,
            1..=3 => {
                comparer.look_up(held, &key)?;
            }
            4 => {
                let out = random.bytes(held.bytes().len());
                comparer.pack(held, &out)?;
            }
            5 => comparer.info(held)?,
            6 => {
                let out = random.bytes(held.bytes().len());
                comparer.pack_before(held, &out)?;
            }
            _ => {}
        }
    }
    Ok(())
}

fn some_key(random: &mut Random, state: &State) -> Option<Vec<u8>> {
    let keys: Vec<Vec<u8>> = state.records().into_keys().collect();
    (!keys.is_empty()).then(|| random.pick(&keys).clone())
}

fn make(comparer: &mut Comparer, held: &mut Held, change: &Change) -> Compared<u32> {
    match change {
        Change::Put { key, value } => comparer.put(held, key, value.given()),
        Change::Replace { key, value } => comparer.replace(held, key, value.given()),
        Change::Erase { key } => comparer.erase(held, key),
    }
}

/// The call that the frame has no use for: a put of a present key, or a
/// replacement of an absent one.
fn make_in_vain(comparer: &mut Comparer, held: &mut Held, change: &Change) -> Compared<()> {
    match change {
        Change::Put { key, value } => comparer.replace(held, key, value.given()).map(|_| ()),
        Change::Replace { key, value } => comparer.put(held, key, value.given()).map(|_| ()),
        Change::Erase { .. } => Ok(()),
    }
}

const ROOMY: Spare = Spare { slots: 16, bytes: 4_096 };

/// One change aimed at a node, in crafted frames with just enough room for
/// it, one slot less, one unit less, and both; then a few more in a roomy one.
pub fn crafted_frames(comparer: &mut Comparer, seed: u64, rounds: Rounds) -> Compared<()> {
    for round in rounds {
        comparer.begin(format!("crafted frames of seed {seed}, round {round}"));
        let mut random = Random::new(seed.wrapping_mul(1_000_033).wrapping_add(round));
        let random = &mut random;
        let edition = comparer.edition();
        let leaves = *random.pick(&[1, 2, 3, 5, 8, 14, 20, 40, 45, 60, 90]);
        let tree =
            if random.one_in(25) { None } else { Some(random_tree(edition, random, leaves)) };
        let mut lists = ByKind::default();
        let chances = random.from_to(1, 4);
        for kind in Kind::ALL {
            if random.one_in(chances) {
                lists[kind.number()] = random.from_to(1, 3);
            }
        }
        let dead = random.below(12) * UNIT;
        let change = aimed(edition, random, &tree);
        to_the_brim(comparer, random, &tree, &lists, dead, &change)?;
        let mut held = crafted(comparer, random, &tree, &lists, dead, ROOMY)?;
        for _ in 0..4 {
            let change = aimed(edition, random, &held.state().tree);
            make(comparer, &mut held, &change)?;
            let near = aimed(edition, random, &held.state().tree);
            comparer.look_up(&held, near.key())?;
            if let Change::Put { key, .. } = near {
                // Absent keys too: look for one next to what is there.
                comparer.erase(&mut held.clone(), &key)?;
            }
        }
        let out = random.bytes(held.bytes().len());
        comparer.pack(&held, &out)?;
    }
    Ok(())
}

/// A change in a frame with just the room that it needs, with a slot less, with a
/// unit less, and with both.
pub fn to_the_brim(
    comparer: &mut Comparer,
    random: &mut Random,
    tree: &Option<Rc<Tree>>,
    lists: &ByKind,
    dead: usize,
    change: &Change,
) -> Compared<()> {
    let (_, mut roomy) = build(comparer.edition(), random, tree, lists, dead, ROOMY);
    let told = roomy.make(change);
    let (_, room) = told.case.expect("an aimed change is neither refused nor absent");
    let (slots, bytes) = (room.fresh.len(), room.fresh_bytes);
    let mut spares = vec![Spare { slots, bytes }];
    if slots > 0 {
        spares.push(Spare { slots: slots - 1, bytes });
    }
    if bytes > 0 {
        spares.push(Spare { slots, bytes: bytes - UNIT });
    }
    if slots > 0 && bytes > 0 {
        spares.push(Spare { slots: slots - 1, bytes: bytes - UNIT });
    }
    for spare in spares {
        let mut held = crafted(comparer, random, tree, lists, dead, spare)?;
        comparer.check(&held)?;
        make_in_vain(comparer, &mut held, change)?;
        make(comparer, &mut held, change)?;
        comparer.look_up(&held, change.key())?;
    }
    Ok(())
}

fn crafted(
    comparer: &Comparer,
    random: &mut Random,
    tree: &Option<Rc<Tree>>,
    lists: &ByKind,
    dead: usize,
    spare: Spare,
) -> Compared<Held> {
    let (bytes, state) = build(comparer.edition(), random, tree, lists, dead, spare);
    let held = comparer.held(bytes);
    match held.refusal() {
        Some(refused) => comparer.differs(format!("a crafted frame is refused with {refused}")),
        None if *held.state() != state => {
            comparer.differs("a crafted frame does not read back".to_string())
        }
        None => Ok(held),
    }
}

/// Good frames of the largest F and N, with high slot numbers and a long list.
pub fn large_frames(comparer: &mut Comparer, seed: u64, rounds: Rounds) -> Compared<()> {
    const SLOTS_LEFT: usize = 40;
    for round in rounds {
        comparer.begin(format!("large frames of seed {seed}, round {round}"));
        let mut random = Random::new(seed.wrapping_mul(1_000_037).wrapping_add(round));
        let random = &mut random;
        let edition = comparer.edition();
        // As many as fit with room to spare, whatever their keys: those of edition 2
        // are longer.
        let leaves = match edition {
            Edition::One => 1_500,
            Edition::Two => 600,
        };
        let tree = Some(random_tree(edition, random, leaves));
        let mut lists = ByKind::default();
        lists[Kind::Leaf.number()] = random.below(3);
        lists[Kind::Prefix.number()] = random.below(3);
        let used: usize = bodies(&tree).iter().chain(&lists).sum();
        lists[Kind::EmptyRoot.number()] = MOST_SLOTS - SLOTS_LEFT - used;
        let tight = Spare { slots: SLOTS_LEFT, bytes: 0 };
        let (shortest, _) = build(edition, random, &tree, &lists, 0, tight);
        let spare = Spare { bytes: LONGEST_FRAME - shortest.len(), ..tight };
        let mut held = crafted(comparer, random, &tree, &lists, 0, spare)?;
        for length in [32_767, 32_768, 65_535, 65_536, 1, 65_535, 65_534, 65_535, 65_535] {
            let key = aimed(edition, random, &held.state().tree).key().to_vec();
            let bytes = vec![random.byte(); length];
            let value = Value { bytes: &bytes[..], stamp: random.stamp(edition) };
            comparer.put_or_replace(&mut held, &key, value)?;
            comparer.look_up(&held, &key)?;
        }
        for _ in 0..30 {
            let change = aimed(edition, random, &held.state().tree);
            make(comparer, &mut held, &change)?;
        }
        comparer.check(&held)?;
        let out = random.bytes(held.bytes().len());
        comparer.pack(&held, &out)?;
    }
    Ok(())
}

/// Frames from before: crafted ones, and in what they have freed, or never given
/// out, any bytes or a single one. Every call refuses them but one, and what that
/// packs can be changed. In edition 2 every call refuses them.
pub fn frames_before(comparer: &mut Comparer, seed: u64, rounds: Rounds) -> Compared<()> {
    for round in rounds {
        comparer.begin(format!("frames from before, seed {seed}, round {round}"));
        let mut random = Random::new(seed.wrapping_mul(1_000_151).wrapping_add(round));
        let random = &mut random;
        let edition = comparer.edition();
        let leaves = *random.pick(&[1, 2, 5, 20, 60]);
        let tree =
            if random.one_in(10) { None } else { Some(random_tree(edition, random, leaves)) };
        let mut lists = ByKind::default();
        for kind in Kind::ALL {
            lists[kind.number()] = random.below(3);
        }
        let dead = random.below(100) * UNIT;
        let spare = if random.one_in(4) { Spare { slots: 0, bytes: 0 } } else { ROOMY };
        let (good, state) = build(edition, random, &tree, &lists, dead, spare);
        let reading = check::read(edition, &good).expect("the lengths agree");
        let rules: Vec<Rule> = Rule::WIPED.into_iter().filter(|_| random.one_in(2)).collect();
        let mut frames = vec![soiled(random, &good, &reading, &rules)];
        frames.extend((0..6).filter_map(|_| speckled(random, &good, &reading)));
        for frame in frames {
            let held = comparer.held(frame);
            all_calls(comparer, random, &held)?;
            let out = random.bytes(state.f);
            if let Some(mut moved) = comparer.pack_before(&held, &out)? {
                let change = aimed(edition, random, &moved.state().tree);
                make(comparer, &mut moved, &change)?;
            }
        }
    }
    Ok(())
}

fn all_calls(comparer: &mut Comparer, random: &mut Random, held: &Held) -> Compared<()> {
    comparer.check(held)?;
    comparer.info(held)?;
    comparer.look_up(held, b"a")?;
    let value = comparer.stamped(b"value");
    comparer.put(&mut held.clone(), b"a", value)?;
    comparer.replace(&mut held.clone(), b"a", value)?;
    comparer.erase(&mut held.clone(), b"a")?;
    let changes = [Change::Put { key: b"a".to_vec(), value: value.owned() }];
    let second = random.bytes(held.bytes().len());
    let batch = laid(comparer.edition(), &changes, 0);
    comparer.batch(&mut held.clone(), &second, &batch, &[0xEE; 1])?;
    let asked = Asked { prefix: b"", start: None, delimiter: Some(b'/') };
    comparer.list(held, &asked, &random.bytes(40))?;
    let out = random.bytes(held.bytes().len());
    comparer.pack(held, &out)?;
    comparer.pack_before(held, &out)?;
    Ok(())
}

/// Every call on a frame that is refused, or not.
pub fn every_call(comparer: &mut Comparer, stage: String, bytes: Vec<u8>) -> Compared<()> {
    comparer.begin(stage);
    let mut random = Random::new(bytes.len() as u64);
    let held = comparer.held(bytes);
    all_calls(comparer, &mut random, &held)
}

/// Good frames of the other edition, and the same with the number of this one. What
/// is good in edition 1 is so in edition 2, but for the number.
pub fn other_edition(comparer: &mut Comparer, seed: u64, rounds: Rounds) -> Compared<()> {
    for round in rounds {
        comparer.begin(format!("frames of the other edition, seed {seed}, round {round}"));
        let mut random = Random::new(seed.wrapping_mul(1_000_171).wrapping_add(round));
        let random = &mut random;
        let (edition, other) = (comparer.edition(), comparer.edition().other());
        let leaves = *random.pick(&[1, 2, 3, 5, 20]);
        let tree = if random.one_in(10) { None } else { Some(random_tree(other, random, leaves)) };
        let (mut bytes, _) = build(other, random, &tree, &ByKind::default(), 0, ROOMY);
        let held = comparer.held(bytes.clone());
        if held.refusal() != Some(number::NOT_GOOD) {
            return comparer.differs("a frame of the other edition is taken".to_string());
        }
        all_calls(comparer, random, &held)?;
        comparer.tally.add(Entry::OtherEdition);
        set32(&mut bytes, AT_EDITION, edition.number());
        let held = comparer.held(bytes);
        let taken = held.refusal().is_none();
        if edition == Edition::Two && !taken {
            return comparer.differs("a frame of edition 1, but for its number".to_string());
        }
        comparer.tally.add(Entry::CalledThisEdition { taken });
        all_calls(comparer, random, &held)?;
    }
    Ok(())
}

/// Bytes of any kind and length, with and without a likely header.
pub fn arbitrary_bytes(comparer: &mut Comparer, seed: u64, rounds: Rounds) -> Compared<()> {
    for round in rounds {
        comparer.begin(format!("arbitrary bytes of seed {seed}, round {round}"));
        let mut random = Random::new(seed.wrapping_mul(1_000_039).wrapping_add(round));
        let random = &mut random;
        let length = match random.below(40) {
            0 => *random.pick(&[LONGEST_FRAME - UNIT, LONGEST_FRAME, LONGEST_FRAME + UNIT]),
            1..10 => random.below(80),
            10..20 => random.below(3_000),
            _ => random.from_to(SHORTEST_FRAME / UNIT, 400) * UNIT,
        };
        let mut bytes = random.bytes(length);
        if length >= SHORTEST_FRAME && !random.one_in(4) {
            let n = random.from_to(4, 40) * 2;
            set32(&mut bytes, AT_EDITION, comparer.edition().number());
            set32(&mut bytes, AT_F, length);
            if !random.one_in(4) {
                set32(&mut bytes, AT_N, n);
                set32(&mut bytes, AT_D, data_start(n));
                set32(&mut bytes, AT_B, length / UNIT * UNIT);
                set32(&mut bytes, AT_U, random.from_to(1, n));
                set16(&mut bytes, AT_ROOT, random.from_to(1, n));
                bytes[HEADER_ZERO].fill(0);
            }
        }
        let held = comparer.held(bytes);
        all_calls(comparer, random, &held)?;
    }
    Ok(())
}

/// Good frames with a few bytes changed, wherever they are looked at.
pub fn scratched_frames(comparer: &mut Comparer, seed: u64, rounds: Rounds) -> Compared<()> {
    for round in rounds {
        comparer.begin(format!("scratched frames of seed {seed}, round {round}"));
        let mut random = Random::new(seed.wrapping_mul(1_000_081).wrapping_add(round));
        let random = &mut random;
        let leaves = *random.pick(&[1, 3, 6, 20, 60]);
        let edition = comparer.edition();
        let tree = Some(random_tree(edition, random, leaves));
        let mut lists = ByKind::default();
        for kind in Kind::ALL {
            lists[kind.number()] = random.below(3);
        }
        let (good, state) = build(edition, random, &tree, &lists, 2 * UNIT, ROOMY);
        for _ in 0..20 {
            let mut bytes = good.clone();
            for _ in 0..random.from_to(1, 3) {
                let at = match random.below(3) {
                    0 => random.below(AT_ENTRIES),
                    1 => entry_at(random.from_to(1, state.u)) + random.below(ENTRY_BYTES),
                    _ => random.below(state.b),
                };
                bytes[at] = match random.below(3) {
                    0 => bytes[at] ^ (1 << random.below(8)),
                    1 => bytes[at].wrapping_add(1),
                    _ => random.byte(),
                };
            }
            let held = comparer.held(bytes);
            all_calls(comparer, random, &held)?;
        }
    }
    Ok(())
}

/// A formatted frame, W5 and W10, and a frame with a Prefix, freed bodies and
/// dead extents; in edition 2 one with a chain and keys of bytes 0 besides; all of
/// 1,024 bytes.
pub fn small_frames(edition: Edition) -> Vec<Vec<u8>> {
    const STAMPS: [u64; 6] = [7, 0, u64::MAX, 1 << 63, 255, 256];
    let made = |n: usize, puts: &[&[u8]], erases: &[&[u8]]| {
        let mut frame = vec![0; SHORTEST_FRAME];
        assert_eq!(store::format(edition, &mut frame, SHORTEST_FRAME, n), number::DONE);
        for (key, stamp) in puts.iter().zip(STAMPS.into_iter().cycle()) {
            let value = Value::stamped(edition, &b"v"[..], stamp);
            assert_eq!(store::put(edition, &mut frame, key, value), number::DONE);
        }
        for key in erases {
            assert_eq!(store::erase(edition, &mut frame, key), number::DONE);
        }
        frame
    };
    let mut frames = vec![
        made(8, &[], &[]),
        made(8, &[b"a", b"b", b"ab", b"ac"], &[]),
        made(8, &[b"x", b"ab", b"ac"], &[b"x"]),
        made(20, &[b"long", b"lose", b"loss", b"lost", b"l", b"m"], &[b"loss", b"m"]),
    ];
    if edition == Edition::Two {
        frames.push(made(16, &[&[0; 60], &[0; 61], b"\xff", b"\0"], &[b"\xff"]));
    }
    frames
}

/// Every change of one byte in a few small frames; bytes from B on, of which
/// there are many, get only a few values.
pub fn single_bytes(comparer: &mut Comparer, frames: &[Vec<u8>]) -> Compared<()> {
    const FEW_VALUES: [u8; 3] = [1, 0x80, 0xFF];
    for (frame, bytes) in frames.iter().enumerate() {
        comparer.begin(format!("single bytes of frame {frame}"));
        let mut bytes = bytes.clone();
        for at in 0..bytes.len() {
            let kept = bytes[at];
            let all = 1..=u8::MAX;
            let few = FEW_VALUES.into_iter();
            let flips: Vec<u8> =
                if at < get32(&bytes, AT_B) { all.collect() } else { few.collect() };
            for flip in flips {
                bytes[at] = kept ^ flip;
                let held = comparer.held(bytes.clone());
                comparer.check(&held)?;
            }
            bytes[at] = kept;
        }
    }
    Ok(())
}
