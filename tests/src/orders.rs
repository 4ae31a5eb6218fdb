//! One set of records reached in many ways, and calls made in any order.
//!
//! Believed here: "For a set of records, F and N": the packed image depends
//! on nothing else. Whatever the order of the calls, and whatever was put and
//! erased on the way, equal records pack to equal bytes, and other records to
//! other bytes. And Q-14: two sequences over one good frame with the same
//! changes, those on one key in the same order, give the same answers and pack
//! to the same bytes if none is refused.

use crate::compare::{Calls, Compared, Comparer, Held};
use crate::crafted::{build, Spare};
use crate::layout::number::{ABSENT, DONE, PRESENT, REPLACED};
use crate::layout::{Edition, Kind};
use crate::random::Random;
use crate::run::Rounds;
use crate::slotless::ByKind;
use crate::store::Records;
use crate::tally::Entry;
use crate::trees::{aimed, random_tree, small_value, Change};
use crate::value::Value;
use std::collections::BTreeMap;

const F: usize = 131_072;
const N: usize = 1_200;

fn packed(comparer: &mut Comparer, held: &Held, fill: u8) -> Compared<Vec<u8>> {
    let image = comparer.pack(held, &vec![fill; held.bytes().len()])?;
    Ok(image.expect("a good frame packs").bytes().to_vec())
}

fn fresh(comparer: &mut Comparer, fill: u8) -> Compared<Held> {
    Ok(comparer.format(&vec![fill; F], F, N)?.expect("F and N are within the limits"))
}

/// Nodes of all kinds, Prefixes, keys that are the beginning of others.
fn some_records(edition: Edition, random: &mut Random) -> Records {
    let mut records = Records::new();
    // In edition 2 beginnings of bytes 0 take chains.
    let starts: &[&[u8]] = match edition {
        Edition::One => &[b"", b"line.", b"line.rate", b"z"],
        Edition::Two => &[b"", b"line.", &[0; 57], &[0; 114], &[b'z'; 130]],
    };
    for _ in 0..random.from_to(2, 120) {
        let mut key = random.pick(starts).to_vec();
        key.extend((0..random.from_to(1, 2)).map(|_| random.key_byte(edition)));
        let length = random.below(20);
        records.insert(key, random.value(edition, length));
    }
    records
}

/// Puts the records in a random order, with detours: another value first, or
/// a record that does not belong and goes again.
fn reach(comparer: &mut Comparer, random: &mut Random, records: &Records) -> Compared<Held> {
    let fill = random.byte();
    let mut held = fresh(comparer, fill)?;
    let edition = comparer.edition();
    let mut order: Vec<(&Vec<u8>, &Value<Vec<u8>>)> = records.iter().collect();
    random.shuffle(&mut order);
    let mut strangers = Vec::new();
    for (key, value) in order {
        if random.one_in(4) {
            // In edition 2 at times the same bytes with another stamp.
            let bytes = match edition {
                Edition::Two if random.one_in(2) => &value.bytes[..],
                _ => b"another",
            };
            let another = Value { bytes, stamp: random.stamp(edition) };
            comparer.put_or_replace(&mut held, key, another)?;
        }
        if random.one_in(4) {
            let stranger = [&key[..], &[random.key_byte(edition)]].concat();
            if !records.contains_key(&stranger) {
                let value = Value { bytes: &b"stranger"[..], stamp: random.stamp(edition) };
                comparer.put_or_replace(&mut held, &stranger, value)?;
                strangers.push(stranger);
            }
        }
        comparer.put_or_replace(&mut held, key, value.given())?;
    }
    for stranger in strangers {
        comparer.erase(&mut held, &stranger)?;
    }
    Ok(held)
}

pub fn same_records(comparer: &mut Comparer, seed: u64, rounds: Rounds) -> Compared<()> {
    for round in rounds {
        comparer.begin(format!("same records, seed {seed}, round {round}"));
        let mut random = Random::new(seed.wrapping_mul(15_485_863).wrapping_add(round));
        let mut records = some_records(comparer.edition(), &mut random);
        let one = reach(comparer, &mut random, &records)?;
        let other = reach(comparer, &mut random, &records)?;
        let image = packed(comparer, &one, 0xEE)?;
        if packed(comparer, &other, 0x11)? != image {
            return comparer.differs("two orders pack to two images".to_string());
        }
        let again = comparer.held(image.clone());
        if packed(comparer, &again, 0x55)? != image {
            return comparer.differs("a packed image packs to another".to_string());
        }
        let (key, mut value) = records.pop_last().expect("there are records");
        // In edition 2 in every second round by the stamp alone.
        if comparer.edition() == Edition::Two && round % 2 == 1 {
            value.stamp ^= 1 << random.below(u64::BITS as usize);
        } else {
            value.bytes.push(b'!');
        }
        records.insert(key, value);
        let changed = reach(comparer, &mut random, &records)?;
        if packed(comparer, &changed, 0xEE)? == image {
            return comparer.differs("other records pack to the same image".to_string());
        }
    }
    Ok(())
}

/// Of ten pairs of sequences, so many have to be without a refusal.
const STAY_OF_TEN: u64 = 8;

/// Nothing is predicted here: the calls are held to one another.
pub fn any_order(comparer: &mut Comparer, seed: u64, rounds: Rounds) -> Compared<()> {
    let (mut stay, all) = (0, rounds.end - rounds.start);
    for round in rounds {
        comparer.begin(format!("any order, seed {seed}, round {round}"));
        let mut random = Random::new(seed.wrapping_mul(32_452_843).wrapping_add(round));
        let (frame, changes) = some_changes(comparer.edition(), &mut random);
        let shuffled = shuffled_by_key(&mut random, &changes);
        let calls = comparer.calls();
        let (one, other) = (made(calls, &frame, &changes), made(calls, &frame, &shuffled));
        let answers = || one.answers.values().chain(other.answers.values()).flatten();
        let answered = |number: &u32| matches!(*number, DONE | ABSENT | REPLACED | PRESENT);
        let refused = !answers().all(answered);
        comparer.tally.add(Entry::Shuffled { refused });
        if refused {
            continue;
        }
        stay += 1;
        answers().for_each(|number| comparer.tally.add(Entry::ShuffledAnswer(*number)));
        if one.answers != other.answers {
            let mut keys = one.answers.keys();
            let key = keys.find(|key| one.answers[*key] != other.answers[*key]);
            let key = key.expect("an answer differs").escape_ascii();
            return comparer.differs(format!("the calls on \"{key}\" answer by their order"));
        }
        if one.packed != other.packed {
            return comparer.differs("the same calls in two orders pack to two images".to_string());
        }
        if one.frame != other.frame {
            comparer.tally.add(Entry::ShuffledFramesDiffer);
        }
    }
    if stay * 10 < all * STAY_OF_TEN {
        return comparer.differs(format!("only {stay} of {all} pairs are without a refusal"));
    }
    Ok(())
}

/// A good frame, mostly with room for all, and changes on a few keys: some that
/// it holds, some that part from them.
fn some_changes(edition: Edition, random: &mut Random) -> (Vec<u8>, Vec<Change>) {
    let leaves = *random.pick(&[1, 3, 8, 20, 60]);
    let tree = if random.one_in(10) { None } else { Some(random_tree(edition, random, leaves)) };
    let mut lists = ByKind::default();
    for kind in Kind::ALL {
        lists[kind.number()] = random.below(2);
    }
    let roomy = Spare { slots: 80, bytes: 10_240 };
    let tight = Spare { slots: 8, bytes: 256 };
    let spare = if random.one_in(12) { tight } else { roomy };
    let (frame, _) = build(edition, random, &tree, &lists, 0, spare);
    let some_keys = random.from_to(2, 10);
    let keys: Vec<Vec<u8>> =
        (0..some_keys).map(|_| aimed(edition, random, &tree).key().to_vec()).collect();
    let some_calls = random.from_to(4, 40);
    let changes = (0..some_calls).map(|_| {
        let key = random.pick(&keys).clone();
        match random.below(5) {
            0 | 1 => Change::Put { key, value: small_value(edition, random) },
            2 | 3 => Change::Replace { key, value: small_value(edition, random) },
            _ => Change::Erase { key },
        }
    });
    let changes = changes.collect();
    (frame, changes)
}

/// The same changes in another order; those on one key stand as they stood.
fn shuffled_by_key(random: &mut Random, changes: &[Change]) -> Vec<Change> {
    let mut left: BTreeMap<&[u8], Vec<&Change>> = BTreeMap::new();
    for change in changes.iter().rev() {
        left.entry(change.key()).or_default().push(change);
    }
    let mut turns: Vec<&[u8]> = changes.iter().map(Change::key).collect();
    random.shuffle(&mut turns);
    let next = |key| left.get_mut(key).and_then(Vec::pop).expect("a change on this key is left");
    turns.into_iter().map(next).cloned().collect()
}

/// What a sequence came to.
struct Made {
    /// The numbers of the calls on each key, in their order.
    answers: BTreeMap<Vec<u8>, Vec<u32>>,
    frame: Vec<u8>,
    packed: Vec<u8>,
}

fn made(calls: &dyn Calls, frame: &[u8], changes: &[Change]) -> Made {
    let mut frame = frame.to_vec();
    let mut answers: BTreeMap<Vec<u8>, Vec<u32>> = BTreeMap::new();
    for change in changes {
        let given = match change {
            Change::Put { key, value } => calls.put(&mut frame, key, value.given()),
            Change::Replace { key, value } => calls.replace(&mut frame, key, value.given()),
            Change::Erase { key } => calls.erase(&mut frame, key),
        };
        answers.entry(change.key().to_vec()).or_default().push(given);
    }
    let mut packed = vec![0; frame.len()];
    let given = calls.pack(&frame, &mut packed);
    assert_eq!(given, DONE, "a frame after changes packs");
    Made { answers, frame, packed }
}
