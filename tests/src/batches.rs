//! Random batches, and damaged ones.
//!
//! Believed here: that these batches are worth applying: with changes that are
//! done, in vain and refused, in frames with room and without; second frames of
//! any bytes and of another length; room for fewer answers and for more; every
//! byte of some batches changed, and every shorter part of them.

use crate::batch::{self, laid};
use crate::compare::{Compared, Comparer};
use crate::crafted::{build, Spare};
use crate::layout::*;
use crate::random::Random;
use crate::run::Rounds;
use crate::slotless::ByKind;
use crate::store;
use crate::trees::{aimed, random_tree, small_value, Change};
use crate::value::Value;

fn some_change(edition: Edition, random: &mut Random, keys: &[Vec<u8>]) -> Change {
    let too_long = vec![b'k'; edition.longest_key() + 1];
    let key = match random.below(60) {
        0 => random.pick(&[&b""[..], b"a\0b", &too_long]).to_vec(),
        _ => random.pick(keys).clone(),
    };
    let value = match random.below(150) {
        0 => Value { bytes: vec![0; LONGEST_VALUE + 1], stamp: random.stamp(edition) },
        _ => small_value(edition, random),
    };
    match random.below(3) {
        0 => Change::Put { key, value },
        1 => Change::Replace { key, value },
        _ => Change::Erase { key },
    }
}

/// Batches over one frame after another.
pub fn batches(comparer: &mut Comparer, seed: u64, rounds: Rounds) -> Compared<()> {
    for round in rounds {
        comparer.begin(format!("batches of seed {seed}, round {round}"));
        let mut random = Random::new(seed.wrapping_mul(1_000_117).wrapping_add(round));
        let random = &mut random;
        let edition = comparer.edition();
        let leaves = *random.pick(&[1, 3, 8, 20, 60]);
        let tree =
            if random.one_in(10) { None } else { Some(random_tree(edition, random, leaves)) };
        let mut lists = ByKind::default();
        for kind in Kind::ALL {
            lists[kind.number()] = random.below(2);
        }
        let roomy = Spare { slots: 60, bytes: 8_192 };
        let tight = Spare { slots: 6, bytes: 256 };
        let spare = if random.one_in(5) { tight } else { roomy };
        let mut held = comparer.held(build(edition, random, &tree, &lists, 0, spare).0);
        let keys: Vec<Vec<u8>> =
            (0..8).map(|_| aimed(edition, random, &tree).key().to_vec()).collect();
        for _ in 0..3 {
            let some = random.below(24);
            let changes: Vec<Change> =
                (0..some).map(|_| some_change(edition, random, &keys)).collect();
            let gap = if random.one_in(3) { random.from_to(1, 9) } else { 0 };
            let batch = laid(edition, &changes, gap);
            if batch::changes(edition, &batch).as_ref() != Ok(&changes) {
                return comparer.differs("a batch does not read back".to_string());
            }
            let f = held.bytes().len();
            let length = match random.below(12) {
                0 => *random.pick(&[0, 1, f - UNIT, f - 1, f + 1, f + UNIT]),
                _ => f,
            };
            let second = random.bytes(length);
            let answers = match random.below(4) {
                0 => random.below(some + 1),
                1 => some + random.from_to(1, 3),
                _ => some,
            };
            let answers = random.bytes(answers);
            comparer.batch(&mut held, &second, &batch, &answers)?;
        }
    }
    Ok(())
}

/// A frame of 1,024 bytes, and batches that are done on it.
fn small_batches(edition: Edition) -> (Vec<u8>, [Vec<Change>; 3]) {
    let mut frame = vec![0; SHORTEST_FRAME];
    assert_eq!(store::format(edition, &mut frame, SHORTEST_FRAME, 20), number::DONE);
    let value = |bytes: &[u8], stamp: u64| Value::stamped(edition, bytes.to_vec(), stamp);
    let first = value(b"1", u64::MAX);
    assert_eq!(store::put(edition, &mut frame, b"a", first.given()), number::DONE);
    let put = |key: &[u8], value| Change::Put { key: key.into(), value };
    let replace = |key: &[u8], value| Change::Replace { key: key.into(), value };
    let erase = |key: &[u8]| Change::Erase { key: key.into() };
    let batches = [
        vec![put(b"b", value(b"2", 1)), replace(b"a", value(b"34", 2)), erase(b"b")],
        vec![erase(b"c"), put(b"a", value(b"5", 3)), put(b"ab", value(b"", 1 << 63))],
        vec![replace(b"z", value(b"0", 4)), replace(b"a", value(b"1", 5)), erase(b"a")],
    ];
    (frame, batches)
}

/// Every change of one byte, and every part that is shorter.
pub fn damaged_batches(comparer: &mut Comparer) -> Compared<()> {
    const FLIPS: [u8; 10] = [1, 2, 4, 8, 16, 32, 64, 128, 3, 255];
    comparer.begin("damaged batches".to_string());
    let (frame, batches) = small_batches(comparer.edition());
    let held = comparer.held(frame);
    let second = vec![0xEE; SHORTEST_FRAME];
    for (changes, gap) in batches.iter().zip([0, 3, 0]) {
        let batch = laid(comparer.edition(), changes, gap);
        comparer.batch(&mut held.clone(), &second, &batch, &[0xEE; 4])?;
        for length in 0..batch.len() {
            comparer.batch(&mut held.clone(), &second, &batch[..length], &[0xEE; 4])?;
        }
        for at in 0..batch.len() {
            for flip in FLIPS {
                let mut damaged = batch.clone();
                damaged[at] ^= flip;
                comparer.batch(&mut held.clone(), &second, &damaged, &[0xEE; 4])?;
            }
        }
        for count in [0, 1, 1 << 16, 1 << 30, 1 << 31, u32::MAX as usize] {
            let mut damaged = batch.clone();
            set32(&mut damaged, 0, count);
            comparer.batch(&mut held.clone(), &second, &damaged, &[0xEE; 4])?;
            comparer.batch(&mut held.clone(), &second[8..], &damaged, &[0xEE; 4])?;
        }
    }
    Ok(())
}
