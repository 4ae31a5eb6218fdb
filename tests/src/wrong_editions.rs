//! Wrong stores that mistake one edition for the other, or what a chain is.
//!
//! Believed here: that the comparer tells them from the second store, as it does
//! those of `wrong`. Some are what a store of edition 1 would do with the frames of
//! edition 2, some what Q-7 of document 02 could be misread as.

use crate::batch;
use crate::check::{self, Rule};
use crate::compare::{Calls, Second};
use crate::layout::number::*;
use crate::layout::*;
use crate::names::{Asked, Page};
use crate::store::{
    self, prefix_bytes, prefix_child, set_link, take, write_chain, write_prefix, Chain, Step,
};
use crate::wrong::{end_of_way, entries, laid, matching, Altered, With};

const TWO: Edition = Edition::Two;
const RIGHT: Second = Second(TWO);
const WITH: With = With(TWO);

/// Calls that take a good frame of the other edition for one of theirs.
pub fn by_the_other_edition(edition: Edition) -> Vec<Altered> {
    let (right, with) = (Second(edition), With(edition));
    // The frame as it is taken.
    let taken = move |frame: &[u8]| {
        let mut frame = frame.to_vec();
        if check::check(edition.other(), &frame) == DONE {
            set32(&mut frame, AT_EDITION, edition.number());
        }
        frame
    };
    let changed = move |frame: &mut [u8], change: &dyn Fn(&mut [u8]) -> u32| {
        let mut own = taken(frame);
        let given = change(&mut own);
        if matches!(given, DONE | REPLACED) {
            frame.copy_from_slice(&own);
        }
        given
    };
    vec![
        with.format("a format that writes the other edition", move |frame, f, n| {
            Second(edition.other()).format(frame, f, n)
        }),
        with.check("a check that takes both editions", move |frame| right.check(&taken(frame))),
        with.look_up("a look-up that takes both editions", move |frame, key| {
            right.look_up(&taken(frame), key)
        }),
        with.put("a put that takes both editions", move |frame, key, value| {
            changed(frame, &|frame| right.put(frame, key, value))
        }),
        with.replace(
            "a replacement that takes both editions",
            move |frame, key, value| match right.put(&mut taken(frame), key, value) {
                PRESENT => changed(frame, &|frame| right.replace(frame, key, value)),
                DONE => ABSENT,
                _ => right.replace(frame, key, value),
            },
        ),
        with.erase("an erase that takes both editions", move |frame, key| {
            match right.look_up(&taken(frame), key).number {
                DONE => changed(frame, &|frame| right.erase(frame, key)),
                given => given,
            }
        }),
        with.erase("an erase of the only record that writes the other", move |frame, key| {
            let given = right.erase(frame, key);
            if given == DONE && get32(frame, AT_R) == 0 {
                set32(frame, AT_EDITION, edition.other().number());
            }
            given
        }),
        with.pack("a pack that takes both editions", move |frame, out| {
            right.pack(&taken(frame), out)
        }),
        with.pack("a pack that writes the other edition", move |frame, out| {
            let given = right.pack(frame, out);
            if given == DONE {
                set32(out, AT_EDITION, edition.other().number());
            }
            given
        }),
        with.info("an info that takes both editions", move |frame| right.info(&taken(frame))),
        with.list("a listing that takes both editions", move |frame, asked, buffer| {
            right.list(&taken(frame), asked, buffer)
        }),
        with.batch("a batch that takes both editions", move |frame, second, batch, answers| {
            let mut own = taken(frame);
            let given = right.batch(&mut own, second, batch, answers);
            if given == (DONE, 0) {
                frame.copy_from_slice(&own);
            }
            given
        }),
    ]
}

/// By the rules of edition 1 that edition 2 has others in the place of.
fn refused_by_edition_1(key: &[u8]) -> Option<u32> {
    Edition::One.key_refusal(key)
}

/// What edition 1 says of keys, in edition 2.
pub fn keys() -> Vec<Altered> {
    let longer = |key: &[u8]| key.len() > Edition::One.longest_key();
    let zero = |key: &[u8]| key.contains(&0);
    let cut = |key: &[u8]| {
        let end = key.iter().position(|byte| *byte == 0).filter(|end| *end > 0);
        key[..end.unwrap_or(key.len())].to_vec()
    };
    vec![
        WITH.look_up("a look-up that gives 4", move |frame, key| {
            let mut found = RIGHT.look_up(frame, key);
            if matches!(found.number, DONE | ABSENT) && zero(key) {
                found = store::Found::refused(KEY_HOLDS_ZERO);
            }
            found
        }),
        WITH.look_up("a look-up that ends a key at its first byte 0", move |frame, key| {
            RIGHT.look_up(frame, &cut(key))
        }),
        WITH.look_up("a look-up that refuses more than 112 bytes", move |frame, key| {
            let mut found = RIGHT.look_up(frame, key);
            if matches!(found.number, DONE | ABSENT) && longer(key) {
                found = store::Found::refused(KEY_LENGTH);
            }
            found
        }),
        WITH.look_up("a look-up that counts a chain as one slot", |frame, key| {
            let mut found = RIGHT.look_up(frame, key);
            if matches!(found.number, DONE | ABSENT) {
                let steps = store::walk(frame, &TWO.walked(key));
                let two = |two: &&[Step]| two.iter().all(|step| step.kind == Kind::Prefix);
                found.slots -= steps.windows(2).filter(two).count() as u64;
            }
            found
        }),
        WITH.put("a put that gives 4", move |frame, key, value| {
            match RIGHT.put(&mut frame.to_vec(), key, value) {
                DONE | PRESENT | NO_ROOM | VALUE_LENGTH if zero(key) => KEY_HOLDS_ZERO,
                _ => RIGHT.put(frame, key, value),
            }
        }),
        WITH.put("a put that refuses more than 112 bytes", move |frame, key, value| {
            match RIGHT.put(&mut frame.to_vec(), key, value) {
                DONE | PRESENT | NO_ROOM if longer(key) => KEY_LENGTH,
                _ => RIGHT.put(frame, key, value),
            }
        }),
        WITH.put("a put that ends a key at its first byte 0", move |frame, key, value| {
            RIGHT.put(frame, &cut(key), value)
        }),
        WITH.replace("a replacement that gives 4", move |frame, key, value| {
            match RIGHT.replace(&mut frame.to_vec(), key, value) {
                REPLACED | ABSENT if zero(key) => KEY_HOLDS_ZERO,
                _ => RIGHT.replace(frame, key, value),
            }
        }),
        WITH.erase("an erase that gives 4", move |frame, key| {
            match RIGHT.erase(&mut frame.to_vec(), key) {
                DONE | ABSENT if zero(key) => KEY_HOLDS_ZERO,
                _ => RIGHT.erase(frame, key),
            }
        }),
        WITH.erase("an erase that refuses more than 112 bytes", move |frame, key| {
            match RIGHT.erase(&mut frame.to_vec(), key) {
                DONE | ABSENT if longer(key) => KEY_LENGTH,
                _ => RIGHT.erase(frame, key),
            }
        }),
        WITH.batch("a batch with the keys of edition 1", |frame, second, batch, answers| {
            let begun = check::check(TWO, frame) == DONE && frame.len() == second.len();
            let changes = batch::changes(TWO, batch).unwrap_or_default();
            let refused = changes.iter().position(|it| refused_by_edition_1(it.key()).is_some());
            match refused.filter(|_| begun) {
                Some(at) => {
                    let (before, number) = (batch::laid(TWO, &changes[..at], 0), changes[at].key());
                    let mut own = frame.to_vec();
                    match RIGHT.batch(&mut own, second, &before, &mut []) {
                        (DONE, _) => (
                            refused_by_edition_1(number).expect("one that is refused"),
                            at as u64 + 1,
                        ),
                        given => given,
                    }
                }
                None => RIGHT.batch(frame, second, batch, answers),
            }
        }),
    ]
}

/// The Prefixes of a good frame, each with the kind of its child.
fn prefixes_of(frame: &[u8]) -> Vec<(usize, Kind)> {
    let live = check::read(TWO, frame).map(|reading| reading.live).unwrap_or_default();
    let prefixes = live.iter().filter(|(_, kind)| **kind == Kind::Prefix);
    let child = |slot: usize| live.get(&prefix_child(frame, slot)).copied();
    prefixes.filter_map(|(slot, _)| Some((*slot, child(*slot)?))).collect()
}

/// Those that begin a chain of several.
fn tops(frame: &[u8]) -> Vec<usize> {
    let all = prefixes_of(frame);
    let below: Vec<usize> = all
        .iter()
        .filter(|(_, child)| *child == Kind::Prefix)
        .map(|(slot, _)| prefix_child(frame, *slot))
        .collect();
    let long = all.iter().filter(|(_, child)| *child == Kind::Prefix);
    long.map(|(slot, _)| *slot).filter(|slot| !below.contains(slot)).collect()
}

/// Moves a byte from the first Prefix of a chain to the second, and so on, if the
/// last one has room: one in the middle is then not full.
fn unfilled(frame: &mut [u8], top: usize) {
    let Chain { slots, bytes, below } = store::chain(frame, top);
    if bytes.len().is_multiple_of(LONGEST_PREFIX) {
        return;
    }
    let (first, rest) = bytes.split_at(LONGEST_PREFIX - 1);
    let pieces: Vec<&[u8]> = [first].into_iter().chain(rest.chunks(LONGEST_PREFIX)).collect();
    let mut under = below;
    for (slot, piece) in slots.iter().zip(&pieces).rev() {
        write_prefix(frame, *slot, piece, under);
        under = *slot;
    }
}

/// Whether one more Prefix could be taken.
fn has_a_prefix_more(frame: &[u8]) -> bool {
    let listed = get16(frame, list_head_at(Kind::Prefix.number())) != 0;
    let slot_left = get32(frame, AT_U) < get32(frame, AT_N);
    listed || slot_left && get32(frame, AT_B) + Kind::Prefix.body_bytes() <= frame.len()
}

/// The live Prefixes.
fn count(frame: &[u8]) -> usize {
    check::read(TWO, frame)
        .map_or(0, |reading| reading.live.values().filter(|kind| **kind == Kind::Prefix).count())
}

/// What a chain is misread as.
pub fn chains() -> Vec<Altered> {
    vec![
        WITH.check("a check that takes any Prefix over a Prefix", |frame| {
            let given = RIGHT.check(frame);
            let only = |reading: &check::Reading| {
                reading.broken.keys().all(|rule| *rule == Rule::PrefixChild)
            };
            let over = |(_, child): &(usize, Kind)| child.is_inner() || *child == Kind::Prefix;
            match check::read(TWO, frame).filter(only) {
                Some(_) if prefixes_of(frame).iter().all(over) => DONE,
                _ => given,
            }
        }),
        WITH.check("a check that takes no Prefix over a Prefix", |frame| {
            let over = |(_, child): &(usize, Kind)| !child.is_inner();
            match RIGHT.check(frame) {
                DONE if prefixes_of(frame).iter().any(over) => NOT_GOOD,
                given => given,
            }
        }),
        WITH.check("a check that takes a full Prefix over a Leaf", |frame| {
            let given = RIGHT.check(frame);
            let only = |reading: &check::Reading| {
                reading.broken.keys().all(|rule| *rule == Rule::PrefixChild)
            };
            let full = |slot: usize| prefix_bytes(frame, slot).len() == LONGEST_PREFIX;
            let over = |(slot, child): &(usize, Kind)| child.is_inner() || full(*slot);
            match check::read(TWO, frame).filter(only) {
                Some(_) if prefixes_of(frame).iter().all(over) => DONE,
                _ => given,
            }
        }),
        WITH.check("a check that refuses a byte 0 in a key", |frame| match RIGHT.check(frame) {
            DONE if store::records(frame).keys().any(|key| key.contains(&0)) => NOT_GOOD,
            given => given,
        }),
        WITH.check("a check that refuses a key of more than 112 bytes", |frame| {
            match RIGHT.check(frame) {
                DONE if store::records(frame).keys().any(|key| key.len() > 112) => NOT_GOOD,
                given => given,
            }
        }),
        WITH.put("a put that leaves a Prefix in a chain that is not full", |frame, key, value| {
            let given = RIGHT.put(frame, key, value);
            if given == DONE {
                tops(frame).into_iter().for_each(|top| unfilled(frame, top));
            }
            given
        }),
        WITH.erase("an erase that leaves a Prefix in a chain that is not full", |frame, key| {
            let before = tops(frame);
            let given = RIGHT.erase(frame, key);
            if given == DONE {
                let new = tops(frame).into_iter().filter(|top| !before.contains(top));
                new.collect::<Vec<usize>>().into_iter().for_each(|top| unfilled(frame, top));
            }
            given
        }),
        WITH.put("a put that needs a Prefix for each part of a cut", |frame, key, value| {
            let cut = end_of_way(TWO, frame, key).filter(|step| step.kind == Kind::Prefix);
            let mut tried = frame.to_vec();
            let given = RIGHT.put(&mut tried, key, value);
            if given == DONE && cut.is_some() && !has_a_prefix_more(&tried) {
                return NO_ROOM;
            }
            RIGHT.put(frame, key, value)
        }),
        WITH.put("a put that needs one Prefix too many to part a Leaf", |frame, key, value| {
            let leaf = end_of_way(TWO, frame, key).filter(|step| step.kind == Kind::Leaf);
            let mut tried = frame.to_vec();
            let given = RIGHT.put(&mut tried, key, value);
            if given == DONE && leaf.is_some() && !has_a_prefix_more(&tried) {
                return NO_ROOM;
            }
            RIGHT.put(frame, key, value)
        }),
        WITH.put("a put that loses the Prefix that a cut leaves over", |frame, key, value| {
            let before = count(frame);
            let given = RIGHT.put(frame, key, value);
            if given == DONE && count(frame) < before {
                let head = list_head_at(Kind::Prefix.number());
                let (_, next) = get_entry(frame, get16(frame, head));
                set16(frame, head, next);
                set32(frame, AT_X, get32(frame, AT_X) + Kind::Prefix.body_bytes());
            }
            given
        }),
        WITH.erase("an erase that needs a Prefix where a byte joins one", |frame, key| {
            let mut tried = frame.to_vec();
            let before = count(frame);
            let given = RIGHT.erase(&mut tried, key);
            let joined = given == DONE && before > 0 && count(&tried) == before;
            if joined && !has_a_prefix_more(&tried) {
                return NO_ROOM;
            }
            RIGHT.erase(frame, key)
        }),
        WITH.erase("an erase that leaves a Prefix above a lone Leaf", |frame, key| {
            let before = frame.to_vec();
            let given = RIGHT.erase(frame, key);
            if given != DONE || get32(frame, AT_R) == 0 || count(frame) >= count(&before) {
                return given;
            }
            if let Some(Step { kind: Kind::Leaf, slot, link, depth }) = end_of_way(TWO, frame, key)
            {
                let string = store::leaf_walked(TWO, frame, slot);
                let prefix = take(frame, Kind::Prefix);
                let long = (string.len() - depth).min(LONGEST_PREFIX);
                write_prefix(frame, prefix, &string[depth..depth + long], slot);
                set_link(frame, link, prefix);
            }
            given
        }),
        WITH.pack("a pack that writes the short Prefix of a chain first", |frame, out| {
            let given = RIGHT.pack(frame, out);
            if given == DONE {
                for top in tops(out) {
                    let Chain { slots, bytes, below } = store::chain(out, top);
                    let pieces: Vec<&[u8]> = bytes.rchunks(LONGEST_PREFIX).collect();
                    slots.iter().rev().zip(pieces).fold(below, |below, (slot, piece)| {
                        write_prefix(out, *slot, piece, below);
                        *slot
                    });
                }
            }
            given
        }),
        WITH.pack("a pack that numbers a chain from its last Prefix", |frame, out| {
            let given = RIGHT.pack(frame, out);
            let root = (given == DONE).then(|| get16(out, AT_ROOT));
            if let Some(root) = root.filter(|root| tops(out).contains(root)) {
                let Chain { mut slots, bytes, below } = store::chain(out, root);
                slots.reverse();
                let top = write_chain(out, &slots, &bytes, below);
                set16(out, AT_ROOT, top);
            }
            given
        }),
    ]
}

/// An entry as the walked string has it, without the end.
fn escaped(entry: &[u8]) -> Vec<u8> {
    let mut walked = TWO.walked(entry);
    walked.truncate(walked.len() - 2);
    walked
}

/// None of a listing that is refused.
type Entries = fn(&[u8], &Asked) -> Option<Vec<Vec<u8>>>;

pub fn lists() -> Vec<Altered> {
    let listing = |name: &str, other: Entries| {
        WITH.list(name, move |frame, asked, buffer| match other(frame, asked) {
            Some(entries) => laid(&entries, buffer),
            None => RIGHT.list(frame, asked, buffer),
        })
    };
    let refused = |name: &str, refusal: fn(&Asked) -> Option<u32>| {
        WITH.list(name, move |frame, asked, buffer| {
            let page = RIGHT.list(frame, asked, &mut buffer.to_vec());
            match refusal(asked) {
                Some(number) if matches!(page.number, DONE | BUFFER) => Page::refused(number),
                _ => RIGHT.list(frame, asked, buffer),
            }
        })
    };
    vec![
        listing("a listing that writes the 255 behind a byte 0", |frame, asked| {
            Some(entries(TWO, frame, asked)?.iter().map(|entry| escaped(entry)).collect())
        }),
        listing("a listing that ends an entry at its first byte 0", |frame, asked| {
            let cut = |entry: &Vec<u8>| {
                let end = entry.iter().position(|byte| *byte == 0).unwrap_or(entry.len());
                entry[..end].to_vec()
            };
            Some(entries(TWO, frame, asked)?.iter().map(cut).collect())
        }),
        listing("a listing that passes over keys with a byte 0", |frame, asked| {
            let mut all = entries(TWO, frame, asked)?;
            all.retain(|entry| !entry.contains(&0));
            Some(all)
        }),
        listing("a listing that sorts a byte 0 behind all others", |frame, asked| {
            let mut all = entries(TWO, frame, asked)?;
            let last = |entry: &Vec<u8>| -> Vec<u8> {
                entry.iter().map(|byte| byte.wrapping_sub(1)).collect()
            };
            all.sort_by_key(last);
            Some(all)
        }),
        listing("a listing that sorts a key behind those that it begins", |frame, asked| {
            let mut all = entries(TWO, frame, asked)?;
            all.sort_by_key(|entry| [&entry[..], &[u8::MAX, u8::MAX]].concat());
            Some(all)
        }),
        listing("a listing that takes the end of a key for its byte 0", |frame, asked| {
            // A prefix that ends with a byte 0 matches the key before it as well.
            let mut all = entries(TWO, frame, asked)?;
            if let [before @ .., 0] = asked.prefix {
                let there = matching(TWO, frame, &Asked { prefix: before, ..*asked })?;
                let after = asked.start.is_none_or(|start| before > start);
                if after && there.iter().any(|key| key == before) {
                    all.insert(0, before.to_vec());
                }
            }
            Some(all)
        }),
        listing("a listing without a byte 0 as delimiter", |frame, asked| {
            let delimiter = asked.delimiter.filter(|byte| *byte != 0);
            entries(TWO, frame, &Asked { delimiter, ..*asked })
        }),
        refused("a listing that gives 4", |asked| {
            asked.start.filter(|start| start.contains(&0)).map(|_| KEY_HOLDS_ZERO)
        }),
        refused("a listing with a prefix of at most 112 bytes", |asked| {
            (asked.prefix.len() > Edition::One.longest_key()).then_some(KEY_LENGTH)
        }),
        refused("a listing with a start key of at most 112 bytes", |asked| {
            let longer = |start: &&[u8]| start.len() > Edition::One.longest_key();
            asked.start.filter(longer).map(|_| KEY_LENGTH)
        }),
    ]
}
