//! Wrong stores that lose stamps, mix them up, or take them where there are none.
//!
//! Believed here: that the comparer tells them from the second store, as it does
//! those of `wrong`, and for the stamp's sake. They are what Q-8 of document 02 could
//! be misread as, and what a store that has the Leaf's last eight bytes written anew
//! could forget.

use crate::batch::{self, AT_KEY_LENGTH, AT_KIND, AT_STAMP, COUNT_BYTES, ERASE, OFFSET_BYTES};
use crate::check;
use crate::compare::{Calls, Second};
use crate::layout::number::*;
use crate::layout::*;
use crate::store::{self, body_at, children, leaf_fields, Found, Step};
use crate::trees::Change;
use crate::value::{get_stamp, set_stamp, Given, Value, STAMP_BYTES};
use crate::wrong::{each_change, end_of_way, started, Altered, Applying, With};
use std::cell::Cell;

const TWO: Edition = Edition::Two;
const RIGHT: Second = Second(TWO);
const WITH: With = With(TWO);

/// Where the Leaf of a slot has its stamp.
fn stamp_at(frame: &[u8], slot: usize) -> usize {
    body_at(frame, slot) + LEAF_STAMP.start
}

/// The live Leaves of a frame whose lengths agree.
fn leaves(edition: Edition, frame: &[u8]) -> Vec<usize> {
    let live = check::read(edition, frame).map(|reading| reading.live).unwrap_or_default();
    live.into_iter().filter(|(_, kind)| *kind == Kind::Leaf).map(|(slot, _)| slot).collect()
}

/// Those among the children of an inner node.
fn leaves_below(frame: &[u8], node: usize) -> Vec<usize> {
    let slots = children(frame, node).into_iter().map(|(_, child)| child);
    slots.filter(|slot| store::slot_kind(frame, *slot) == Kind::Leaf).collect()
}

/// A Leaf's body written anew, without its stamp.
fn lose(frame: &mut [u8], slots: &[usize]) {
    for slot in slots {
        let at = stamp_at(frame, *slot);
        set_stamp(frame, at, 0);
    }
}

/// The node above a key's Leaf, in a frame that has several records.
fn parent(frame: &[u8], key: &[u8]) -> Step {
    let steps = store::walk(frame, &TWO.walked(key));
    steps[steps.len() - 2]
}

/// The stamp of a key that is there.
fn write(frame: &mut [u8], key: &[u8], stamp: u64) {
    let leaf = end_of_way(TWO, frame, key).expect("the key is there").slot;
    let at = stamp_at(frame, leaf);
    set_stamp(frame, at, stamp);
}

/// Stores whose records have other stamps.
pub fn records() -> Vec<Altered> {
    [puts(), replacements(), erases(), packs(), batches()].into_iter().flatten().collect()
}

fn puts() -> Vec<Altered> {
    // Another stamp in place of the one that is passed.
    let other = |name: &str, other: fn(u64) -> u64| {
        WITH.put(name, move |frame, key, value| {
            RIGHT.put(frame, key, Value { stamp: other(value.stamp), ..value })
        })
    };
    // Leaves that lose their stamps beside the new one, by the kind where the way
    // ended and that of the node above the new Leaf.
    let losing = |name: &str, loses: fn(Kind, Kind) -> bool| {
        WITH.put(name, move |frame, key, value| {
            let end = end_of_way(TWO, frame, key).map(|step| step.kind);
            let given = RIGHT.put(frame, key, value);
            if let (DONE, Some(end), true) = (given, end, get32(frame, AT_R) > 1) {
                let above = parent(frame, key);
                if loses(end, above.kind) {
                    let beside = leaves_below(frame, above.slot);
                    lose(frame, &beside);
                    write(frame, key, value.stamp);
                }
            }
            given
        })
    };
    vec![
        other("a put without a stamp", |_| 0),
        other("a put with the highest byte of its stamp first", u64::swap_bytes),
        other("a put with 32 bits of its stamp", |stamp| u64::from(stamp as u32)),
        other("a put with 63 bits of its stamp", |stamp| stamp & (u64::MAX >> 1)),
        losing("a put that loses the stamp of a Leaf that it parts from", |end, _| {
            end == Kind::Leaf
        }),
        losing("a put that loses the stamps of the Leaves beside it", |end, above| end == above),
        losing("a put that loses the stamps below a node that grows", |end, above| {
            end.larger() == Some(above)
        }),
        WITH.put("a put that gives all records its stamp", |frame, key, value| {
            let given = RIGHT.put(frame, key, value);
            if given == DONE {
                for leaf in leaves(TWO, frame) {
                    let at = stamp_at(frame, leaf);
                    set_stamp(frame, at, value.stamp);
                }
            }
            given
        }),
    ]
}

/// Stores that say that nothing is changed, and write a stamp.
pub fn left_alone() -> Vec<Altered> {
    vec![
        WITH.put("a put that says 11 and writes its stamp", |frame, key, value| {
            let given = RIGHT.put(frame, key, value);
            if given == PRESENT {
                write(frame, key, value.stamp);
            }
            given
        }),
        WITH.replace("a replacement that writes its stamp without room", |frame, key, value| {
            let given = RIGHT.replace(frame, key, value);
            if given == NO_ROOM {
                write(frame, key, value.stamp);
            }
            given
        }),
        WITH.replace(
            "a replacement that writes its stamp though the value is too long",
            |frame, key, value| {
                let given = RIGHT.replace(frame, key, value);
                if given == VALUE_LENGTH && RIGHT.look_up(frame, key).number == DONE {
                    write(frame, key, value.stamp);
                }
                given
            },
        ),
    ]
}

fn replacements() -> Vec<Altered> {
    // The stamp that a replacement leaves or writes, by the record that is there.
    type Written = fn(old: Given, new: Given) -> u64;
    let writing = |name: &str, written: Written| {
        WITH.replace(name, move |frame, key, value| {
            let Found { number, place, length, stamp, .. } = RIGHT.look_up(frame, key);
            if number != DONE {
                return RIGHT.replace(frame, key, value);
            }
            let there = frame[place as usize..][..length as usize].to_vec();
            let stamp = written(Value { bytes: &there, stamp }, value);
            RIGHT.replace(frame, key, Value { stamp, ..value })
        })
    };
    vec![
        writing("a replacement of the same length that leaves the stamp", |old, new| {
            if old.bytes.len() == new.bytes.len() {
                old.stamp
            } else {
                new.stamp
            }
        }),
        writing("a replacement of another length that leaves the stamp", |old, new| {
            if old.bytes.len() == new.bytes.len() {
                new.stamp
            } else {
                old.stamp
            }
        }),
        writing("a replacement of another length without a stamp", |old, new| {
            if old.bytes.len() == new.bytes.len() {
                new.stamp
            } else {
                0
            }
        }),
        writing("a replacement that passes over a value that is there", |old, new| {
            if old.bytes == new.bytes {
                old.stamp
            } else {
                new.stamp
            }
        }),
        writing("a replacement that keeps the later stamp", |old, new| old.stamp.max(new.stamp)),
    ]
}

fn erases() -> Vec<Altered> {
    // Leaves that lose their stamps when another one goes, if the node above it does.
    let losing = |name: &str, goes: fn(Kind) -> bool| {
        WITH.erase(name, move |frame, key| {
            let there = RIGHT.look_up(frame, key).number == DONE && get32(frame, AT_R) > 1;
            let above = there.then(|| parent(frame, key)).filter(|step| goes(step.kind));
            let beside = above.map(|step| (step.slot, leaves_below(frame, step.slot)));
            let given = RIGHT.erase(frame, key);
            let live = check::read(TWO, frame).map(|reading| reading.live).unwrap_or_default();
            match beside {
                Some((node, mut left)) if given == DONE && !live.contains_key(&node) => {
                    left.retain(|slot| live.contains_key(slot));
                    lose(frame, &left);
                }
                _ => {}
            }
            given
        })
    };
    vec![
        losing("an erase that loses the stamp of a Leaf that is left alone", |kind| {
            kind == Kind::Node4
        }),
        losing("an erase that loses the stamps below a node that shrinks", |kind| {
            kind != Kind::Node4
        }),
    ]
}

fn packs() -> Vec<Altered> {
    vec![
        WITH.pack("a pack without stamps", |frame, out| {
            let given = RIGHT.pack(frame, out);
            if given == DONE {
                let all = leaves(TWO, out);
                lose(out, &all);
            }
            given
        }),
        WITH.pack("a pack that gives the stamp of each record to the next", |frame, out| {
            let given = RIGHT.pack(frame, out);
            if given == DONE {
                let mut last = 0;
                for leaf in leaves(TWO, out) {
                    let at = stamp_at(out, leaf);
                    let own = get_stamp(out, at);
                    set_stamp(out, at, last);
                    last = own;
                }
            }
            given
        }),
    ]
}

/// Batches whose records get other stamps.
fn batches() -> Vec<Altered> {
    let applying = |name: &str, other: fn(&mut [Change])| {
        WITH.batch(name, move |frame, second, batch, answers| {
            match started(TWO, frame, second, batch) {
                Some(mut changes) => {
                    other(&mut changes);
                    Applying::right(TWO).apply(frame, second, &changes, answers)
                }
                None => RIGHT.batch(frame, second, batch, answers),
            }
        })
    };
    fn restamp(changes: &mut [Change], stamp: u64) {
        for change in changes {
            if let Change::Put { value, .. } | Change::Replace { value, .. } = change {
                value.stamp = stamp;
            }
        }
    }
    vec![
        applying("a batch without stamps", |changes| restamp(changes, 0)),
        applying("a batch with one stamp for all", |changes| {
            let first = changes.iter().find_map(|change| match change {
                Change::Put { value, .. } | Change::Replace { value, .. } => Some(value.stamp),
                Change::Erase { .. } => None,
            });
            restamp(changes, first.unwrap_or_default());
        }),
        reading("a batch that reads a stamp from where the change begins", |batch| {
            each_change(batch, |batch, at| {
                if at + AT_STAMP + STAMP_BYTES <= batch.len() {
                    batch.copy_within(at..at + STAMP_BYTES, at + AT_STAMP);
                }
            });
        }),
    ]
}

/// Another batch in place of the one that is lent.
fn reading(name: &str, other: fn(&mut Vec<u8>)) -> Altered {
    WITH.batch(name, move |frame, second, batch, answers| {
        let mut read = batch.to_vec();
        other(&mut read);
        RIGHT.batch(frame, second, &read, answers)
    })
}

/// Batches that are read by another layout.
pub fn layouts() -> Vec<Altered> {
    vec![
        WITH.batch("a batch in the layout of edition 1", |frame, second, batch, answers| {
            let begun = check::check(TWO, frame) == DONE && frame.len() == second.len();
            match (begun, batch::changes(Edition::One, batch)) {
                (true, Ok(changes)) => Applying::right(TWO).apply(frame, second, &changes, answers),
                (true, Err(_)) => (LAYOUT, 0),
                _ => RIGHT.batch(frame, second, batch, answers),
            }
        }),
        WITH.batch(
            "a batch that wants an erase without a stamp",
            |frame, second, batch, answers| {
                let stamped = started(TWO, frame, second, batch).is_some_and(|changes| {
                    let offset = |index: usize| get32(batch, COUNT_BYTES + OFFSET_BYTES * index);
                    let erases = |at: &usize| get16(batch, at + AT_KIND) == ERASE;
                    let mut all = (0..changes.len()).map(offset).filter(erases);
                    all.any(|at| get_stamp(batch, at + AT_STAMP) != 0)
                });
                if stamped {
                    return (LAYOUT, 0);
                }
                RIGHT.batch(frame, second, batch, answers)
            },
        ),
        reading("a batch whose erase has its key where others have the stamp", |batch| {
            each_change(batch, |batch, at| {
                let key = get16(batch, at + AT_KEY_LENGTH);
                let (from, to) = (at + AT_STAMP, at + AT_STAMP + STAMP_BYTES);
                if get16(batch, at + AT_KIND) == ERASE && to + key <= batch.len() {
                    batch.copy_within(from..from + key, to);
                }
            });
        }),
    ]
}

/// Look-ups that tell other stamps.
pub fn look_ups() -> Vec<Altered> {
    let told = |name: &str, change: fn(&mut Found, &[u8], &[u8])| {
        WITH.look_up(name, move |frame, key| {
            let mut found = RIGHT.look_up(frame, key);
            change(&mut found, frame, key);
            found
        })
    };
    let last = Cell::new(0);
    vec![
        told("a look-up that tells no stamp", |found, _, _| found.stamp = 0),
        told("a look-up that tells the highest byte of a stamp first", |found, _, _| {
            found.stamp = found.stamp.swap_bytes();
        }),
        told("a look-up that tells 32 bits of a stamp", |found, _, _| {
            found.stamp = u64::from(found.stamp as u32);
        }),
        told("a look-up that tells another key's stamp", |found, frame, key| {
            let end = end_of_way(TWO, frame, key).filter(|step| step.kind == Kind::Leaf);
            if let (ABSENT, Some(step)) = (found.number, end) {
                found.stamp = leaf_fields(frame, step.slot).stamp;
            }
        }),
        WITH.look_up("a look-up that tells the last stamp of an absent key", move |frame, key| {
            let mut found = RIGHT.look_up(frame, key);
            match found.number {
                DONE => last.set(found.stamp),
                ABSENT => found.stamp = last.get(),
                _ => {}
            }
            found
        }),
        told("a look-up that tells a stamp of an illegal key", |found, _, _| {
            if found.number == KEY_LENGTH {
                found.stamp = 1;
            }
        }),
        told("a look-up that tells a stamp of a frame that is not good", |found, _, _| {
            if found.number == NOT_GOOD {
                found.stamp = 1;
            }
        }),
    ]
}

/// Checks of edition 2 that refuse some stamps.
pub fn checks() -> Vec<Altered> {
    let refusing = |name: &str, refused: fn(u64) -> bool| {
        WITH.check(name, move |frame| match RIGHT.check(frame) {
            DONE if store::records(frame).values().any(|value| refused(value.stamp)) => NOT_GOOD,
            given => given,
        })
    };
    vec![
        refusing("a check that refuses a stamp", |stamp| stamp != 0),
        refusing("a check that refuses a stamp's highest bit", |stamp| stamp > u64::MAX >> 1),
        refusing("a check that refuses a stamp of more than 32 bits", |stamp| {
            stamp > u64::from(u32::MAX)
        }),
        refusing("a check that refuses a stamp 0", |stamp| stamp == 0),
    ]
}

/// A check of edition 1 that does not look at the last eight bytes of a Leaf.
pub fn checks_of_edition_1() -> Vec<Altered> {
    vec![With(Edition::One).check("a check that takes a stamp in edition 1", |frame| {
        let mut without = frame.to_vec();
        for leaf in leaves(Edition::One, frame) {
            let at = stamp_at(frame, leaf);
            if at + STAMP_BYTES <= frame.len() {
                set_stamp(&mut without, at, 0);
            }
        }
        Second(Edition::One).check(&without)
    })]
}

/// Stores that do not keep zero in edition 1.
pub fn of_edition_1() -> Vec<Altered> {
    let (right, with) = (Second(Edition::One), With(Edition::One));
    fn stamped(frame: &mut [u8]) {
        for leaf in leaves(Edition::One, frame) {
            let at = stamp_at(frame, leaf);
            set_stamp(frame, at, 1);
        }
    }
    vec![
        with.put("a put that writes a stamp in edition 1", move |frame, key, value| {
            let given = right.put(frame, key, value);
            if given == DONE {
                stamped(frame);
            }
            given
        }),
        with.replace("a replacement that writes a stamp in edition 1", move |frame, key, value| {
            let given = right.replace(frame, key, value);
            if given == REPLACED {
                stamped(frame);
            }
            given
        }),
    ]
}

/// A store whose stamps hang on the order of calls on several keys.
pub fn bound_to_an_order() -> Vec<Altered> {
    vec![WITH.put("a put that counts the records for a stamp", |frame, key, value| {
        let counted = check::check(TWO, frame) == DONE;
        let stamp = if counted { get32(frame, AT_R) as u64 } else { value.stamp };
        RIGHT.put(frame, key, Value { stamp, ..value })
    })]
}
