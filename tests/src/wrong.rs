//! Deliberately wrong stores, and a right one that uses every freedom.
//!
//! Believed here: that the comparer tells them apart. Each wrong store is the
//! second store of an edition with one fault; the comparison must catch every one
//! of them, and must let pass the store that differs only where the documents allow
//! it.

use crate::batch::{self, AT_KIND, AT_STAMP, AT_VALUE_LENGTH, COUNT_BYTES, OFFSET_BYTES, PUT};
use crate::check::{self, Rule};
use crate::compare::{Calls, Second};
use crate::image::image;
use crate::layout::number::*;
use crate::layout::*;
use crate::names::{self, Asked, Page, LENGTH_BYTES};
use crate::store::{self, body_at, children, release, set_link, take, Found, LeafFields, Step};
use crate::trees::Change;
use crate::unused;
use crate::value::Given;
use std::ops::Range;

type Format = dyn Fn(&mut [u8], usize, usize) -> u32;
type Check = dyn Fn(&[u8]) -> u32;
type LookUp = dyn Fn(&[u8], &[u8]) -> Found;
type Put = dyn Fn(&mut [u8], &[u8], Given) -> u32;
type Erase = dyn Fn(&mut [u8], &[u8]) -> u32;
type Pack = dyn Fn(&[u8], &mut [u8]) -> u32;
type List = dyn Fn(&[u8], &Asked, &mut [u8]) -> Page;
type Batch = dyn Fn(&mut [u8], &mut [u8], &[u8], &mut [u8]) -> (u32, u64);
type Info = dyn Fn(&[u8]) -> (u32, [u64; INFO_NUMBERS]);

/// The second store with some calls exchanged.
pub struct Altered {
    pub name: String,
    edition: Edition,
    format: Box<Format>,
    check: Box<Check>,
    look_up: Box<LookUp>,
    put: Box<Put>,
    replace: Box<Put>,
    erase: Box<Erase>,
    pack: Box<Pack>,
    pack_before: Box<Pack>,
    info: Box<Info>,
    list: Box<List>,
    batch: Box<Batch>,
}

impl Altered {
    fn named(edition: Edition, name: &str) -> Altered {
        let second = Second(edition);
        Altered {
            name: name.to_string(),
            edition,
            format: Box::new(move |frame, f, n| second.format(frame, f, n)),
            check: Box::new(move |frame| second.check(frame)),
            look_up: Box::new(move |frame, key| second.look_up(frame, key)),
            put: Box::new(move |frame, key, value| second.put(frame, key, value)),
            replace: Box::new(move |frame, key, value| second.replace(frame, key, value)),
            erase: Box::new(move |frame, key| second.erase(frame, key)),
            pack: Box::new(move |frame, out| second.pack(frame, out)),
            pack_before: Box::new(move |frame, out| second.pack_before(frame, out)),
            info: Box::new(move |frame| second.info(frame)),
            list: Box::new(move |frame, asked, buffer| second.list(frame, asked, buffer)),
            batch: Box::new(move |frame, lent, batch, answers| {
                second.batch(frame, lent, batch, answers)
            }),
        }
    }
}

impl Calls for Altered {
    fn edition(&self) -> Edition {
        self.edition
    }
    fn format(&self, frame: &mut [u8], f: usize, n: usize) -> u32 {
        (self.format)(frame, f, n)
    }
    fn check(&self, frame: &[u8]) -> u32 {
        (self.check)(frame)
    }
    fn look_up(&self, frame: &[u8], key: &[u8]) -> Found {
        (self.look_up)(frame, key)
    }
    fn put(&self, frame: &mut [u8], key: &[u8], value: Given) -> u32 {
        (self.put)(frame, key, value)
    }
    fn replace(&self, frame: &mut [u8], key: &[u8], value: Given) -> u32 {
        (self.replace)(frame, key, value)
    }
    fn erase(&self, frame: &mut [u8], key: &[u8]) -> u32 {
        (self.erase)(frame, key)
    }
    fn pack(&self, frame: &[u8], out: &mut [u8]) -> u32 {
        (self.pack)(frame, out)
    }
    fn pack_before(&self, frame: &[u8], out: &mut [u8]) -> u32 {
        (self.pack_before)(frame, out)
    }
    fn info(&self, frame: &[u8]) -> (u32, [u64; INFO_NUMBERS]) {
        (self.info)(frame)
    }
    fn list(&self, frame: &[u8], asked: &Asked, buffer: &mut [u8]) -> Page {
        (self.list)(frame, asked, buffer)
    }
    fn batch(
        &self,
        frame: &mut [u8],
        second: &mut [u8],
        batch: &[u8],
        answers: &mut [u8],
    ) -> (u32, u64) {
        (self.batch)(frame, second, batch, answers)
    }
}

/// Makes the second store of an edition with one call exchanged.
#[derive(Clone, Copy)]
pub(crate) struct With(pub Edition);

impl With {
    pub fn format(
        self,
        name: &str,
        format: impl Fn(&mut [u8], usize, usize) -> u32 + 'static,
    ) -> Altered {
        Altered { format: Box::new(format), ..Altered::named(self.0, name) }
    }

    pub fn check(self, name: &str, check: impl Fn(&[u8]) -> u32 + 'static) -> Altered {
        Altered { check: Box::new(check), ..Altered::named(self.0, name) }
    }

    pub fn look_up(self, name: &str, look_up: impl Fn(&[u8], &[u8]) -> Found + 'static) -> Altered {
        Altered { look_up: Box::new(look_up), ..Altered::named(self.0, name) }
    }

    pub fn put(
        self,
        name: &str,
        put: impl Fn(&mut [u8], &[u8], Given) -> u32 + 'static,
    ) -> Altered {
        Altered { put: Box::new(put), ..Altered::named(self.0, name) }
    }

    pub fn replace(
        self,
        name: &str,
        replace: impl Fn(&mut [u8], &[u8], Given) -> u32 + 'static,
    ) -> Altered {
        Altered { replace: Box::new(replace), ..Altered::named(self.0, name) }
    }

    pub fn erase(self, name: &str, erase: impl Fn(&mut [u8], &[u8]) -> u32 + 'static) -> Altered {
        Altered { erase: Box::new(erase), ..Altered::named(self.0, name) }
    }

    pub fn pack(self, name: &str, pack: impl Fn(&[u8], &mut [u8]) -> u32 + 'static) -> Altered {
        Altered { pack: Box::new(pack), ..Altered::named(self.0, name) }
    }

    pub fn pack_before(
        self,
        name: &str,
        pack: impl Fn(&[u8], &mut [u8]) -> u32 + 'static,
    ) -> Altered {
        Altered { pack_before: Box::new(pack), ..Altered::named(self.0, name) }
    }

    pub fn info(
        self,
        name: &str,
        info: impl Fn(&[u8]) -> (u32, [u64; INFO_NUMBERS]) + 'static,
    ) -> Altered {
        Altered { info: Box::new(info), ..Altered::named(self.0, name) }
    }

    pub fn list(
        self,
        name: &str,
        list: impl Fn(&[u8], &Asked, &mut [u8]) -> Page + 'static,
    ) -> Altered {
        Altered { list: Box::new(list), ..Altered::named(self.0, name) }
    }

    pub fn batch(
        self,
        name: &str,
        batch: impl Fn(&mut [u8], &mut [u8], &[u8], &mut [u8]) -> (u32, u64) + 'static,
    ) -> Altered {
        Altered { batch: Box::new(batch), ..Altered::named(self.0, name) }
    }
}

pub fn checks(edition: Edition) -> Vec<Altered> {
    let with = With(edition);
    let without = |rule: Rule| {
        with.check(&format!("a check without the rule {rule:?}"), move |frame| {
            match check::read(edition, frame) {
                None => LENGTHS,
                Some(reading) if reading.broken.keys().all(|broken| *broken == rule) => DONE,
                Some(_) => NOT_GOOD,
            }
        })
    };
    let mut all: Vec<Altered> = Rule::of(edition).map(without).collect();
    all.push(with.check("a check that answers 2 to everything", move |frame| {
        if check::check(edition, frame) == LENGTHS {
            LENGTHS
        } else {
            NOT_GOOD
        }
    }));
    all.push(with.check("a check that tells live from freed by the high bits", move |frame| {
        let reading = match check::read(edition, frame) {
            None => return LENGTHS,
            Some(reading) => reading,
        };
        let looks_live = reading.lists.iter().flatten().any(|slot| {
            let (_, next) = get_entry(frame, *slot);
            Kind::of_number(next).is_some_and(Kind::is_inner)
        });
        if looks_live || !reading.broken.is_empty() {
            NOT_GOOD
        } else {
            DONE
        }
    }));
    all.push(with.check("a check that calls a wrong stored N a wrong length", move |frame| {
        let given = check::check(edition, frame);
        if given == NOT_GOOD && !slot_capacity_allowed(get32(frame, AT_N)) {
            LENGTHS
        } else {
            given
        }
    }));
    all.push(with.check("a check that wants padding zero", move |frame| {
        let given = check::check(edition, frame);
        if given != DONE {
            return given;
        }
        let reading = check::read(edition, frame).expect("the lengths agree");
        let padded = reading.extents.iter().any(|(slot, extent)| {
            let leaf = store::leaf_fields(frame, *slot);
            let end = leaf.extent + leaf.key_length + leaf.value_length;
            frame[end..extent.end].iter().any(|byte| *byte != 0)
        });
        if padded {
            NOT_GOOD
        } else {
            DONE
        }
    }));
    all.push(
        with.check("a check by the old rule", move |frame| check::check_before(edition, frame)),
    );
    // What is freed is looked at, but for one part of it.
    let passing = |name: &str, passed: fn(&[u8], usize) -> bool| {
        with.check(name, move |frame| match check::read(edition, frame) {
            Some(reading) if reading.good_before() => {
                let parts = unused::parts(frame, &reading).into_iter().flat_map(|part| part.bytes);
                let mut seen = parts.filter(|at| !passed(frame, *at));
                if seen.any(|at| frame[at] != 0) {
                    NOT_GOOD
                } else {
                    DONE
                }
            }
            _ => check::check(edition, frame),
        })
    };
    all.extend([
        passing("a check that passes over the unit at D", |frame, at| {
            at < get32(frame, AT_D) + UNIT
        }),
        passing("a check that passes over the unit before B", |frame, at| {
            (get32(frame, AT_B) - UNIT..get32(frame, AT_B)).contains(&at)
        }),
        passing("a check that passes over the unit at B", |frame, at| {
            (get32(frame, AT_B)..get32(frame, AT_B) + UNIT).contains(&at)
        }),
        passing("a check that passes over the frame's last unit", |frame, at| {
            at >= frame.len() - UNIT
        }),
        passing("a check that looks at the first byte of each unit", |_, at| {
            !at.is_multiple_of(UNIT)
        }),
        passing("a check that looks at the low bits of each byte", |frame, at| {
            frame[at] & 0x7F == 0
        }),
    ]);
    all.push(with.check("a check that writes into the frame", move |frame| {
        // As a C function could: the comparer looks at memory anew.
        let last = frame.as_ptr().cast_mut().wrapping_add(frame.len().saturating_sub(1));
        if !frame.is_empty() {
            unsafe { last.write_volatile(last.read_volatile() ^ 1) };
        }
        check::check(edition, frame)
    }));
    all
}

pub fn formats(edition: Edition) -> Vec<Altered> {
    let (right, with) = (Second(edition), With(edition));
    vec![
        with.format("a format that leaves old bytes", move |frame, f, n| {
            let old = frame.to_vec();
            let given = right.format(frame, f, n);
            if given == DONE {
                let b = get32(frame, AT_B);
                frame[b..].copy_from_slice(&old[b..]);
            }
            given
        }),
        with.format("a format without the rule D + 8 at most F", move |frame, f, n| {
            if slot_capacity_allowed(n) && frame_length_allowed(f) && frame.len() == f {
                right.format(frame, f, n);
                DONE
            } else {
                LENGTHS
            }
        }),
        with.format("a format that takes an odd N", move |frame, f, n| {
            right.format(frame, f, if n.is_multiple_of(2) { n } else { n - 1 })
        }),
        with.format("a format that reads 32 bits of F and N", move |frame, f, n| {
            right.format(frame, f as u32 as usize, n as u32 as usize)
        }),
    ]
}

pub fn look_ups(edition: Edition) -> Vec<Altered> {
    let (right, with) = (Second(edition), With(edition));
    type Change = fn(&mut Found, &[u8], &[u8], Edition);
    let told = |name: &str, change: Change| {
        with.look_up(name, move |frame, key| {
            let mut found = right.look_up(frame, key);
            change(&mut found, frame, key, edition);
            found
        })
    };
    vec![
        told("a look-up that always says 8", |found, _, _, _| {
            if found.number == DONE {
                *found = Found::absent(found.slots);
            }
        }),
        told("a look-up that trusts the path", |found, frame, key, edition| {
            if found.number != ABSENT {
                return;
            }
            let steps = store::walk(frame, &edition.walked(key));
            if let Step { kind: Kind::Leaf, slot, .. } = steps[steps.len() - 1] {
                let leaf = store::leaf_fields(frame, slot);
                let (place, length) = (leaf.extent + leaf.key_length, leaf.value_length);
                let (place, length) = (place as u64, length as u64);
                *found = Found { number: DONE, place, length, stamp: leaf.stamp, ..*found };
            }
        }),
        told("a look-up that reads long lengths as negative", |found, _, _, _| {
            found.length = i64::from(found.length as u16 as i16) as u64;
        }),
        told("a look-up that gives an empty value no place", |found, _, _, _| {
            if found.length == 0 {
                found.place = 0;
            }
        }),
        told("a look-up that gives the extent's place", |found, _, key, _| {
            if found.number == DONE {
                found.place -= key.len() as u64;
            }
        }),
        told("a look-up that says 8 to an illegal key", |found, _, _, _| {
            if matches!(found.number, KEY_LENGTH | KEY_HOLDS_ZERO) {
                found.number = ABSENT;
            }
        }),
        told("a look-up that does not count the last slot", |found, _, _, _| {
            found.slots = found.slots.saturating_sub(1);
        }),
        told("a look-up that visits no slot for an absent key", |found, _, _, _| {
            if found.number == ABSENT {
                found.slots = 0;
            }
        }),
        told("a look-up that does not count another key's Leaf", |found, frame, key, edition| {
            let end = end_of_way(edition, frame, key).map(|step| step.kind);
            if found.number == ABSENT && end == Some(Kind::Leaf) {
                found.slots -= 1;
            }
        }),
        told("a look-up that does not count an EmptyRoot", |found, frame, _, _| {
            if found.number == ABSENT && get32(frame, AT_R) == 0 {
                found.slots = 0;
            }
        }),
        told(
            "a look-up that counts a Prefix and its child as one",
            |found, frame, key, edition| {
                if matches!(found.number, DONE | ABSENT) {
                    let steps = store::walk(frame, &edition.walked(key));
                    let passed = &steps[..steps.len() - 1];
                    let prefixes = passed.iter().filter(|step| step.kind == Kind::Prefix).count();
                    found.slots -= prefixes as u64;
                }
            },
        ),
        told("a look-up that counts the slots of the frame", |found, frame, _, _| {
            if found.slots > 1 {
                found.slots = get32(frame, AT_U) as u64;
            }
        }),
        told("a look-up that counts a slot for an illegal key", |found, _, _, _| {
            if matches!(found.number, KEY_LENGTH | KEY_HOLDS_ZERO) {
                found.slots = 1;
            }
        }),
        told("a look-up that counts a slot of a frame that is not good", |found, _, _, _| {
            if found.number == NOT_GOOD {
                found.slots = 1;
            }
        }),
    ]
}

/// The last slot on a key's way, of a frame that is good.
pub(crate) fn end_of_way(edition: Edition, frame: &[u8], key: &[u8]) -> Option<Step> {
    let legal = check::check(edition, frame) == DONE && edition.key_refusal(key).is_none();
    legal.then(|| *store::walk(frame, &edition.walked(key)).last().expect("at least the root"))
}

/// What a put was before document 02.
fn put_or_replace(right: Second, frame: &mut [u8], key: &[u8], value: Given) -> u32 {
    match right.put(frame, key, value) {
        PRESENT => right.replace(frame, key, value),
        given => given,
    }
}

pub fn puts(edition: Edition) -> Vec<Altered> {
    let (right, with) = (Second(edition), With(edition));
    vec![
        with.put("a put that answers 6 to everything", move |frame, key, value| {
            match right.put(&mut frame.to_vec(), key, value) {
                DONE => NO_ROOM,
                given => given,
            }
        }),
        with.put("a put that writes only the first record", move |frame, key, value| {
            if check::check(edition, frame) == DONE && get32(frame, AT_R) > 0 {
                return right.put(&mut frame.to_vec(), key, value);
            }
            right.put(frame, key, value)
        }),
        with.put("a put that invents X", move |frame, key, value| {
            let given = right.put(frame, key, value);
            if given == DONE && get32(frame, AT_B) + UNIT <= frame.len() {
                set32(frame, AT_B, get32(frame, AT_B) + UNIT);
                set32(frame, AT_X, get32(frame, AT_X) + UNIT);
            }
            given
        }),
        with.put("a put that invents U", move |frame, key, value| {
            let given = right.put(frame, key, value);
            let slot_left = given == DONE && get32(frame, AT_U) < get32(frame, AT_N);
            if slot_left && get32(frame, AT_B) + UNIT <= frame.len() {
                let slot = take(frame, Kind::EmptyRoot);
                release(frame, slot, Kind::EmptyRoot);
            }
            given
        }),
        with.put(
            "a put that takes 32,768 bytes for a negative length",
            move |frame, key, value| {
                let given = right.put(&mut frame.to_vec(), key, value);
                if value.bytes.len() > 32_767 && given == DONE {
                    return VALUE_LENGTH;
                }
                right.put(frame, key, value)
            },
        ),
        with.put("a put that replaces all the same", move |frame, key, value| {
            put_or_replace(right, frame, key, value)
        }),
        with.put("a put that says 11 and writes", move |frame, key, value| {
            match put_or_replace(right, frame, key, value) {
                REPLACED => PRESENT,
                given => given,
            }
        }),
        with.put(
            "a put that says 11 and takes a value of the same length",
            move |frame, key, value| {
                let given = right.put(frame, key, value);
                if given == PRESENT && right.look_up(frame, key).length == value.bytes.len() as u64
                {
                    right.replace(frame, key, value);
                }
                given
            },
        ),
        with.put("a put that asks for room before it says 11", move |frame, key, value| {
            match put_or_replace(right, &mut frame.to_vec(), key, value) {
                NO_ROOM => NO_ROOM,
                _ => right.put(frame, key, value),
            }
        }),
        with.put(
            "a put that says 9 for a key that was there",
            move |frame, key, value| match right.put(frame, key, value) {
                PRESENT => REPLACED,
                given => given,
            },
        ),
        with.put(
            "a put that says 0 for a key that was there",
            move |frame, key, value| match right.put(frame, key, value) {
                PRESENT => DONE,
                given => given,
            },
        ),
        with.put("a put that says 11 before it looks at the value", move |frame, key, value| {
            match right.put(frame, key, value) {
                VALUE_LENGTH if right.look_up(frame, key).number == DONE => PRESENT,
                given => given,
            }
        }),
        with.put("a put that writes a byte behind what it takes", move |frame, key, value| {
            let given = right.put(frame, key, value);
            let b = if given == DONE { get32(frame, AT_B) } else { frame.len() };
            if b < frame.len() {
                frame[b] = 1;
            }
            given
        }),
        with.put("a put that wants one unit to be left", move |frame, key, value| {
            let mut tried = frame.to_vec();
            let given = right.put(&mut tried, key, value);
            let moved = given == DONE && get32(&tried, AT_B) > get32(frame, AT_B);
            if moved && get32(&tried, AT_B) == frame.len() {
                return NO_ROOM;
            }
            right.put(frame, key, value)
        }),
        with.put("a put that wants one slot to be left", move |frame, key, value| {
            let mut tried = frame.to_vec();
            let given = right.put(&mut tried, key, value);
            let moved = given == DONE && get32(&tried, AT_U) > get32(frame, AT_U);
            if moved && get32(&tried, AT_U) == get32(&tried, AT_N) {
                return NO_ROOM;
            }
            right.put(frame, key, value)
        }),
        with.put("a put that marks a frame it refuses", move |frame, key, value| {
            let given = right.put(frame, key, value);
            if given == NO_ROOM {
                let last = frame.len() - 1;
                frame[last] ^= 1;
            }
            given
        }),
        with.put("a put that looks for a byte 0 before the length", move |frame, key, value| {
            match right.put(frame, key, value) {
                KEY_LENGTH if key.contains(&END_BYTE) => KEY_HOLDS_ZERO,
                given => given,
            }
        }),
        with.put("a put that looks at the value before the key", move |frame, key, value| {
            match right.put(frame, key, value) {
                KEY_LENGTH | KEY_HOLDS_ZERO if value.bytes.len() > LONGEST_VALUE => VALUE_LENGTH,
                given => given,
            }
        }),
        with.put("a put with a longest key of one byte less", move |frame, key, value| {
            let given = right.put(&mut frame.to_vec(), key, value);
            if key.len() == edition.longest_key() && given == DONE {
                return KEY_LENGTH;
            }
            right.put(frame, key, value)
        }),
        with.put(
            "a put that gives a Node48 child the highest empty place",
            move |frame, key, value| highest_place(right, frame, key, value),
        ),
        with.put("a put that moves a Node4 to a listed body", move |frame, key, value| {
            let step = end_of_way(edition, frame, key);
            let given = right.put(frame, key, value);
            let listed = given == DONE && get16(frame, list_head_at(Kind::Node4.number())) != 0;
            if let (true, Some(Step { kind: Kind::Node4, slot, link, .. })) = (listed, step) {
                let still_there =
                    check::read(edition, frame).is_some_and(|r| r.live.contains_key(&slot));
                if still_there {
                    let moved = take(frame, Kind::Node4);
                    let all = children(frame, slot);
                    store::write_inner(frame, moved, &all);
                    set_link(frame, link, moved);
                    release(frame, slot, Kind::Node4);
                }
            }
            given
        }),
        with.put(
            "a put that gives the parts of a cut the other way round",
            move |frame, key, value| {
                let before = frame.to_vec();
                let given = right.put(frame, key, value);
                if given == DONE {
                    turn_after_a_cut(edition, &before, frame, key);
                }
                given
            },
        ),
        with.put(
            "a put that gives a grown Node48 places in byte order",
            move |frame, key, value| {
                let grows =
                    end_of_way(edition, frame, key).is_some_and(|step| step.kind == Kind::Node16);
                let given = right.put(frame, key, value);
                if given == DONE && grows {
                    let steps = store::walk(frame, &edition.walked(key));
                    let node = steps[steps.len() - 2];
                    if node.kind == Kind::Node48 {
                        let all = children(frame, node.slot);
                        store::write_inner(frame, node.slot, &all);
                    }
                }
                given
            },
        ),
        with.put("a put that exchanges the bodies of freed slots", move |frame, key, value| {
            let given = right.put(frame, key, value);
            if given == DONE {
                let reading = check::read(edition, frame).expect("the lengths agree");
                if let [one, two, ..] = reading.lists[Kind::Leaf.number()][..] {
                    let ((first, next), (second, after)) =
                        (get_entry(frame, one), get_entry(frame, two));
                    set_entry(frame, one, second, next);
                    set_entry(frame, two, first, after);
                }
            }
            given
        }),
        with.put("a put that clears the padding of other extents", move |frame, key, value| {
            let given = right.put(frame, key, value);
            if given == DONE {
                let reading = check::read(edition, frame).expect("the lengths agree");
                for (slot, extent) in &reading.extents {
                    let leaf = store::leaf_fields(frame, *slot);
                    let end = leaf.extent + leaf.key_length + leaf.value_length;
                    frame[end..extent.end].fill(0);
                }
            }
            given
        }),
        with.put("a put that writes past the frame's end", move |frame, key, value| {
            // As a C function could: the comparer looks at memory anew.
            let end = frame.as_mut_ptr().wrapping_add(frame.len());
            let given = right.put(frame, key, value);
            if given == DONE {
                unsafe { end.write_volatile(0) };
            }
            given
        }),
    ]
}

pub fn replaces(edition: Edition) -> Vec<Altered> {
    let (right, with) = (Second(edition), With(edition));
    vec![
        with.replace("a replacement that puts a key that is absent", move |frame, key, value| {
            put_or_replace(right, frame, key, value)
        }),
        with.replace("a replacement that says 8 and puts the key", move |frame, key, value| {
            let given = right.replace(frame, key, value);
            if given == ABSENT {
                right.put(frame, key, value);
            }
            given
        }),
        with.replace(
            "a replacement that asks for room before it says 8",
            move |frame, key, value| match put_or_replace(right, &mut frame.to_vec(), key, value) {
                NO_ROOM => NO_ROOM,
                _ => right.replace(frame, key, value),
            },
        ),
        with.replace("a replacement that says 0", move |frame, key, value| {
            match right.replace(frame, key, value) {
                REPLACED => DONE,
                given => given,
            }
        }),
        with.replace("a replacement that only says 9", move |frame, key, value| {
            right.replace(&mut frame.to_vec(), key, value)
        }),
        with.replace(
            "a replacement that says 8 before it looks at the value",
            move |frame, key, value| match right.replace(frame, key, value) {
                VALUE_LENGTH if right.look_up(frame, key).number == ABSENT => ABSENT,
                given => given,
            },
        ),
        with.replace(
            "a replacement that says 8 where there is no room",
            move |frame, key, value| match right.replace(frame, key, value) {
                NO_ROOM => ABSENT,
                given => given,
            },
        ),
        with.replace(
            "a replacement that keeps the extent if rounded sizes agree",
            move |frame, key, value| {
                if let Some(Step { kind: Kind::Leaf, slot, .. }) = end_of_way(edition, frame, key) {
                    let leaf = store::leaf_fields(frame, slot);
                    let size = extent_bytes(leaf.key_length, leaf.value_length);
                    let same_key = frame[leaf.extent..][..leaf.key_length] == *key;
                    let Given { bytes, stamp } = value;
                    if same_key && extent_bytes(key.len(), bytes.len()) == size {
                        frame[leaf.extent + key.len()..][..bytes.len()].copy_from_slice(bytes);
                        let new = LeafFields { value_length: bytes.len(), stamp, ..leaf };
                        store::write_leaf(frame, slot, &new);
                        return REPLACED;
                    }
                }
                right.replace(frame, key, value)
            },
        ),
        with.replace(
            "a replacement that retires the length and not the size",
            move |frame, key, value| {
                let before = check::check(edition, frame) == DONE;
                let dead = if before { get32(frame, AT_X) } else { 0 };
                let given = right.replace(frame, key, value);
                if given == REPLACED && get32(frame, AT_X) > dead {
                    set32(frame, AT_X, get32(frame, AT_X) - 1);
                }
                given
            },
        ),
        with.replace(
            "a replacement that takes a new extent for the same length",
            move |frame, key, value| {
                let found = right.look_up(frame, key);
                let size = extent_bytes(key.len(), value.bytes.len());
                let same = found.number == DONE && found.length == value.bytes.len() as u64;
                if same && get32(frame, AT_B) + size <= frame.len() {
                    let step = end_of_way(edition, frame, key).expect("the key is there");
                    let new = store::new_extent(frame, key, value);
                    store::write_leaf(frame, step.slot, &new);
                    set32(frame, AT_X, get32(frame, AT_X) + size);
                    return REPLACED;
                }
                right.replace(frame, key, value)
            },
        ),
        with.replace(
            "a replacement that changes the value it is lent",
            move |frame, key, value| {
                let given = right.replace(frame, key, value);
                if given == REPLACED && !value.bytes.is_empty() {
                    // As a C function could: the comparer looks at memory anew.
                    let first = value.bytes.as_ptr().cast_mut();
                    unsafe { first.write_volatile(first.read_volatile() ^ 1) };
                }
                given
            },
        ),
    ]
}

/// What a call has freed.
struct Freed {
    bodies: Vec<Range<usize>>,
    /// With the bytes of key and value in each.
    extents: Vec<(Range<usize>, usize)>,
}

impl Freed {
    fn of(edition: Edition, before: &[u8], after: &[u8]) -> Freed {
        let was = check::read(edition, before).expect("the lengths agree");
        let is = check::read(edition, after).expect("the lengths agree");
        let gone = was.live.iter().filter(|(slot, _)| !is.live.contains_key(slot));
        let body = |(slot, kind): (&usize, &Kind)| {
            let at = body_at(before, *slot);
            at..at + kind.body_bytes()
        };
        let dead = was.extents.iter().filter(|(slot, part)| is.extents.get(slot) != Some(part));
        let extent = |(slot, part): (&usize, &Range<usize>)| {
            let leaf = store::leaf_fields(before, *slot);
            (part.clone(), leaf.key_length + leaf.value_length)
        };
        Freed { bodies: gone.map(body).collect(), extents: dead.map(extent).collect() }
    }
}

fn last_unit(part: &Range<usize>) -> Range<usize> {
    part.end - UNIT..part.end
}

/// Parts of what a call has freed.
type Parts = fn(&Freed) -> Vec<Range<usize>>;

/// What was left as it was, of what a call that is done has freed. An erase of
/// the only record frees nothing: it formats.
fn leave(edition: Edition, before: &[u8], frame: &mut [u8], given: u32, parts: Parts) {
    if matches!(given, DONE | REPLACED) && get32(frame, AT_R) > 0 {
        for part in parts(&Freed::of(edition, before, frame)) {
            frame[part.clone()].copy_from_slice(&before[part]);
        }
    }
}

/// A unit wiped behind each extent that a call has retired.
fn wipe_on(edition: Edition, before: &[u8], frame: &mut [u8], given: u32) {
    if matches!(given, DONE | REPLACED) && get32(frame, AT_R) > 0 {
        for (extent, _) in Freed::of(edition, before, frame).extents {
            let more = (extent.end + UNIT).min(frame.len());
            frame[extent.end..more].fill(0);
        }
    }
}

/// Stores that do not wipe all that they free, or more than that.
pub fn wipes(edition: Edition) -> Vec<Altered> {
    let (right, with) = (Second(edition), With(edition));
    let put = |name: &str, parts: Parts| {
        with.put(name, move |frame, key, value| {
            let before = frame.to_vec();
            let given = right.put(frame, key, value);
            leave(edition, &before, frame, given, parts);
            given
        })
    };
    let replace = |name: &str, parts: Parts| {
        with.replace(name, move |frame, key, value| {
            let before = frame.to_vec();
            let given = right.replace(frame, key, value);
            leave(edition, &before, frame, given, parts);
            given
        })
    };
    let erase = |name: &str, parts: Parts| {
        with.erase(name, move |frame, key| {
            let before = frame.to_vec();
            let given = right.erase(frame, key);
            leave(edition, &before, frame, given, parts);
            given
        })
    };
    let all_of_it: Parts = |freed| {
        let extents = freed.extents.iter().map(|(part, _)| part.clone());
        freed.bodies.iter().cloned().chain(extents).collect()
    };
    let bodies: Parts = |freed| freed.bodies.clone();
    let extents: Parts = |freed| freed.extents.iter().map(|(part, _)| part.clone()).collect();
    let short: Parts = |freed| freed.bodies.iter().map(last_unit).collect();
    let extent_short: Parts =
        |freed| freed.extents.iter().map(|(part, _)| last_unit(part)).collect();
    let padding: Parts =
        |freed| freed.extents.iter().map(|(part, text)| part.start + text..part.end).collect();
    let mut all = vec![
        put("a put that does not wipe what it frees", bodies),
        put("a put that wipes a body one unit short", short),
        put("a put that wipes a body's first unit alone", |freed| {
            freed.bodies.iter().map(|part| part.start + UNIT..part.end).collect()
        }),
        replace("a replacement that does not wipe the old extent", extents),
        replace("a replacement that wipes one unit short", extent_short),
        replace("a replacement that leaves the padding", padding),
        replace("a replacement that wipes the first unit alone", |freed| {
            freed.extents.iter().map(|(part, _)| part.start + UNIT..part.end).collect()
        }),
        erase("an erase that does not wipe what it frees", all_of_it),
        erase("an erase that wipes the body and not the extent", extents),
        erase("an erase that wipes the extent and not the body", bodies),
        erase("an erase that wipes the Leaf alone of what it frees", |freed| {
            let leaf = Kind::Leaf.body_bytes();
            freed.bodies.iter().filter(|part| part.len() != leaf).cloned().collect()
        }),
        erase("an erase that wipes a body one unit short", short),
        erase("an erase that wipes an extent one unit short", extent_short),
        erase("an erase that leaves the padding", padding),
    ];
    all.extend([
        with.replace(
            "a replacement that wipes the key of a live record",
            move |frame, key, value| {
                let before = frame.to_vec();
                let given = right.replace(frame, key, value);
                wipe_on(edition, &before, frame, given);
                given
            },
        ),
        with.replace(
            "a replacement that wipes the key of the new extent",
            move |frame, key, value| {
                let dead =
                    if check::check(edition, frame) == DONE { get32(frame, AT_X) } else { 0 };
                let given = right.replace(frame, key, value);
                if given == REPLACED && get32(frame, AT_X) > dead {
                    let Found { place, .. } = right.look_up(frame, key);
                    frame[place as usize - key.len()..place as usize].fill(0);
                }
                given
            },
        ),
        with.erase("an erase that wipes the key of a live record", move |frame, key| {
            let before = frame.to_vec();
            let given = right.erase(frame, key);
            wipe_on(edition, &before, frame, given);
            given
        }),
        with.erase("an erase that wipes with another byte than zero", move |frame, key| {
            let before = frame.to_vec();
            let given = right.erase(frame, key);
            if given == DONE && get32(frame, AT_R) > 0 {
                for (extent, _) in Freed::of(edition, &before, frame).extents {
                    frame[extent].fill(u8::MAX);
                }
            }
            given
        }),
        with.batch("a batch that does not wipe", move |frame, second, batch, answers| {
            let before = frame.to_vec();
            let given = right.batch(frame, second, batch, answers);
            if given == (DONE, 0) {
                leave(edition, &before, frame, DONE, all_of_it);
                second.copy_from_slice(frame);
            }
            given
        }),
    ]);
    all
}

/// A frame that is good by the old rule alone, as a good one.
fn as_good(edition: Edition, frame: &[u8]) -> Option<Vec<u8>> {
    let reading = check::read(edition, frame)?;
    let only_before = !reading.good() && reading.good_before();
    only_before.then(|| unused::wiped(frame, &reading))
}

fn highest_place(right: Second, frame: &mut [u8], key: &[u8], value: Given) -> u32 {
    let edition = right.edition();
    let step = end_of_way(edition, frame, key);
    let given = right.put(frame, key, value);
    let Some(Step { kind: Kind::Node48, slot, depth, .. }) = step else {
        return given;
    };
    let still_there = check::read(edition, frame).is_some_and(|r| r.live.contains_key(&slot));
    if given == DONE && still_there {
        let body = body_at(frame, slot);
        let index = body + NODE48_INDEX + usize::from(edition.walked(key)[depth]);
        let place = |number: u8| body + Kind::Node48.child_at(usize::from(number) - 1);
        let highest = (1..=Kind::Node48.most_children() as u8)
            .rfind(|number| get32(frame, place(*number)) == 0);
        if let Some(highest) = highest {
            let lowest = frame[index];
            let child = get32(frame, place(lowest));
            set32(frame, place(lowest), 0);
            set32(frame, place(highest), child);
            frame[index] = highest;
        }
    }
    given
}

pub fn erases(edition: Edition) -> Vec<Altered> {
    let (right, with) = (Second(edition), With(edition));
    vec![
        with.erase("an erase that only says 0", move |frame, key| {
            right.erase(&mut frame.to_vec(), key)
        }),
        with.erase("an erase that shrinks at 4, 16 and 48", move |frame, key| {
            let given = right.erase(frame, key);
            let Some(Step { kind, slot, link, .. }) = end_of_way(edition, frame, key) else {
                return given;
            };
            if let (DONE, Some(smaller)) = (given, kind.smaller()) {
                let left = children(frame, slot);
                let room = get16(frame, list_head_at(smaller.number())) != 0;
                if room && left.len() == smaller.most_children() {
                    let shrunk = take(frame, smaller);
                    store::write_inner(frame, shrunk, &left);
                    set_link(frame, link, shrunk);
                    release(frame, slot, kind);
                }
            }
            given
        }),
        with.erase("an erase that needs no Prefix", move |frame, key| {
            let given = right.erase(frame, key);
            if given == NO_ROOM {
                let string = edition.walked(key);
                let steps = store::walk(frame, &string);
                let (node, leaf) = (steps[steps.len() - 2], steps[steps.len() - 1]);
                let fields = store::leaf_fields(frame, leaf.slot);
                store::remove_child(frame, node.slot, string[leaf.depth - 1]);
                release(frame, leaf.slot, Kind::Leaf);
                let size = extent_bytes(fields.key_length, fields.value_length);
                set32(frame, AT_X, get32(frame, AT_X) + size);
                set32(frame, AT_R, get32(frame, AT_R) - 1);
                return DONE;
            }
            given
        }),
        with.erase("an erase that says 8 where there is no room", move |frame, key| {
            match right.erase(frame, key) {
                NO_ROOM => ABSENT,
                given => given,
            }
        }),
        with.erase("an erase of the only record that leaves its bytes", move |frame, key| {
            let before = frame.to_vec();
            let given = right.erase(frame, key);
            if given == DONE && get32(frame, AT_R) == 0 {
                let b = get32(frame, AT_B);
                frame[b..].copy_from_slice(&before[b..]);
            }
            given
        }),
        with.erase("an erase that turns a list it does not touch", move |frame, key| {
            let given = right.erase(frame, key);
            if given == DONE && get32(frame, AT_R) > 0 {
                let reading = check::read(edition, frame).expect("the lengths agree");
                turn_list(frame, Kind::EmptyRoot, &reading.lists[Kind::EmptyRoot.number()]);
            }
            given
        }),
        with.erase("an erase that closes the gap in a Node48", move |frame, key| {
            let given = right.erase(frame, key);
            if let (DONE, Some(step)) = (given, end_of_way(edition, frame, key)) {
                if step.kind == Kind::Node48 {
                    let left = children(frame, step.slot);
                    store::write_inner(frame, step.slot, &left);
                }
            }
            given
        }),
        with.erase("an erase that joins Prefixes in the lower body", move |frame, key| {
            let before = frame.to_vec();
            let given = right.erase(frame, key);
            if given == DONE && get32(frame, AT_R) > 0 {
                join_in_the_lower(edition, &before, frame, key);
            }
            given
        }),
        with.erase("an erase that wants room though it needs none", move |frame, key| {
            let full = check::check(edition, frame) == DONE && get32(frame, AT_B) == frame.len();
            match right.erase(&mut frame.to_vec(), key) {
                DONE if full => NO_ROOM,
                _ => right.erase(frame, key),
            }
        }),
        with.erase("an erase that says 6 before 8", move |frame, key| {
            match right.erase(frame, key) {
                ABSENT if get32(frame, AT_B) == frame.len() => NO_ROOM,
                given => given,
            }
        }),
        with.erase("an erase that retires no extent", move |frame, key| {
            let before = frame.to_vec();
            let given = right.erase(frame, key);
            if given == DONE && get32(frame, AT_R) > 0 {
                set32(frame, AT_X, get32(&before, AT_X));
            }
            given
        }),
    ]
}

/// After two Prefixes became one in the upper body, moves it to the lower, if that
/// was freed.
fn join_in_the_lower(edition: Edition, before: &[u8], frame: &mut [u8], key: &[u8]) {
    let was = check::read(edition, before).expect("the lengths agree");
    let head = get16(frame, list_head_at(Kind::Prefix.number()));
    let Some(Step { kind: Kind::Prefix, slot: upper, link, .. }) = end_of_way(edition, frame, key)
    else {
        return;
    };
    if was.live.get(&head) == Some(&Kind::Prefix) && was.live.contains_key(&upper) {
        let lower = take(frame, Kind::Prefix);
        let (bytes, below) = (store::prefix_bytes(frame, upper), store::prefix_child(frame, upper));
        store::write_prefix(frame, lower, &bytes, below);
        set_link(frame, link, lower);
        release(frame, upper, Kind::Prefix);
    }
}

/// Lets the Prefixes of a shared beginning that was cut, old and new, have their
/// parts the other way round.
fn turn_after_a_cut(edition: Edition, before: &[u8], frame: &mut [u8], key: &[u8]) {
    let Some(Step { kind: Kind::Prefix, slot, link, .. }) = end_of_way(edition, before, key) else {
        return;
    };
    let there = store::chain(before, slot).slots;
    let was = check::read(edition, before).expect("the lengths agree");
    let is = check::read(edition, frame).expect("the lengths agree");
    let prefixes = is.live.iter().filter(|(_, kind)| **kind == Kind::Prefix);
    let slots: Vec<usize> = prefixes
        .map(|(slot, _)| *slot)
        .filter(|slot| there.contains(slot) || was.live.get(slot) != Some(&Kind::Prefix))
        .collect();
    let turned = |slot: usize| match slots.iter().position(|there| *there == slot) {
        Some(at) => slots[slots.len() - 1 - at],
        None => slot,
    };
    let held: Vec<(Vec<u8>, usize)> = slots
        .iter()
        .map(|slot| (store::prefix_bytes(frame, *slot), store::prefix_child(frame, *slot)))
        .collect();
    let steps = store::walk(frame, &edition.walked(key));
    let node = steps[steps.len() - 2].slot;
    for (slot, (bytes, child)) in slots.iter().zip(held) {
        store::write_prefix(frame, turned(*slot), &bytes, turned(child));
    }
    let parts: Vec<(u8, usize)> =
        children(frame, node).into_iter().map(|(byte, child)| (byte, turned(child))).collect();
    store::write_inner(frame, node, &parts);
    let first = store::linked(frame, link);
    set_link(frame, link, turned(first));
}

pub fn infos(edition: Edition) -> Vec<Altered> {
    let (right, with) = (Second(edition), With(edition));
    const FIELDS: usize = INFO_NUMBERS - LISTS;
    let mut all = vec![
        with.info("an info that counts the first body of each list alone", move |frame| {
            let (given, mut told) = right.info(frame);
            told[FIELDS..].iter_mut().for_each(|length| *length = (*length).min(1));
            (given, told)
        }),
        with.info("an info that tells what is left of the slots", move |frame| {
            let (given, mut told) = right.info(frame);
            told[2] = told[1] - told[2];
            (given, told)
        }),
        with.info("an info that trusts the stored F", move |frame| match right.info(frame) {
            (NOT_GOOD, mut told) => {
                told[0] = get32(frame, AT_F) as u64;
                (NOT_GOOD, told)
            }
            given => given,
        }),
        with.info("an info that calls every refused frame not good", move |frame| {
            match right.info(frame) {
                (DONE, told) => (DONE, told),
                (_, told) => (NOT_GOOD, told),
            }
        }),
    ];
    // each number in another's place
    all.extend((1..FIELDS).map(|place| {
        let name = format!("an info with numbers {} and {place} exchanged", place - 1);
        with.info(&name, move |frame| {
            let (given, mut told) = right.info(frame);
            told.swap(place - 1, place);
            (given, told)
        })
    }));
    all
}

pub fn packs(edition: Edition) -> Vec<Altered> {
    let (right, with) = (Second(edition), With(edition));
    vec![
        with.pack("a pack with one fixed image", move |frame, out| {
            let given = right.pack(frame, out);
            if given == DONE {
                right.format(out, get32(frame, AT_F), get32(frame, AT_N));
            }
            given
        }),
        with.pack("a pack that copies the frame", move |frame, out| {
            let given = right.pack(frame, out);
            if given == DONE {
                out.copy_from_slice(frame);
            }
            given
        }),
        with.pack("a pack that keeps a Node16 with four children", move |frame, out| {
            let given = right.pack(frame, out);
            if given == DONE && get32(frame, AT_R) > 0 {
                out[AT_ENTRIES..].fill(0);
                set32(out, AT_U, 0);
                set32(out, AT_B, get32(out, AT_D));
                let root = pack_keeping_node16(frame, get16(frame, AT_ROOT), out);
                set16(out, AT_ROOT, root);
            }
            given
        }),
        with.pack("a pack that leaves padding", move |frame, out| {
            let given = right.pack(frame, out);
            if given == DONE {
                let reading = check::read(edition, out).expect("the lengths agree");
                for (slot, extent) in &reading.extents {
                    let leaf = store::leaf_fields(out, *slot);
                    let end = leaf.extent + leaf.key_length + leaf.value_length;
                    out[end..extent.end].fill(1);
                }
            }
            given
        }),
        with.pack(
            "a pack that looks at its output before the frame",
            move |frame, out| match right.pack(frame, out) {
                NOT_GOOD if frame.len() != out.len() => OUTPUT_LENGTH,
                given => given,
            },
        ),
        with.pack("a pack that carries X over", move |frame, out| {
            let given = right.pack(frame, out);
            if given == DONE {
                set32(out, AT_X, get32(frame, AT_X));
            }
            given
        }),
        with.pack("a pack that clears an output it refuses", move |frame, out| {
            let given = right.pack(frame, out);
            if given == OUTPUT_LENGTH {
                out.fill(0);
            }
            given
        }),
    ]
}

/// Packings for frames from before.
pub fn packs_before() -> Vec<Altered> {
    let edition = Edition::One;
    let (right, with) = (Second(edition), With(edition));
    vec![
        with.pack_before("a packing for frames from before by the new rule", move |frame, out| {
            right.pack(frame, out)
        }),
        with.pack_before("a packing for frames from before that only wipes", move |frame, out| {
            let given = right.pack_before(frame, out);
            if given == DONE {
                let reading = check::read(edition, frame).expect("the lengths agree");
                out.copy_from_slice(&unused::wiped(frame, &reading));
            }
            given
        }),
        with.pack_before("a packing for frames from before that copies them", move |frame, out| {
            let given = right.pack_before(frame, out);
            if given == DONE {
                out.copy_from_slice(frame);
            }
            given
        }),
        with.pack_before(
            "a packing for frames from before that keeps their end",
            move |frame, out| {
                let given = right.pack_before(frame, out);
                if given == DONE {
                    let b = get32(frame, AT_B);
                    out[b..].copy_from_slice(&frame[b..]);
                }
                given
            },
        ),
        with.pack_before(
            "a packing for frames from before with one fixed image",
            move |frame, out| {
                let given = right.pack_before(frame, out);
                if given == DONE {
                    right.format(out, get32(frame, AT_F), get32(frame, AT_N));
                }
                given
            },
        ),
        with.pack_before(
            "a packing for frames from before that takes no good one",
            move |frame, out| {
                if check::check(edition, frame) == DONE {
                    return NOT_GOOD;
                }
                right.pack_before(frame, out)
            },
        ),
        with.pack_before(
            "a packing for frames from before that forgets the sum",
            move |frame, out| {
                let only_the_sum = check::read(edition, frame).is_some_and(|reading| {
                    let broken = |rule: &Rule| *rule == Rule::Sum || Rule::WIPED.contains(rule);
                    !reading.good_before() && reading.broken.keys().all(broken)
                });
                if only_the_sum && frame.len() == out.len() {
                    let (f, n) = (get32(frame, AT_F), get32(frame, AT_N));
                    out.copy_from_slice(&image(edition, f, n, &store::records(frame)));
                    return DONE;
                }
                right.pack_before(frame, out)
            },
        ),
        with.pack_before(
            "a packing for frames from before that looks at its output first",
            move |frame, out| match right.pack_before(frame, out) {
                NOT_GOOD if frame.len() != out.len() => OUTPUT_LENGTH,
                given => given,
            },
        ),
        with.pack_before(
            "a packing for frames from before that clears an output it refuses",
            move |frame, out| {
                let given = right.pack_before(frame, out);
                if given == OUTPUT_LENGTH {
                    out.fill(0);
                }
                given
            },
        ),
        with.pack_before("a packing for frames from before that wipes them", move |frame, out| {
            let given = right.pack_before(frame, out);
            if let (DONE, Some(good)) = (given, as_good(edition, frame)) {
                // As a C function could: the comparer looks at memory anew.
                let first = frame.as_ptr().cast_mut();
                for (at, byte) in good.into_iter().enumerate() {
                    unsafe { first.wrapping_add(at).write_volatile(byte) };
                }
            }
            given
        }),
    ]
}

/// Calls that take a frame from before, as only one may.
pub fn by_the_old_rule(edition: Edition) -> Vec<Altered> {
    let (right, with) = (Second(edition), With(edition));
    // The frame as it is taken, and the change that it gets.
    fn changed(edition: Edition, frame: &mut [u8], change: impl FnOnce(&mut [u8]) -> u32) -> u32 {
        if let Some(good) = as_good(edition, frame) {
            frame.copy_from_slice(&good);
        }
        change(frame)
    }
    let taken = move |frame: &[u8]| as_good(edition, frame).unwrap_or_else(|| frame.to_vec());
    vec![
        with.look_up("a look-up by the old rule", move |frame, key| {
            right.look_up(&taken(frame), key)
        }),
        with.put("a put by the old rule", move |frame, key, value| {
            changed(edition, frame, |frame| right.put(frame, key, value))
        }),
        with.replace("a replacement by the old rule", move |frame, key, value| {
            changed(edition, frame, |frame| right.replace(frame, key, value))
        }),
        with.erase("an erase by the old rule", move |frame, key| {
            changed(edition, frame, |frame| right.erase(frame, key))
        }),
        with.pack("a pack by the old rule", move |frame, out| right.pack(&taken(frame), out)),
        with.info("an info by the old rule", move |frame| right.info(&taken(frame))),
        with.list("a listing by the old rule", move |frame, asked, buffer| {
            right.list(&taken(frame), asked, buffer)
        }),
        with.batch("a batch by the old rule", move |frame, second, batch, answers| {
            let mut given = (DONE, 0);
            changed(edition, frame, |frame| {
                given = right.batch(frame, second, batch, answers);
                given.0
            });
            given
        }),
    ]
}

fn pack_keeping_node16(frame: &[u8], slot: usize, out: &mut [u8]) -> usize {
    match store::slot_kind(frame, slot) {
        Kind::Leaf => {
            let (key, value) = store::leaf_record(frame, slot);
            store::add_leaf(out, key, value)
        }
        Kind::Prefix => {
            let packed = take(out, Kind::Prefix);
            let below = pack_keeping_node16(frame, store::prefix_child(frame, slot), out);
            store::write_prefix(out, packed, &store::prefix_bytes(frame, slot), below);
            packed
        }
        kind => {
            let all = children(frame, slot);
            let smallest = Kind::smallest_for(all.len());
            let packed = take(out, if kind == Kind::Node16 { kind } else { smallest });
            let moved: Vec<(u8, usize)> = all
                .into_iter()
                .map(|(byte, child)| (byte, pack_keeping_node16(frame, child, out)))
                .collect();
            store::write_inner(out, packed, &moved);
            packed
        }
    }
}

/// A listing of entries that are given in their order: whole ones as they fit.
pub(crate) fn laid(entries: &[Vec<u8>], buffer: &mut [u8]) -> Page {
    let mut written = 0;
    for (count, entry) in entries.iter().enumerate() {
        let end = written + LENGTH_BYTES + entry.len();
        if end > buffer.len() {
            let page = Page { number: DONE, count: count as u64, more: 1 };
            return if count == 0 { Page::refused(BUFFER) } else { page };
        }
        set16(buffer, written, entry.len());
        buffer[written + LENGTH_BYTES..end].copy_from_slice(entry);
        written = end;
    }
    Page { number: DONE, count: entries.len() as u64, more: 0 }
}

/// The keys that begin with the prefix, of a listing that is not refused.
pub(crate) fn matching(edition: Edition, frame: &[u8], asked: &Asked) -> Option<Vec<Vec<u8>>> {
    let legal = check::check(edition, frame) == DONE && asked.refusal(edition).is_none();
    let keys = || store::records(frame).into_keys();
    legal.then(|| keys().filter(|key| key.starts_with(asked.prefix)).collect())
}

/// What is written and what is left, by the second store.
pub(crate) fn entries(edition: Edition, frame: &[u8], asked: &Asked) -> Option<Vec<Vec<u8>>> {
    let after = |entry: &Vec<u8>| asked.start.is_none_or(|start| entry[..] > *start);
    let cut = |key: &Vec<u8>| asked.entry(key).to_vec();
    let mut all: Vec<Vec<u8>> =
        matching(edition, frame, asked)?.iter().map(cut).filter(after).collect();
    all.dedup();
    Some(all)
}

fn taken(buffer: &[u8], count: u64) -> usize {
    (0..count).fold(0, |at, _| at + LENGTH_BYTES + get16(buffer, at))
}

/// None of a listing that is refused.
type Entries = fn(Edition, &[u8], &Asked) -> Option<Vec<Vec<u8>>>;

pub fn lists(edition: Edition) -> Vec<Altered> {
    let (right, with) = (Second(edition), With(edition));
    // Other entries than those that document 02 names.
    let listing = |name: &str, other: Entries| {
        with.list(name, move |frame, asked, buffer| match other(edition, frame, asked) {
            Some(entries) => laid(&entries, buffer),
            None => right.list(frame, asked, buffer),
        })
    };
    // The right entries, and something else told of them.
    type Change = fn(&mut Page, (Edition, &[u8]), &Asked, &mut [u8]);
    let told = |name: &str, change: Change| {
        with.list(name, move |frame, asked, buffer| {
            let mut page = right.list(frame, asked, buffer);
            change(&mut page, (edition, frame), asked, buffer);
            page
        })
    };
    vec![
        listing("a listing with a group for each of its keys", |edition, frame, asked| {
            let after = |entry: &Vec<u8>| asked.start.is_none_or(|start| entry[..] > *start);
            let cut = |key: &Vec<u8>| asked.entry(key).to_vec();
            Some(matching(edition, frame, asked)?.iter().map(cut).filter(after).collect())
        }),
        listing(
            "a listing that repeats the group in which the start key lies",
            |edition, frame, asked| {
                let mut keys = matching(edition, frame, asked)?;
                keys.retain(|key| asked.start.is_none_or(|start| key[..] > *start));
                let mut all: Vec<Vec<u8>> =
                    keys.iter().map(|key| asked.entry(key).to_vec()).collect();
                all.dedup();
                Some(all)
            },
        ),
        listing(
            "a listing that loses the entry after the start key's group",
            |edition, frame, asked| {
                let mut all = entries(edition, frame, asked)?;
                let in_group = asked.start.is_some_and(|start| {
                    start.starts_with(asked.prefix) && asked.entry(start).len() < start.len()
                });
                if in_group && !all.is_empty() {
                    all.remove(0);
                }
                Some(all)
            },
        ),
        listing("a listing that lists the start key again", |edition, frame, asked| {
            let mut all = entries(edition, frame, &Asked { start: None, ..*asked })?;
            all.retain(|entry| asked.start.is_none_or(|start| entry[..] >= *start));
            Some(all)
        }),
        listing("a listing that counts a delimiter within the prefix", |edition, frame, asked| {
            let after = |entry: &Vec<u8>| asked.start.is_none_or(|start| entry[..] > *start);
            let cut = |key: &Vec<u8>| Asked { prefix: b"", ..*asked }.entry(key).to_vec();
            let mut all: Vec<Vec<u8>> =
                matching(edition, frame, asked)?.iter().map(cut).filter(after).collect();
            all.dedup();
            Some(all)
        }),
        listing("a listing of groups without their delimiter", |edition, frame, asked| {
            let keys = matching(edition, frame, asked)?;
            let short = |entry: Vec<u8>| {
                let cut = keys.iter().any(|key| key != &entry && asked.entry(key) == &entry[..]);
                if cut {
                    entry[..entry.len() - 1].to_vec()
                } else {
                    entry
                }
            };
            Some(entries(edition, frame, asked)?.into_iter().map(short).collect())
        }),
        listing("a listing that does not match the prefix itself", |edition, frame, asked| {
            let mut all = entries(edition, frame, asked)?;
            all.retain(|entry| entry != asked.prefix);
            Some(all)
        }),
        listing("a listing that takes bytes for signed", |edition, frame, asked| {
            let mut all = entries(edition, frame, asked)?;
            all.sort_by_key(|entry| entry.iter().map(|byte| *byte as i8).collect::<Vec<i8>>());
            Some(all)
        }),
        listing(
            "a listing that wants the start key to begin with the prefix",
            |edition, frame, asked| {
                let all = entries(edition, frame, asked)?;
                let begins = asked.start.is_none_or(|start| start.starts_with(asked.prefix));
                Some(if begins { all } else { Vec::new() })
            },
        ),
        listing(
            "a listing that forgets a start key outside the prefix",
            |edition, frame, asked| {
                let inside = asked.start.filter(|start| start.starts_with(asked.prefix));
                entries(edition, frame, &Asked { start: inside, ..*asked })
            },
        ),
        listing("a listing that takes a shorter entry in place of one", |edition, frame, asked| {
            // Sorted by length, so that as many as can be fit.
            let mut all = entries(edition, frame, asked)?;
            all.sort_by_key(Vec::len);
            Some(all)
        }),
        told("a listing that says more at the exact end", |page, _, _, buffer| {
            if page.count > 0 && taken(buffer, page.count) == buffer.len() {
                page.more = 1;
            }
        }),
        told("a listing that never says more", |page, _, _, _| page.more = 0),
        told(
            "a listing that says more for the keys of its last group",
            |page, (edition, frame), asked, _| {
                let all = matching(edition, frame, asked).unwrap_or_default();
                let last = entries(edition, frame, asked).unwrap_or_default().last().cloned();
                let same =
                    all.iter().filter(|key| last.as_deref() == Some(asked.entry(key))).count();
                if page.number == DONE && same > 1 {
                    page.more = 1;
                }
            },
        ),
        told("a listing that counts keys", |page, (edition, frame), asked, _| {
            if page.number == DONE && page.more == 0 && page.count > 0 {
                let keys = matching(edition, frame, asked).unwrap_or_default();
                let after =
                    |key: &&Vec<u8>| asked.start.is_none_or(|start| asked.entry(key) > start);
                page.count = keys.iter().filter(after).count() as u64;
            }
        }),
        told(
            "a listing that counts the entries that are left",
            |page, (edition, frame), asked, _| {
                if page.number == DONE {
                    page.count = entries(edition, frame, asked).unwrap_or_default().len() as u64;
                }
            },
        ),
        told("a listing that says 10 where nothing matches", |page, _, _, buffer| {
            if page.number == DONE && page.count == 0 && buffer.len() <= LENGTH_BYTES {
                *page = Page::refused(BUFFER);
            }
        }),
        told("a listing that says 0 and more for a buffer too small", |page, _, _, _| {
            if page.number == BUFFER {
                *page = Page { number: DONE, count: 0, more: 1 };
            }
        }),
        told("a listing that says more with 10", |page, _, _, _| {
            if page.number == BUFFER {
                page.more = 1;
            }
        }),
        told("a listing that writes a byte past its entries", |page, _, _, buffer| {
            let end = taken(buffer, page.count);
            if page.number == DONE && end < buffer.len() {
                buffer[end] = 0;
            }
        }),
        told("a listing that clears the rest of its buffer", |page, _, _, buffer| {
            if page.number == DONE {
                let end = taken(buffer, page.count);
                buffer[end..].fill(0);
            }
        }),
        told("a listing that begins an entry that does not fit", |page, _, _, buffer| {
            let end = taken(buffer, page.count);
            if page.more == 1 && end + LENGTH_BYTES <= buffer.len() {
                set16(buffer, end, 1);
            }
        }),
        told("a listing that writes a buffer it refuses", |page, _, _, buffer| {
            if page.number == BUFFER {
                buffer.fill(0);
            }
        }),
        told("a listing with the higher byte of a length first", |page, _, _, buffer| {
            let mut at = 0;
            for _ in 0..page.count {
                let next = at + LENGTH_BYTES + get16(buffer, at);
                buffer.swap(at, at + 1);
                at = next;
            }
        }),
        told("a listing that says 10 before 3 and 4", |page, _, _, buffer| {
            if matches!(page.number, KEY_LENGTH | KEY_HOLDS_ZERO) && buffer.is_empty() {
                page.number = BUFFER;
            }
        }),
        told("a listing that refuses a byte 0 in the prefix", |page, _, asked, _| {
            if page.number == DONE && asked.prefix.contains(&END_BYTE) {
                *page = Page::refused(KEY_HOLDS_ZERO);
            }
        }),
        with.list("a listing that takes a prefix of any length", move |frame, asked, buffer| {
            if check::check(edition, frame) == DONE && asked.prefix.len() > edition.longest_key() {
                return names::list(
                    edition,
                    frame,
                    &Asked { prefix: &[END_BYTE], ..*asked },
                    buffer,
                );
            }
            right.list(frame, asked, buffer)
        }),
        with.list(
            "a listing that takes an empty start key for none",
            move |frame, asked, buffer| {
                let start = asked.start.filter(|start| !start.is_empty());
                right.list(frame, &Asked { start, ..*asked }, buffer)
            },
        ),
    ]
}

/// How a batch is applied by these calls.
#[derive(Clone, Copy)]
pub(crate) struct Applying<'a> {
    calls: &'a dyn Calls,
    stops: fn(u32) -> bool,
    back_if_refused: bool,
    answers_if_refused: bool,
    first_place: u64,
}

impl Applying<'_> {
    pub fn right(edition: Edition) -> Applying<'static> {
        let calls: &'static Second = match edition {
            Edition::One => &Second(Edition::One),
            Edition::Two => &Second(Edition::Two),
        };
        Applying {
            calls,
            stops: batch::stops,
            back_if_refused: false,
            answers_if_refused: false,
            first_place: 1,
        }
    }

    /// The changes of a batch whose frames and layout are right.
    pub fn apply(
        &self,
        frame: &mut [u8],
        second: &mut [u8],
        changes: &[Change],
        answers: &mut [u8],
    ) -> (u32, u64) {
        second.copy_from_slice(frame);
        let mut given = Vec::new();
        let mut result = (DONE, 0);
        for (index, change) in changes.iter().enumerate() {
            let number = match change {
                Change::Put { key, value } => self.calls.put(second, key, value.given()),
                Change::Replace { key, value } => self.calls.replace(second, key, value.given()),
                Change::Erase { key } => self.calls.erase(second, key),
            };
            if (self.stops)(number) {
                result = (number, index as u64 + self.first_place);
                break;
            }
            given.push(number as u8);
        }
        let done = result == (DONE, 0);
        if done || self.back_if_refused {
            frame.copy_from_slice(second);
        }
        if done || self.answers_if_refused {
            answers.iter_mut().zip(given).for_each(|(to, answer)| *to = answer);
        }
        result
    }
}

/// The changes of a batch that the second store would start on.
pub(crate) fn started(
    edition: Edition,
    frame: &[u8],
    second: &[u8],
    batch: &[u8],
) -> Option<Vec<Change>> {
    let begun = check::check(edition, frame) == DONE && frame.len() == second.len();
    begun.then(|| batch::changes(edition, batch).ok()).flatten()
}

pub fn batches(edition: Edition) -> Vec<Altered> {
    let (right, with) = (Second(edition), With(edition));
    let applying = |name: &str, how: Applying<'static>| {
        with.batch(name, move |frame, second, batch, answers| {
            match started(edition, frame, second, batch) {
                Some(changes) => how.apply(frame, second, &changes, answers),
                None => right.batch(frame, second, batch, answers),
            }
        })
    };
    // Another batch in place of the one that is lent.
    let reading = |name: &str, other: fn(&mut Vec<u8>)| {
        with.batch(name, move |frame, second, batch, answers| {
            let mut read = batch.to_vec();
            other(&mut read);
            right.batch(frame, second, &read, answers)
        })
    };
    let applied = Applying::right(edition);
    let stops_at =
        |name: &str, stops: fn(u32) -> bool| applying(name, Applying { stops, ..applied });
    let mut all = vec![
        applying(
            "a batch that copies back though a change is refused",
            Applying { back_if_refused: true, ..applied },
        ),
        applying(
            "a batch that tells the answers before a refused change",
            Applying { answers_if_refused: true, ..applied },
        ),
        applying("a batch that counts its changes from 0", Applying { first_place: 0, ..applied }),
        stops_at("a batch that stops at 8", |number| batch::stops(number) || number == ABSENT),
        stops_at("a batch that stops at 9", |number| batch::stops(number) || number == REPLACED),
        stops_at("a batch that stops at 11", |number| batch::stops(number) || number == PRESENT),
        stops_at("a batch that passes over a change without room", |number| {
            batch::stops(number) && number != NO_ROOM
        }),
        with.batch(
            "a batch that forgets the second frame's length",
            move |frame, second, batch, answers| {
                let mut room = frame.to_vec();
                match started(edition, frame, &room, batch) {
                    Some(changes) if second.len() != frame.len() => {
                        Applying::right(edition).apply(frame, &mut room, &changes, answers)
                    }
                    _ => right.batch(frame, second, batch, answers),
                }
            },
        ),
        with.batch(
            "a batch that wants the second frame no shorter",
            move |frame, second, batch, answers| {
                let long = second.len() > frame.len() && check::check(edition, frame) == DONE;
                let length = if long { frame.len() } else { second.len() };
                right.batch(frame, &mut second[..length], batch, answers)
            },
        ),
        with.batch(
            "a batch that looks at its layout before the lengths",
            move |frame, second, batch, answers| match right.batch(frame, second, batch, answers) {
                (OUTPUT_LENGTH, _) if batch::changes(edition, batch).is_err() => (LAYOUT, 0),
                given => given,
            },
        ),
        with.batch(
            "a batch that looks at the lengths before the frame",
            move |frame, second, batch, answers| match right.batch(frame, second, batch, answers) {
                (NOT_GOOD, _) if second.len() != frame.len() => (OUTPUT_LENGTH, 0),
                given => given,
            },
        ),
        with.batch(
            "a batch that wants a good second frame",
            move |frame, second, batch, answers| {
                if started(edition, frame, second, batch).is_some()
                    && check::check(edition, second) != DONE
                {
                    return (NOT_GOOD, 0);
                }
                right.batch(frame, second, batch, answers)
            },
        ),
        with.batch(
            "a batch that starts before it has read its layout",
            move |frame, second, batch, answers| {
                let given = right.batch(frame, second, batch, answers);
                if given == (LAYOUT, 0) {
                    second.copy_from_slice(frame);
                }
                given
            },
        ),
        with.batch(
            "a batch that leaves the second frame as it was",
            move |frame, second, batch, answers| {
                let before = second.to_vec();
                let given = right.batch(frame, second, batch, answers);
                second.copy_from_slice(&before);
                given
            },
        ),
        with.batch(
            "a batch that takes back what a refused one did",
            move |frame, second, batch, answers| {
                let given = right.batch(frame, second, batch, answers);
                if given.1 > 0 {
                    second.copy_from_slice(frame);
                }
                given
            },
        ),
        with.batch(
            "a batch that clears the answers that are left",
            move |frame, second, batch, answers| {
                let given = right.batch(frame, second, batch, answers);
                let count = batch::changes(edition, batch).map_or(0, |changes| changes.len());
                if given == (DONE, 0) && count < answers.len() {
                    answers[count..].fill(0);
                }
                given
            },
        ),
        with.batch(
            "a batch that wants room for every answer",
            move |frame, second, batch, answers| {
                let count =
                    started(edition, frame, second, batch).map_or(0, |changes| changes.len());
                if answers.len() < count {
                    return (OUTPUT_LENGTH, 0);
                }
                right.batch(frame, second, batch, answers)
            },
        ),
        with.batch(
            "a batch that names a change for a wrong layout",
            move |frame, second, batch, answers| match right.batch(frame, second, batch, answers) {
                (LAYOUT, _) => (LAYOUT, 1),
                given => given,
            },
        ),
        with.batch("a batch whose puts replace", move |frame, second, batch, answers| {
            let replacing = with.put("puts that replace", move |frame, key, value| {
                put_or_replace(right, frame, key, value)
            });
            match started(edition, frame, second, batch) {
                Some(changes) => Applying { calls: &replacing, ..Applying::right(edition) }
                    .apply(frame, second, &changes, answers),
                None => right.batch(frame, second, batch, answers),
            }
        }),
        with.batch(
            "a batch that wants its changes end to end",
            move |frame, second, batch, answers| {
                let exact = started(edition, frame, second, batch)
                    .is_none_or(|changes| batch::laid(edition, &changes, 0).len() == batch.len());
                if exact {
                    right.batch(frame, second, batch, answers)
                } else {
                    (LAYOUT, 0)
                }
            },
        ),
        reading("a batch that takes an unknown kind for an erase", |batch| {
            each_change(batch, |batch, at| {
                if get16(batch, at + AT_KIND) > batch::ERASE {
                    set16(batch, at + AT_KIND, batch::ERASE);
                }
            });
        }),
        reading("a batch that takes kind 0 for a put", |batch| {
            each_change(batch, |batch, at| {
                if get16(batch, at + AT_KIND) == 0 {
                    set16(batch, at + AT_KIND, PUT);
                }
            });
        }),
        reading("a batch that reads two bytes of a value's length", |batch| {
            each_change(batch, |batch, at| set16(batch, at + AT_VALUE_LENGTH + 2, 0));
        }),
        reading("a batch that reads two bytes of its count", |batch| {
            if batch.len() >= COUNT_BYTES {
                set16(batch, 2, 0);
            }
        }),
    ];
    all.push(with.batch(
        "a batch whose changes may overlap",
        move |frame, second, batch, answers| {
            let begun = check::check(edition, frame) == DONE && frame.len() == second.len();
            let back = batch::changes(edition, batch) == Err(batch::Fault::RunsBack);
            match (begun && back).then(|| anywhere(edition, batch)).flatten() {
                Some(changes) => Applying::right(edition).apply(frame, second, &changes, answers),
                None => right.batch(frame, second, batch, answers),
            }
        },
    ));
    all
}

/// Alters each change of a batch whose fields lie in it.
pub(crate) fn each_change(batch: &mut [u8], alter: fn(&mut [u8], usize)) {
    if batch.len() < COUNT_BYTES {
        return;
    }
    for index in 0..get32(batch, 0) {
        let offset = COUNT_BYTES + OFFSET_BYTES * index;
        if offset + OFFSET_BYTES > batch.len() {
            return;
        }
        let at = get32(batch, offset);
        if at + AT_STAMP <= batch.len() {
            alter(batch, at);
        }
    }
}

/// The changes of a batch whose offsets lie in it, wherever they lead.
fn anywhere(edition: Edition, batch: &[u8]) -> Option<Vec<Change>> {
    let count = get32(batch, 0);
    let one = |index: usize| {
        let at = get32(batch, COUNT_BYTES + OFFSET_BYTES * index);
        let alone = [&1u32.to_le_bytes()[..], &8u32.to_le_bytes(), batch.get(at..)?].concat();
        batch::changes(edition, &alone).ok()?.pop()
    };
    (0..count).map(one).collect()
}

/// Stores whose answers or images hang on the order of calls on several keys.
pub fn bound_to_an_order(edition: Edition) -> Vec<Altered> {
    let (right, with) = (Second(edition), With(edition));
    vec![
        with.pack("a pack that copies what is good already", move |frame, out| {
            let given = right.pack(frame, out);
            if given == DONE {
                out.copy_from_slice(frame);
            }
            given
        }),
        with.put("a put that says 11 as long as R is odd", move |frame, key, value| {
            let odd = check::check(edition, frame) == DONE && get32(frame, AT_R) % 2 == 1;
            match right.put(&mut frame.to_vec(), key, value) {
                DONE if odd => PRESENT,
                _ => right.put(frame, key, value),
            }
        }),
        with.erase("an erase that takes the next record too", move |frame, key| {
            let given = right.erase(frame, key);
            if given == DONE {
                let next = store::records(frame).into_keys().find(|there| there[..] > *key);
                next.map(|next| right.erase(frame, &next));
            }
            given
        }),
        with.replace("a replacement that keeps the longest value", move |frame, key, value| {
            let longest = store::records(frame).into_values().max_by_key(|value| value.bytes.len());
            match longest {
                Some(longest) if longest.bytes.len() > value.bytes.len() => {
                    right.replace(frame, key, longest.given())
                }
                _ => right.replace(frame, key, value),
            }
        }),
    ]
}

const GARBAGE: u8 = 0xDD;

/// Differs from the second store in every way that the documents leave open.
pub fn right_but_different(edition: Edition) -> Altered {
    let right = Second(edition);
    Altered {
        put: Box::new(move |frame, key, value| {
            let before = frame.to_vec();
            let given = right.put(frame, key, value);
            if given == DONE {
                use_freedoms(edition, &before, frame);
            }
            given
        }),
        replace: Box::new(move |frame, key, value| {
            let before = frame.to_vec();
            let given = right.replace(frame, key, value);
            if given == REPLACED {
                use_freedoms(edition, &before, frame);
            }
            given
        }),
        erase: Box::new(move |frame, key| {
            let before = frame.to_vec();
            let given = right.erase(frame, key);
            if given == DONE && get32(frame, AT_R) > 0 {
                use_freedoms(edition, &before, frame);
            }
            given
        }),
        ..Altered::named(edition, "a right store that uses every freedom")
    }
}

/// The same, and its batches are made by its own calls.
pub fn right_in_batches(edition: Edition) -> Altered {
    Altered {
        batch: Box::new(move |frame, second, batch, answers| {
            let calls = &right_but_different(edition);
            match started(edition, frame, second, batch) {
                Some(changes) => Applying { calls, ..Applying::right(edition) }
                    .apply(frame, second, &changes, answers),
                None => Second(edition).batch(frame, second, batch, answers),
            }
        }),
        ..right_but_different(edition)
    }
}

/// Links the slots of a list the other way round.
fn turn_list(frame: &mut [u8], kind: Kind, list: &[usize]) {
    let mut next = 0;
    for slot in list {
        let offset = body_at(frame, *slot);
        set_entry(frame, *slot, offset, next);
        next = *slot;
    }
    set16(frame, list_head_at(kind.number()), next);
}

/// Touched lists the other way round; garbage in the padding of new extents.
fn use_freedoms(edition: Edition, before: &[u8], frame: &mut [u8]) {
    let was = check::read(edition, before).expect("the lengths agree");
    let is = check::read(edition, frame).expect("the lengths agree");
    for kind in Kind::ALL {
        let (old, new) = (&was.lists[kind.number()], &is.lists[kind.number()]);
        if old != new {
            turn_list(frame, kind, new);
        }
    }
    for (slot, extent) in &is.extents {
        if was.extents.get(slot) != Some(extent) {
            let leaf = store::leaf_fields(frame, *slot);
            let end = leaf.extent + leaf.key_length + leaf.value_length;
            frame[end..extent.end].fill(GARBAGE);
        }
    }
}
