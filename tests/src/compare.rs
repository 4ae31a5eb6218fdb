//! The comparer: any store's calls, held to what documents 01 and 02 settle.
//!
//! Believed here: for each call, the number, the place or part given, and the
//! whole effect. The frame after must be good, its model must equal the one
//! predicted, and no byte outside what the step touches may differ. Every
//! lent buffer stands between known bytes, at changing alignment, so that a
//! write outside it shows; buffers lent for reading must be as they were.

use crate::batch;
use crate::check::{self, Reading, Rule};
use crate::decode;
use crate::image::image;
use crate::layout::{number::*, Edition, Kind, ESCAPE, INFO_NUMBERS};
use crate::names::{self, Asked, Page, LENGTH_BYTES};
use crate::random::Random;
use crate::slotless::{bodies, State};
use crate::store::{self, Found, Records};
use crate::tally::{Batch, Call, Entry, Key, Listing, Stamp, Tally};
use crate::touched;
use crate::trees::Change;
use crate::value::{Given, Value};
use std::collections::BTreeSet;
use std::fmt;
use std::hint::black_box;

/// The six calls of document 01, info, and those of document 02, as they are
/// exported, for the frames of one edition.
pub trait Calls {
    fn edition(&self) -> Edition;
    fn format(&self, frame: &mut [u8], f: usize, n: usize) -> u32;
    fn check(&self, frame: &[u8]) -> u32;
    /// All but the number is 0 of a refusal.
    fn look_up(&self, frame: &[u8], key: &[u8]) -> Found;
    /// The stamp is passed in edition 2, and is 0 in edition 1.
    fn put(&self, frame: &mut [u8], key: &[u8], value: Given) -> u32;
    fn replace(&self, frame: &mut [u8], key: &[u8], value: Given) -> u32;
    fn erase(&self, frame: &mut [u8], key: &[u8]) -> u32;
    fn pack(&self, frame: &[u8], out: &mut [u8]) -> u32;
    /// A packing that still takes a frame from before Q-3, which edition 1 alone has.
    fn pack_before(&self, frame: &[u8], out: &mut [u8]) -> u32;
    /// The number, and what is told; all 0 of a refusal.
    fn info(&self, frame: &[u8]) -> (u32, [u64; INFO_NUMBERS]);
    fn list(&self, frame: &[u8], asked: &Asked, buffer: &mut [u8]) -> Page;
    /// The number, and the place of the first change refused, or 0.
    fn batch(
        &self,
        frame: &mut [u8],
        second: &mut [u8],
        batch: &[u8],
        answers: &mut [u8],
    ) -> (u32, u64);
}

/// The second store itself.
#[derive(Clone, Copy)]
pub struct Second(pub Edition);

impl Calls for Second {
    fn edition(&self) -> Edition {
        self.0
    }
    fn format(&self, frame: &mut [u8], f: usize, n: usize) -> u32 {
        store::format(self.0, frame, f, n)
    }
    fn check(&self, frame: &[u8]) -> u32 {
        check::check(self.0, frame)
    }
    fn look_up(&self, frame: &[u8], key: &[u8]) -> Found {
        store::look_up(self.0, frame, key)
    }
    fn put(&self, frame: &mut [u8], key: &[u8], value: Given) -> u32 {
        store::put(self.0, frame, key, value)
    }
    fn replace(&self, frame: &mut [u8], key: &[u8], value: Given) -> u32 {
        store::replace(self.0, frame, key, value)
    }
    fn erase(&self, frame: &mut [u8], key: &[u8]) -> u32 {
        store::erase(self.0, frame, key)
    }
    fn pack(&self, frame: &[u8], out: &mut [u8]) -> u32 {
        store::pack(self.0, frame, out)
    }
    fn pack_before(&self, frame: &[u8], out: &mut [u8]) -> u32 {
        store::pack_before(frame, out)
    }
    fn info(&self, frame: &[u8]) -> (u32, [u64; INFO_NUMBERS]) {
        store::info(self.0, frame)
    }
    fn list(&self, frame: &[u8], asked: &Asked, buffer: &mut [u8]) -> Page {
        names::list(self.0, frame, asked, buffer)
    }
    fn batch(
        &self,
        frame: &mut [u8],
        second: &mut [u8],
        batch: &[u8],
        answers: &mut [u8],
    ) -> (u32, u64) {
        batch::apply(self.0, frame, second, batch, answers)
    }
}

/// A call that did not do what the documents settle, and how to replay it.
#[derive(Debug)]
pub struct Difference(String);

impl fmt::Display for Difference {
    fn fmt(&self, to: &mut fmt::Formatter<'_>) -> fmt::Result {
        to.write_str(&self.0)
    }
}

pub type Compared<T> = Result<T, Difference>;

/// A frame with what is known of it, as one of an edition.
#[derive(Clone)]
pub struct Held {
    edition: Edition,
    bytes: Vec<u8>,
    /// The model of a good frame, else the refusal that every call gives but the
    /// one that takes the old rule.
    known: Result<State, u32>,
    before: Option<OnlyBefore>,
}

/// A frame that was good before Q-3, and is not now.
#[derive(Clone)]
struct OnlyBefore {
    state: State,
    broken: Vec<Rule>,
}

impl Held {
    pub fn new(edition: Edition, bytes: Vec<u8>) -> Held {
        let Some(reading) = check::read(edition, &bytes) else {
            return Held { edition, bytes, known: Err(LENGTHS), before: None };
        };
        if reading.good() {
            let state = decode::state(edition, &bytes, &reading);
            return Held::good(bytes, state);
        }
        let before = reading.good_before().then(|| OnlyBefore {
            state: decode::state(edition, &bytes, &reading),
            broken: reading.broken.into_keys().collect(),
        });
        Held { edition, bytes, known: Err(NOT_GOOD), before }
    }

    fn good(bytes: Vec<u8>, state: State) -> Held {
        Held { edition: state.edition, bytes, known: Ok(state), before: None }
    }

    pub fn bytes(&self) -> &[u8] {
        &self.bytes
    }

    /// The model of a frame that is good.
    pub fn state(&self) -> &State {
        self.known.as_ref().expect("the frame is good")
    }

    pub fn refusal(&self) -> Option<u32> {
        self.known.as_ref().err().copied()
    }

    /// What is known by the old rule.
    fn known_before(&self) -> Result<&State, u32> {
        match &self.before {
            Some(before) => Ok(&before.state),
            None => self.known.as_ref().map_err(|refused| *refused),
        }
    }

    fn reading(&self) -> Reading {
        check::read(self.edition, &self.bytes).expect("the lengths agree")
    }
}

/// A buffer between known bytes.
struct Lent {
    all: Vec<u8>,
    margin: usize,
    length: usize,
}

const LEAST_MARGIN: usize = 32;
const ALIGNMENTS: u64 = 8;
const MARGIN_BYTE: u8 = 0xA5;

impl Lent {
    /// `turn` shifts the buffer's start over all alignments.
    fn new(bytes: &[u8], turn: u64) -> Lent {
        let margin = LEAST_MARGIN + (turn % ALIGNMENTS) as usize;
        let mut all = vec![MARGIN_BYTE; margin];
        all.extend_from_slice(bytes);
        all.resize(margin + bytes.len() + margin, MARGIN_BYTE);
        Lent { all, margin, length: bytes.len() }
    }

    fn part(&self) -> &[u8] {
        &self.all[self.margin..][..self.length]
    }

    fn part_mut(&mut self) -> &mut [u8] {
        &mut self.all[self.margin..][..self.length]
    }

    /// The bytes as memory holds them now, whatever the call promised.
    fn seen(&mut self) -> &[u8] {
        black_box(&mut self.all);
        self.part()
    }

    fn margins_kept(&mut self) -> bool {
        black_box(&mut self.all);
        let (before, rest) = self.all.split_at(self.margin);
        before.iter().chain(&rest[self.length..]).all(|byte| *byte == MARGIN_BYTE)
    }
}

pub struct Comparer<'a> {
    calls: &'a dyn Calls,
    pub tally: Tally,
    /// The stage and the seed that the run can be repeated with.
    stage: String,
    step: u64,
    /// Where stamps come from that no one chooses.
    stamps: Random,
}

const STAMPS_SEED: u64 = 8;

impl<'a> Comparer<'a> {
    pub fn new(calls: &'a dyn Calls) -> Comparer<'a> {
        let stamps = Random::new(STAMPS_SEED);
        Comparer { calls, tally: Tally::default(), stage: String::new(), step: 0, stamps }
    }

    /// The calls themselves, for what is told of them without any prediction.
    pub fn calls(&self) -> &'a dyn Calls {
        self.calls
    }

    /// Of the frames that the calls are for.
    pub fn edition(&self) -> Edition {
        self.calls.edition()
    }

    /// Bytes, as a frame of this edition or not.
    pub fn held(&self, bytes: Vec<u8>) -> Held {
        Held::new(self.edition(), bytes)
    }

    /// Steps are counted from here; a difference names the stage and the step.
    pub fn begin(&mut self, stage: String) {
        self.stage = format!("edition {}, {stage}", self.edition().number());
        self.step = 0;
        self.stamps = Random::new(STAMPS_SEED);
    }

    /// A value with some stamp, another one each time; in edition 1 without.
    pub fn stamped<'v>(&mut self, bytes: &'v [u8]) -> Given<'v> {
        Value { bytes, stamp: self.stamps.stamp(self.calls.edition()) }
    }

    pub fn differs<T>(&self, what: String) -> Compared<T> {
        Err(Difference(format!("{}, step {}: {what}", self.stage, self.step)))
    }

    fn demand(&self, kept: bool, what: impl FnOnce() -> String) -> Compared<()> {
        if kept {
            Ok(())
        } else {
            self.differs(what())
        }
    }

    fn same_number(&self, call: &str, given: u32, expected: u32) -> Compared<()> {
        self.demand(given == expected, || format!("{call} gave {given}, not {expected}"))
    }

    fn lend(&self, bytes: &[u8]) -> Lent {
        Lent::new(bytes, self.step)
    }

    fn margins(&self, call: &str, lent: &mut [&mut Lent]) -> Compared<()> {
        let kept = lent.iter_mut().all(|lent| lent.margins_kept());
        self.demand(kept, || format!("{call} wrote outside a lent buffer"))
    }

    fn unchanged(&self, call: &str, what: &str, lent: &mut Lent, before: &[u8]) -> Compared<()> {
        let place = lent.seen().iter().zip(before).position(|(is, was)| is != was);
        self.demand(place.is_none(), || format!("{call} changed byte {place:?} of the {what}"))
    }

    /// Gives the frame if the call made one.
    pub fn format(&mut self, before: &[u8], f: usize, n: usize) -> Compared<Option<Held>> {
        self.step += 1;
        let call = format!("format of {} bytes with F {f}, N {n}", before.len());
        let mut expected = before.to_vec();
        let number = store::format(self.edition(), &mut expected, f, n);
        let mut frame = self.lend(before);
        let given = self.calls.format(frame.part_mut(), f, n);
        self.margins(&call, &mut [&mut frame])?;
        self.same_number(&call, given, number)?;
        self.tally.add(Entry::Number(Call::Format, number));
        if number != DONE {
            self.unchanged(&call, "refused frame", &mut frame, before)?;
            return Ok(None);
        }
        if expected != image(self.edition(), f, n, &Records::new()) {
            return self.differs(format!("{call}: the two readings of format differ"));
        }
        self.unchanged(&call, "formatted frame as it should be", &mut frame, &expected)?;
        Ok(Some(Held::good(expected, State::fresh(self.edition(), f, n))))
    }

    pub fn check(&mut self, held: &Held) -> Compared<()> {
        self.step += 1;
        let call = format!("check of {} bytes", held.bytes.len());
        let mut frame = self.lend(&held.bytes);
        let given = self.calls.check(frame.part());
        self.margins(&call, &mut [&mut frame])?;
        self.unchanged(&call, "frame", &mut frame, &held.bytes)?;
        let number = held.refusal().unwrap_or(DONE);
        self.count(Call::Check, held, number);
        self.same_number(&call, given, number)
    }

    /// The number; and that the call met a frame from before, which breaks one
    /// rule of Q-3 alone.
    fn count(&mut self, of: Call, held: &Held, number: u32) {
        self.tally.add(Entry::Number(of, number));
        if let Some(OnlyBefore { broken, .. }) = &held.before {
            if let [rule] = broken[..] {
                self.tally.add(Entry::Before(of, rule));
            }
        }
    }

    /// The sorts of keys that edition 2 alone has; the frame is the one before the
    /// call, which is done.
    fn count_key(&mut self, of: Call, state: &State, key: &[u8]) {
        if state.edition == Edition::One {
            return;
        }
        let zeros = key.iter().filter(|byte| **byte == 0).count();
        let longest = key.len() == state.edition.longest_key();
        let some_zeros = |key: &[u8]| key.iter().all(|byte| *byte == 0);
        let behind = (1..key.len())
            .rev()
            .take_while(|end| some_zeros(&key[*end..]))
            .any(|end| state.find(&key[..end]).is_ok());
        let before = || {
            let with = |more: usize| [key, &vec![0; more]].concat();
            (1..=2).any(|more| state.find(&with(more)).is_ok())
        };
        let cases = [
            (Key::LongestOfZeros, longest && zeros == key.len()),
            (Key::LongestWithoutZero, longest && zeros == 0),
            (Key::ZerosBehindAnother, behind),
            (Key::BeforeAnother, before()),
            (Key::Zero255, key.windows(2).any(|two| two == [0, ESCAPE])),
        ];
        for (case, _) in cases.into_iter().filter(|(_, holds)| *holds) {
            self.tally.add(Entry::Key(of, case));
        }
    }

    /// Which stamps a look-up tells, in edition 2.
    fn count_told(&mut self, stamp: u64) {
        if self.edition() == Edition::Two {
            let case = match stamp {
                0 => Stamp::Least,
                u64::MAX => Stamp::Most,
                _ => Stamp::Between,
            };
            self.tally.add(Entry::Stamp(case));
        }
    }

    /// What becomes of the stamp of a record that is there, in edition 2, by the
    /// number of a put or a replacement.
    fn count_stamp(&mut self, old: Given, new: Given, number: u32) {
        if self.edition() == Edition::One {
            return;
        }
        let same_length = old.bytes.len() == new.bytes.len();
        let case = match (number, old.stamp == new.stamp) {
            (PRESENT, false) => Stamp::LeftByPut,
            (NO_ROOM, false) => Stamp::LeftWithoutRoom,
            (REPLACED, false) if old.bytes == new.bytes => Stamp::Alone,
            (REPLACED, false) if same_length => Stamp::WithSameLength,
            (REPLACED, false) => Stamp::WithOtherLength,
            (REPLACED, true) if same_length && old.bytes != new.bytes => Stamp::Kept,
            _ => return,
        };
        self.tally.add(Entry::Stamp(case));
    }

    /// Gives what is told.
    pub fn look_up(&mut self, held: &Held, key: &[u8]) -> Compared<Found> {
        self.step += 1;
        let call = format!("look-up of {}", shown(key));
        let (mut frame, mut lent_key) = (self.lend(&held.bytes), self.lend(key));
        let given = self.calls.look_up(frame.part(), lent_key.part());
        self.margins(&call, &mut [&mut frame, &mut lent_key])?;
        self.unchanged(&call, "frame", &mut frame, &held.bytes)?;
        self.unchanged(&call, "key", &mut lent_key, key)?;
        let refused = held.refusal().or(self.edition().key_refusal(key));
        let found = match (refused, &held.known) {
            (None, Ok(state)) => Some(state.find(key)),
            _ => None,
        };
        let number = match (refused, &found) {
            (Some(refused), _) => refused,
            (None, Some(Ok(_))) => DONE,
            (None, _) => ABSENT,
        };
        self.count(Call::LookUp, held, number);
        if let Some(Err(end)) = found {
            self.tally.add(Entry::Absent(Call::LookUp, end));
        }
        let visits = match (refused, &held.known) {
            (None, Ok(state)) => state.visits(key),
            _ => 0,
        };
        let stamp = found.as_ref().and_then(|found| found.as_ref().ok()).map(|value| value.stamp);
        let expected = store::look_up(self.edition(), &held.bytes, key);
        let told = (expected.number, expected.slots, expected.stamp);
        if told != (number, visits as u64, stamp.unwrap_or_default()) {
            return self.differs(format!("{call}: the two readings of look-up differ"));
        }
        // "at most the key's length plus 2 for every good frame", and in edition 2
        // "restated over the walked length", which is one more than the key's there.
        let most = self.edition().walked(key).len() + 1;
        self.demand(visits <= most, || format!("{call} visits {visits} slots"))?;
        if let Some(found) = &found {
            let present = found.is_ok();
            if visits == if present { most } else { most - 1 } {
                self.tally.add(Entry::MostSlots { present });
            }
        }
        if let Some(Ok(value)) = found {
            self.count_key(Call::LookUp, held.state(), key);
            self.count_told(value.stamp);
            if store::value(self.edition(), &held.bytes, key) != &*value.bytes {
                return self.differs(format!("{call}: the two readings of the value differ"));
            }
        }
        let but_for_stamp = Found { stamp: given.stamp, ..expected };
        self.demand(given == but_for_stamp, || format!("{call} gave {given:?}, not {expected:?}"))?;
        let (is, should) = (given.stamp, expected.stamp);
        self.demand(is == should, || format!("{call} told the stamp {is}, not {should}"))?;
        Ok(given)
    }

    /// Gives the number; the frame held is then the one after the call.
    pub fn put(&mut self, held: &mut Held, key: &[u8], value: Given) -> Compared<u32> {
        self.record(Call::Put, held, key, value)
    }

    /// Gives the number; the frame held is then the one after the call.
    pub fn replace(&mut self, held: &mut Held, key: &[u8], value: Given) -> Compared<u32> {
        self.record(Call::Replace, held, key, value)
    }

    /// A put, and a replacement if it is told that the key is present.
    pub fn put_or_replace(&mut self, held: &mut Held, key: &[u8], value: Given) -> Compared<u32> {
        match self.put(held, key, value)? {
            PRESENT => self.replace(held, key, value),
            given => Ok(given),
        }
    }

    /// A put or a replacement.
    fn record(&mut self, of: Call, held: &mut Held, key: &[u8], value: Given) -> Compared<u32> {
        self.step += 1;
        let replacing = of == Call::Replace;
        let name = if replacing { "replacement" } else { "put" };
        let Given { bytes, stamp } = value;
        let call = format!("{name} of {} with {} bytes, stamp {stamp}", shown(key), bytes.len());
        let mut frame = self.lend(&held.bytes);
        let (mut lent_key, mut lent_bytes) = (self.lend(key), self.lend(bytes));
        let lent = Value { bytes: lent_bytes.part(), stamp };
        let given = if replacing {
            self.calls.replace(frame.part_mut(), lent_key.part(), lent)
        } else {
            self.calls.put(frame.part_mut(), lent_key.part(), lent)
        };
        self.margins(&call, &mut [&mut frame, &mut lent_key, &mut lent_bytes])?;
        self.unchanged(&call, "key", &mut lent_key, key)?;
        self.unchanged(&call, "value", &mut lent_bytes, bytes)?;
        let mut predicted = held.known.clone();
        let number = match &mut predicted {
            Err(refused) => {
                self.count(of, held, *refused);
                *refused
            }
            Ok(state) => {
                let (mut other, old) = (state.clone(), state.find(key).ok());
                let (told, other) = if replacing {
                    (state.replace(key, value), other.put(key, value))
                } else {
                    (state.put(key, value), other.replace(key, value))
                };
                self.tally.count(of, &told);
                if matches!(told.number, PRESENT | ABSENT) && other.number == NO_ROOM {
                    self.tally.add(Entry::NoneNeeded(of));
                }
                if let Some(old) = old {
                    self.count_stamp(old.given(), value, told.number);
                }
                told.number
            }
        };
        self.same_number(&call, given, number)?;
        let (DONE | REPLACED, Ok(state)) = (number, predicted) else {
            self.unchanged(&call, "frame left alone", &mut frame, &held.bytes)?;
            return Ok(number);
        };
        self.count_key(of, held.state(), key);
        let was = held.reading();
        let touched = if replacing {
            touched::by_replace(self.edition(), &held.bytes, &was, key, value)
        } else {
            touched::by_put(self.edition(), &held.bytes, key)
        };
        let step = Step { of, call: &call, was, touched, predicted: state };
        self.stepped(held, step, frame.seen())?;
        Ok(number)
    }

    /// Gives the number; the frame held is then the one after the call.
    pub fn erase(&mut self, held: &mut Held, key: &[u8]) -> Compared<u32> {
        self.step += 1;
        let call = format!("erase of {}", shown(key));
        let (mut frame, mut lent_key) = (self.lend(&held.bytes), self.lend(key));
        let given = self.calls.erase(frame.part_mut(), lent_key.part());
        self.margins(&call, &mut [&mut frame, &mut lent_key])?;
        self.unchanged(&call, "key", &mut lent_key, key)?;
        let mut predicted = held.known.clone();
        let number = match &mut predicted {
            Err(refused) => {
                self.count(Call::Erase, held, *refused);
                *refused
            }
            Ok(state) => {
                let told = state.erase(key);
                self.tally.count(Call::Erase, &told);
                told.number
            }
        };
        self.same_number(&call, given, number)?;
        let (DONE, Ok(state)) = (number, predicted) else {
            self.unchanged(&call, "frame left alone", &mut frame, &held.bytes)?;
            return Ok(number);
        };
        self.count_key(Call::Erase, held.state(), key);
        if state.r == 0 {
            let formatted = image(state.edition, state.f, state.n, &Records::new());
            self.unchanged(&call, "frame as format leaves it", &mut frame, &formatted)?;
            *held = Held::good(formatted, state);
            return Ok(number);
        }
        let was = held.reading();
        let touched = touched::by_erase(self.edition(), &held.bytes, &was, key);
        let step = Step { of: Call::Erase, call: &call, was, touched, predicted: state };
        self.stepped(held, step, frame.seen())?;
        Ok(number)
    }

    /// The frame after a put, a replacement or an erase that was done.
    fn stepped(&mut self, held: &mut Held, step: Step, after: &[u8]) -> Compared<()> {
        let Step { of, call, was, touched, predicted } = step;
        let Some(is) = check::read(self.edition(), after) else {
            return self.differs(format!("{call} spoilt the frame's length"));
        };
        if !is.good() {
            return self.differs(format!("{call} left no good frame: {:?}", is.broken));
        }
        let found = decode::state(self.edition(), after, &is);
        if found != predicted {
            let what = differing(&found, &predicted);
            return self.differs(format!("{call} left another frame: {what}"));
        }
        if let Some(what) = touched.overstepped((&held.bytes, &was), (after, &is)) {
            return self.differs(format!("{call} changed what it should not: {what}"));
        }
        self.count_wiped(of, &held.bytes, &was, &is);
        *held = Held::good(after.to_vec(), predicted);
        Ok(())
    }

    /// What the step has freed, and so wiped, that was not zero before. That it
    /// is zero now is a rule of the frame after.
    fn count_wiped(&mut self, of: Call, before: &[u8], was: &Reading, is: &Reading) {
        for (slot, kind) in was.live.iter().filter(|(slot, _)| !is.live.contains_key(slot)) {
            let body = store::body_at(before, *slot);
            if before[body..body + kind.body_bytes()].iter().any(|byte| *byte != 0) {
                self.tally.add(Entry::WipedBody(of, *kind));
            }
        }
        if was.extents.iter().any(|(slot, extent)| is.extents.get(slot) != Some(extent)) {
            self.tally.add(Entry::WipedExtent(of));
        }
    }

    /// Gives the packed frame if there is one.
    pub fn pack(&mut self, held: &Held, out_before: &[u8]) -> Compared<Option<Held>> {
        self.packing(Call::Pack, held, out_before)
    }

    /// The same by the old rule; in edition 2 there are no frames from before, and
    /// so no such call.
    pub fn pack_before(&mut self, held: &Held, out_before: &[u8]) -> Compared<Option<Held>> {
        match self.edition() {
            Edition::One => self.packing(Call::PackBefore, held, out_before),
            Edition::Two => Ok(None),
        }
    }

    fn packing(&mut self, of: Call, held: &Held, out_before: &[u8]) -> Compared<Option<Held>> {
        self.step += 1;
        let (mut frame, mut out) = (self.lend(&held.bytes), self.lend(out_before));
        let (part, lent) = (frame.part(), out.part_mut());
        let (name, given, known) = if of == Call::PackBefore {
            ("pack by the old rule", self.calls.pack_before(part, lent), held.known_before())
        } else {
            let known = held.known.as_ref().map_err(|refused| *refused);
            ("pack", self.calls.pack(part, lent), known)
        };
        let call = format!("{name} into {} bytes", out_before.len());
        self.margins(&call, &mut [&mut frame, &mut out])?;
        self.unchanged(&call, "frame", &mut frame, &held.bytes)?;
        let number = match known {
            Err(refused) => refused,
            Ok(state) if out_before.len() != state.f => OUTPUT_LENGTH,
            Ok(_) => DONE,
        };
        self.same_number(&call, given, number)?;
        self.count(of, held, number);
        let (DONE, Ok(state)) = (number, known) else {
            self.unchanged(&call, "refused output", &mut out, out_before)?;
            return Ok(None);
        };
        let expected = image(state.edition, state.f, state.n, &state.records());
        let packed = self.held(expected);
        if packed.refusal().is_some() || packed.state().records() != state.records() {
            return self.differs(format!("{call}: the image does not read back"));
        }
        let written = out.seen().to_vec();
        if written != packed.bytes {
            if let Ok(is) = &self.held(written).known {
                let what = differing(is, packed.state());
                return self.differs(format!("{call} wrote another image: {what}"));
            }
        }
        self.unchanged(&call, "output as it should be", &mut out, &packed.bytes)?;
        let (slots, bytes) = given_back(state);
        let (is, was) = (packed.state(), state);
        let kept = is.u + slots == was.u && is.b + bytes <= was.b;
        self.demand(kept, || format!("{call} does not give back {slots} slots and {bytes} bytes"))?;
        Ok(Some(packed))
    }

    pub fn info(&mut self, held: &Held) -> Compared<()> {
        self.step += 1;
        let call = format!("info of {} bytes", held.bytes.len());
        let mut frame = self.lend(&held.bytes);
        let (given, told) = self.calls.info(frame.part());
        self.margins(&call, &mut [&mut frame])?;
        self.unchanged(&call, "frame", &mut frame, &held.bytes)?;
        let (number, expected) = match &held.known {
            Err(refused) => (*refused, [0; INFO_NUMBERS]),
            Ok(state) => (DONE, fullness(state)),
        };
        self.count(Call::Info, held, number);
        if let Ok(state) = &held.known {
            let listed = Kind::ALL.into_iter().filter(|kind| state.list_lengths[kind.number()] > 0);
            listed.for_each(|kind| self.tally.add(Entry::Listed(kind)));
        }
        if store::info(self.edition(), &held.bytes) != (number, expected) {
            return self.differs(format!("{call}: the two readings of info differ"));
        }
        self.same_number(&call, given, number)?;
        self.demand(told == expected, || format!("{call} tells {told:?}, not {expected:?}"))
    }

    /// Gives the page and the entries that were written.
    pub fn list(
        &mut self,
        held: &Held,
        asked: &Asked,
        buffer: &[u8],
    ) -> Compared<(Page, Vec<Vec<u8>>)> {
        self.step += 1;
        let start = asked.start.map_or("none".to_string(), shown);
        let Asked { prefix, delimiter, .. } = *asked;
        let room = buffer.len();
        let call = format!(
            "listing of {} after {start}, delimiter {delimiter:?}, into {room} bytes",
            shown(prefix)
        );
        let mut frame = self.lend(&held.bytes);
        let mut lent_prefix = self.lend(prefix);
        let mut lent_start = self.lend(asked.start.unwrap_or_default());
        let mut lent_buffer = self.lend(buffer);
        let lent = Asked {
            prefix: lent_prefix.part(),
            start: asked.start.map(|_| lent_start.part()),
            delimiter,
        };
        let given = self.calls.list(frame.part(), &lent, lent_buffer.part_mut());
        let lent = [&mut frame, &mut lent_prefix, &mut lent_start, &mut lent_buffer];
        self.margins(&call, &mut { lent })?;
        self.unchanged(&call, "frame", &mut frame, &held.bytes)?;
        self.unchanged(&call, "prefix", &mut lent_prefix, prefix)?;
        self.unchanged(&call, "start key", &mut lent_start, asked.start.unwrap_or_default())?;
        let refused = held.refusal().or(asked.refusal(self.edition()));
        let expected = match (refused, &held.known) {
            (None, Ok(state)) => {
                let expected = Expected::of(state, asked, room);
                for case in expected.cases(state, asked, room) {
                    self.tally.add(Entry::Listing(case));
                }
                expected
            }
            (refused, _) => {
                let page = Page::refused(refused.expect("a frame that is not good is refused"));
                Expected { page, written: Vec::new(), left: Vec::new() }
            }
        };
        self.count(Call::List, held, expected.page.number);
        let mut after = buffer.to_vec();
        let text = expected.text();
        after[..text.len()].copy_from_slice(&text);
        let mut again = buffer.to_vec();
        let page = names::list(self.edition(), &held.bytes, asked, &mut again);
        if (page, &again) != (expected.page, &after) {
            return self.differs(format!("{call}: the two readings of a listing differ"));
        }
        let page = expected.page;
        self.demand(given == page, || format!("{call} gave {given:?}, not {page:?}"))?;
        self.unchanged(&call, "buffer as it should be", &mut lent_buffer, &after)?;
        Ok((page, expected.written))
    }

    /// Gives the number and the place; the frame held is then the one after the
    /// batch.
    pub fn batch(
        &mut self,
        held: &mut Held,
        second: &[u8],
        batch: &[u8],
        answers: &[u8],
    ) -> Compared<(u32, u64)> {
        self.step += 1;
        let read = batch::changes(self.edition(), batch);
        let some = read.as_ref().map_or("no".to_string(), |changes| changes.len().to_string());
        let call = format!("batch of {some} changes in {} bytes", batch.len());
        let (mut frame, mut lent_second) = (self.lend(&held.bytes), self.lend(second));
        let (mut lent_batch, mut lent_answers) = (self.lend(batch), self.lend(answers));
        let given = self.calls.batch(
            frame.part_mut(),
            lent_second.part_mut(),
            lent_batch.part(),
            lent_answers.part_mut(),
        );
        let lent = [&mut frame, &mut lent_second, &mut lent_batch, &mut lent_answers];
        self.margins(&call, &mut { lent })?;
        self.unchanged(&call, "batch", &mut lent_batch, batch)?;
        let applied = match (&held.known, &read) {
            (Err(refused), _) => Err(*refused),
            (Ok(_), _) if second.len() != held.bytes.len() => Err(OUTPUT_LENGTH),
            (Ok(_), Err(_)) => Err(LAYOUT),
            (Ok(state), Ok(changes)) => Ok(Applied::of(state.clone(), changes)),
        };
        self.tally_batch(held, second, &read, answers.len(), &applied);
        let expected = match &applied {
            Err(refused) => (*refused, 0),
            Ok(applied) => (applied.number, applied.place),
        };
        self.demand(given == expected, || format!("{call} gave {given:?}, not {expected:?}"))?;
        let done = applied.as_ref().is_ok_and(|applied| applied.number == DONE);
        let mut told = answers.to_vec();
        if let (true, Ok(applied)) = (done, &applied) {
            told.iter_mut().zip(&applied.answers).for_each(|(to, answer)| *to = *answer);
        }
        self.unchanged(&call, "answers as they should be", &mut lent_answers, &told)?;
        let Ok(applied) = applied else {
            self.unchanged(&call, "refused frame", &mut frame, &held.bytes)?;
            self.unchanged(&call, "second frame", &mut lent_second, second)?;
            return Ok(expected);
        };
        let worked = self.held(lent_second.seen().to_vec());
        match &worked.known {
            Err(refused) => {
                let what = format!("{call} left a second frame that is refused with {refused}");
                return self.differs(what);
            }
            Ok(state) if *state != applied.state => {
                let what = differing(state, &applied.state);
                return self.differs(format!("{call} left another second frame: {what}"));
            }
            Ok(_) => {}
        }
        let made = &read.as_deref().unwrap_or_default()[..applied.answers.len()];
        self.kept_aside(&call, held, &worked, made)?;
        if !done {
            self.unchanged(&call, "frame of a refused change", &mut frame, &held.bytes)?;
            return Ok(expected);
        }
        self.unchanged(&call, "frame as the second is", &mut frame, &worked.bytes)?;
        *held = worked;
        Ok(expected)
    }

    /// What the changes made do not touch: the extents of other records, with
    /// their places and their padding, and what is still not given out.
    fn kept_aside(
        &self,
        call: &str,
        held: &Held,
        worked: &Held,
        changes: &[Change],
    ) -> Compared<()> {
        let (was, is) = (held.reading(), worked.reading());
        let keys: BTreeSet<&[u8]> = changes.iter().map(Change::key).collect();
        let started_anew = formats_anew(held.state(), changes);
        let aside = |bytes: &[u8], reading: &Reading| -> Vec<(usize, Vec<u8>)> {
            let extents = reading.extents.iter().map(|(slot, extent)| {
                let key = store::leaf_fields(bytes, *slot).key_length;
                (extent.start, key, bytes[extent.clone()].to_vec())
            });
            let mut left: Vec<(usize, Vec<u8>)> = extents
                .filter(|(_, key, extent)| !keys.contains(&extent[..*key]))
                .map(|(at, _, extent)| (at, extent))
                .collect();
            left.sort();
            left
        };
        let kept = aside(&held.bytes, &was) == aside(&worked.bytes, &is);
        let b = worked.state().b;
        let free_kept = started_anew || held.bytes[b..] == worked.bytes[b..];
        self.demand(kept && free_kept, || format!("{call} changed what no change touches"))
    }

    fn tally_batch(
        &mut self,
        held: &Held,
        second: &[u8],
        read: &Result<Vec<Change>, batch::Fault>,
        answers: usize,
        applied: &Result<Applied, u32>,
    ) {
        let number = applied.as_ref().map_or_else(|refused| *refused, |applied| applied.number);
        self.count(Call::Batch, held, number);
        let other_length = held.known.is_ok() && second.len() != held.bytes.len();
        match (read, applied) {
            (Err(_), _) if other_length => self.tally.add(Entry::Batch(Batch::LengthAndFault)),
            (Err(fault), Err(LAYOUT)) => self.tally.add(Entry::BatchFault(*fault)),
            (Ok(changes), Ok(applied)) => {
                let count = changes.len();
                let passed = applied.answers.iter().take(count.saturating_sub(1));
                passed.for_each(|answer| self.tally.add(Entry::WentOn(u32::from(*answer))));
                let before = held.state();
                let stopped = applied.place > 0;
                let refused = applied.place as usize;
                let alone = |change: &Change| before.clone().make(change).number;
                let cases = [
                    (Batch::NoChange, count == 0),
                    (Batch::FewerAnswers, !stopped && answers < count),
                    (Batch::MoreAnswers, !stopped && answers > count && count > 0),
                    (Batch::StoppedLater, stopped && applied.state != *before),
                    (
                        Batch::StoppedByThoseBefore,
                        applied.number == NO_ROOM && alone(&changes[refused - 1]) != NO_ROOM,
                    ),
                ];
                for (case, _) in cases.into_iter().filter(|(_, holds)| *holds) {
                    self.tally.add(Entry::Batch(case));
                }
                let (was, is) = (before.records(), applied.state.records());
                let restamped = |key: &Vec<u8>| {
                    let (was, is) = (&was[key], is.get(key));
                    is.is_some_and(|is| is.bytes == was.bytes && is.stamp != was.stamp)
                };
                if !stopped && was.keys().any(restamped) {
                    self.tally.add(Entry::Stamp(Stamp::AloneInBatch));
                }
            }
            _ => {}
        }
    }
}

/// A put, a replacement or an erase that was done: the frame before it, what it
/// may touch, and the model after it.
struct Step<'a> {
    of: Call,
    call: &'a str,
    was: Reading,
    touched: touched::Touched,
    predicted: State,
}

/// What a batch comes to, by the changes one after another.
struct Applied {
    number: u32,
    place: u64,
    /// The model after the changes that were not refused.
    state: State,
    answers: Vec<u8>,
}

impl Applied {
    fn of(mut state: State, changes: &[Change]) -> Applied {
        let mut answers = Vec::new();
        for (index, change) in changes.iter().enumerate() {
            let told = state.make(change);
            if batch::stops(told.number) {
                return Applied { number: told.number, place: index as u64 + 1, state, answers };
            }
            answers.push(told.number as u8);
        }
        Applied { number: DONE, place: 0, state, answers }
    }
}

/// A page as the set of entries gives it, for this room.
struct Expected {
    page: Page,
    /// The entries that are written, and those that are left.
    written: Vec<Vec<u8>>,
    left: Vec<Vec<u8>>,
}

impl Expected {
    fn of(state: &State, asked: &Asked, room: usize) -> Expected {
        let mut left: Vec<Vec<u8>> = state.entries(asked).into_iter().collect();
        let ends = left.iter().scan(0, |end, entry| {
            *end += LENGTH_BYTES + entry.len();
            Some(*end)
        });
        let fitting = ends.take_while(|end| *end <= room).count();
        if fitting == 0 && !left.is_empty() {
            return Expected { page: Page::refused(BUFFER), written: Vec::new(), left };
        }
        let written: Vec<Vec<u8>> = left.drain(..fitting).collect();
        let more = u64::from(!left.is_empty());
        let page = Page { number: DONE, count: written.len() as u64, more };
        Expected { page, written, left }
    }

    fn text(&self) -> Vec<u8> {
        let laid = |entry: &Vec<u8>| [&(entry.len() as u16).to_le_bytes()[..], entry].concat();
        self.written.iter().flat_map(laid).collect()
    }

    /// Which cases this is.
    fn cases(&self, state: &State, asked: &Asked, room: usize) -> Vec<Listing> {
        let keys: Vec<Vec<u8>> = state.records().into_keys().collect();
        let matching: Vec<&Vec<u8>> =
            keys.iter().filter(|key| key.starts_with(asked.prefix)).collect();
        let none = self.written.is_empty() && self.left.is_empty();
        let taken = self.text().len();
        let short = |entry: &Vec<u8>| (taken + LENGTH_BYTES + entry.len()).checked_sub(room);
        let first_short = self.left.first().and_then(short);
        let stands_for = |entry: &Vec<u8>| {
            let group =
                entry.len() > asked.prefix.len() && entry.last() == asked.delimiter.as_ref();
            if group {
                matching.iter().filter(|key| key.starts_with(entry)).count()
            } else {
                1
            }
        };
        let in_group = |start: &[u8]| {
            start.starts_with(asked.prefix) && asked.entry(start).len() < start.len()
        };
        let is_group = |start: &[u8]| {
            start.starts_with(asked.prefix) && start.last() == asked.delimiter.as_ref()
        };
        let started = |case: &dyn Fn(&[u8]) -> bool| asked.start.is_some_and(case);
        let outside = |start: &[u8]| !start.starts_with(asked.prefix);
        let last_group = self.written.last().is_some_and(|entry| stands_for(entry) > 1);
        let holds = [
            (Listing::NoneMatches, matching.is_empty()),
            (Listing::NoneAfterStart, none && !matching.is_empty()),
            (Listing::NoBuffer, none && room == 0),
            (Listing::EndsWithBuffer, !none && self.left.is_empty() && taken == room),
            (Listing::ByteShort, taken > 0 && first_short == Some(1)),
            (Listing::FirstByteShort, taken == 0 && first_short == Some(1)),
            (
                Listing::ShorterLater,
                taken > 0
                    && self.left.iter().skip(1).any(|entry| short(entry).is_none_or(|n| n == 0)),
            ),
            (Listing::Group, self.written.iter().any(|entry| stands_for(entry) > 1)),
            (
                Listing::GroupIsKey,
                self.written.iter().any(|entry| stands_for(entry) > 1 && keys.contains(entry)),
            ),
            (Listing::EndsWithGroup, last_group && self.left.is_empty()),
            (Listing::PrefixIsKey, keys.iter().any(|key| key == asked.prefix)),
            (Listing::ZeroInPrefix, asked.prefix.contains(&0)),
            (
                Listing::DelimiterInPrefix,
                !none && asked.delimiter.is_some_and(|byte| asked.prefix.contains(&byte)),
            ),
            (Listing::StartIsNoKey, started(&|start| !keys.iter().any(|key| key == start))),
            (Listing::StartIsGroup, started(&is_group)),
            (Listing::StartInGroup, started(&in_group) && !none),
            (
                Listing::StartBelowPrefix,
                started(&|start| outside(start) && start < asked.prefix) && !none,
            ),
            (
                Listing::StartAbovePrefix,
                started(&|start| outside(start) && start > asked.prefix) && !matching.is_empty(),
            ),
            (
                Listing::ZeroInEntry,
                self.written.iter().any(|entry| entry[..entry.len() - 1].contains(&0)),
            ),
            (
                Listing::ZeroBehindEntry,
                self.written.windows(2).any(|two| two[1] == [&two[0][..], &[0]].concat()),
            ),
            (
                Listing::GroupByZero,
                asked.delimiter == Some(0)
                    && self.written.iter().any(|entry| stands_for(entry) > 1),
            ),
            (
                Listing::ZeroInStart,
                started(&|start| start.contains(&0) && matching.iter().any(|key| ***key < *start)),
            ),
        ];
        holds.into_iter().filter(|(_, holds)| *holds).map(|(case, _)| case).collect()
    }
}

/// Whether some change of a batch leaves the frame as format does.
fn formats_anew(state: &State, changes: &[Change]) -> bool {
    let mut state = state.clone();
    changes.iter().any(|change| {
        let had = state.r > 0;
        state.make(change);
        had && state.r == 0
    })
}

/// The slots that packing gives back, and the bytes that it gives back at least:
/// those of freed bodies, and dead extents.
fn given_back(state: &State) -> (usize, usize) {
    let freed = |kind: &Kind| state.list_lengths[kind.number()];
    let slots = Kind::ALL.iter().map(freed).sum();
    let bodies: usize = Kind::ALL.iter().map(|kind| freed(kind) * kind.body_bytes()).sum();
    (slots, bodies + state.x)
}

/// What info tells of a frame with this model.
fn fullness(state: &State) -> [u64; INFO_NUMBERS] {
    let State { f, n, u, b, r, x, list_lengths: [_, lists @ ..], .. } = *state;
    let mut all = [f, n, u, b, r, x].into_iter().chain(lists).map(|number| number as u64);
    std::array::from_fn(|_| all.next().expect("as many as info tells"))
}

/// Says where a call stood that did not even return.
impl Drop for Comparer<'_> {
    fn drop(&mut self) {
        if std::thread::panicking() {
            eprintln!("the comparison stood at {}, step {}", self.stage, self.step);
        }
    }
}

/// In what the frame found differs from the one predicted.
fn differing(found: &State, predicted: &State) -> String {
    let fields = |state: &State| (state.u, state.b, state.r, state.x, state.list_lengths);
    if fields(found) != fields(predicted) {
        let (is, should) = (fields(found), fields(predicted));
        return format!("U, B, R, X and the lists by kind are {is:?} and not {should:?}");
    }
    let (is, should) = (found.records(), predicted.records());
    let mut keys = should.keys().chain(is.keys());
    if let Some(key) = keys.find(|key| is.get(*key) != should.get(*key)) {
        return match (is.get(key), should.get(key)) {
            (Some(is), Some(should)) if is.bytes == should.bytes => {
                format!("the stamp of {} is {} and not {}", shown(key), is.stamp, should.stamp)
            }
            _ => format!("the record set, first at {}", shown(key)),
        };
    }
    let (is, should) = (bodies(&found.tree), bodies(&predicted.tree));
    if is != should {
        return format!("live bodies by kind are {is:?} and not {should:?}");
    }
    "the nodes, their bytes, or the places in a Node48".to_string()
}

const SHOWN_BYTES: usize = 24;

fn shown(key: &[u8]) -> String {
    let start = key[..key.len().min(SHOWN_BYTES)].escape_ascii();
    format!("\"{start}\" ({} bytes)", key.len())
}
