//! The list of calls as `runner.c` and `runner.js` read it: where lent bytes stand, and one line for each command.

use crate::random::Random;
use std::fmt::{Display, Write};

/// Bytes of the runner's arena.
#[derive(Clone, Copy)]
pub struct Bytes {
    pub at: usize,
    pub length: usize,
}

pub const LONGEST_FRAME: usize = 524_288;
pub const LONGEST_VALUE: usize = 65_535;
/// The longest batch of a list.
pub const LONGEST_BATCH: usize = 4_096;
/// As many bytes as one line sets.
const LINE_BYTES: usize = 256;
/// An info writes its numbers only if it is lent so many.
pub const INFO_NUMBERS: usize = 14;
/// So does a listing.
pub const LIST_NUMBERS: usize = 2;
/// As a delimiter: none.
pub const NO_DELIMITER: u64 = 256;

// Room for the longest thing that stands there, for an odd place, and for what the runner looks at beyond its ends.
const BESIDE: usize = 64;
const FRAME_AT: usize = BESIDE;
const OUT_AT: usize = FRAME_AT + LONGEST_FRAME + BESIDE;
const KEPT_AT: usize = OUT_AT + LONGEST_FRAME + BESIDE;
const KEY_AT: usize = KEPT_AT + LONGEST_FRAME + BESIDE;
const START_AT: usize = KEY_AT + 256 + BESIDE;
const VALUE_AT: usize = START_AT + 256 + BESIDE;
const BATCH_AT: usize = VALUE_AT + LONGEST_VALUE + 1 + BESIDE;
const ANSWERS_AT: usize = BATCH_AT + LONGEST_BATCH + BESIDE;
const END: usize = ANSWERS_AT + 256 + BESIDE;
const NUMBERS_AT: usize = (END + BESIDE) / 8 * 8;

const DIRT: u8 = 0xA5;
const STAMP_SEED: u64 = 9;

/// Whose calls are made.
#[derive(Clone, Copy, PartialEq, Eq)]
pub enum Edition {
    One = 1,
    Two = 2,
}

impl Edition {
    pub const fn longest_key(self) -> usize {
        match self {
            Edition::One => 112,
            Edition::Two => 255,
        }
    }

    /// A look-up writes its numbers only if it is lent so many.
    pub const fn look_up_numbers(self) -> usize {
        match self {
            Edition::One => 3,
            Edition::Two => 4,
        }
    }

    /// What the names of its calls begin with.
    fn prefix(self) -> &'static str {
        match self {
            Edition::One => "frame",
            Edition::Two => "frame2",
        }
    }
}

/// A value by its length and by what its bytes are made from.
#[derive(Clone, Copy)]
pub struct Value {
    pub length: usize,
    pub seed: u32,
}

/// What names are asked for.
#[derive(Clone, Copy)]
pub struct Names<'a> {
    pub prefix: &'a [u8],
    pub start: Option<&'a [u8]>,
    pub delimiter: u64,
}

/// The list, and the frame that its calls are about.
pub struct List {
    text: String,
    edition: Edition,
    frame: Bytes,
    /// How far from a multiple of 8 each lent buffer stands: frame, output, key, value.
    odd: [usize; 4],
    stamps: Random,
}

impl List {
    pub fn new() -> List {
        let frame = Bytes { at: FRAME_AT, length: 0 };
        let stamps = Random::new(STAMP_SEED);
        List { text: String::new(), edition: Edition::One, frame, odd: [0; 4], stamps }
    }

    /// The stamp that is passed next: no bit set, all of them, or any.
    pub fn stamp(&mut self) -> u64 {
        match self.stamps.below(8) {
            0 => 0,
            1 => u64::MAX,
            _ => self.stamps.draw(),
        }
    }

    pub fn edition(&self) -> Edition {
        self.edition
    }

    /// The calls from here on are those of an edition.
    pub fn begin(&mut self, edition: Edition) {
        self.edition = edition;
    }

    /// A call of the edition, with what is lent to it.
    fn call(&mut self, call: &str, lent: impl Display) {
        let prefix = self.edition.prefix();
        self.line(format_args!("call {prefix}_{call} {lent}"));
    }

    pub fn text(self) -> String {
        self.text
    }

    fn line(&mut self, line: impl Display) {
        writeln!(self.text, "{line}").expect("a string takes every line");
    }

    pub fn command(&mut self, command: &str) {
        self.line(command);
    }

    /// Ends what was before with a hash of the whole arena; then new places, and bytes of any kind in a frame of another length.
    pub fn scene(&mut self, name: &str, odd: [usize; 4], length: usize) {
        self.line(format_args!("hash {FRAME_AT} {}", END - FRAME_AT));
        self.line(format_args!("scene {name}"));
        self.odd = odd;
        self.frame = Bytes { at: FRAME_AT + odd[0], length };
        let seed = Random::new(length as u64).seed();
        self.random(self.frame, seed);
        let out = self.out(length);
        self.random(out, seed ^ 2);
    }

    pub fn frame(&self) -> Bytes {
        self.frame
    }

    pub fn out(&self, length: usize) -> Bytes {
        Bytes { at: OUT_AT + self.odd[1], length }
    }

    pub fn random(&mut self, bytes: Bytes, seed: u32) {
        self.line(format_args!("random {} {} {seed}", bytes.at, bytes.length));
    }

    pub fn set(&mut self, at: usize, bytes: &[u8]) {
        if bytes.is_empty() {
            return;
        }
        let hex: String = bytes.iter().map(|byte| format!("{byte:02x}")).collect();
        self.line(format_args!("bytes {at} {hex}"));
    }

    /// Keeps the frame as it stands, to come back to it.
    pub fn keep(&mut self) {
        let Bytes { at, length } = self.frame;
        self.line(format_args!("copy {at} {KEPT_AT} {length}"));
    }

    pub fn restore(&mut self) {
        let Bytes { at, length } = self.frame;
        self.line(format_args!("copy {KEPT_AT} {at} {length}"));
    }

    pub fn flip(&mut self, place: usize, mask: u8) {
        let at = self.frame.at + place;
        self.line(format_args!("flip {at} {mask}"));
    }

    /// Goes on with what the last packing has written.
    pub fn take_packed(&mut self) {
        let Bytes { at, length } = self.frame;
        let out = self.out(length);
        self.line(format_args!("copy {} {at} {length}", out.at));
    }

    fn key(&mut self, key: &[u8]) -> Bytes {
        let lent = Bytes { at: KEY_AT + self.odd[2], length: key.len() };
        self.set(lent.at, key);
        lent
    }

    fn lent(bytes: Bytes) -> String {
        format!("{}:{}", bytes.at, bytes.length)
    }

    // One function for each exported call, over any bytes.

    pub fn format_of(&mut self, frame: Bytes, f: u64, n: u64) {
        self.call("format", format_args!("{} ={f} ={n}", List::lent(frame)));
    }

    pub fn check_of(&mut self, frame: Bytes) {
        self.call("check", List::lent(frame));
    }

    pub fn look_up_of(&mut self, frame: Bytes, key: &[u8], numbers: usize) {
        let key = self.key(key);
        self.dirty(numbers);
        let (frame, key) = (List::lent(frame), List::lent(key));
        self.call("look_up", format_args!("{frame} {key} {NUMBERS_AT}*{numbers}"));
    }

    pub fn put_of(&mut self, frame: Bytes, key: &[u8], value: Value) {
        self.write_of("put", frame, key, value);
    }

    pub fn replace_of(&mut self, frame: Bytes, key: &[u8], value: Value) {
        self.write_of("replace", frame, key, value);
    }

    fn write_of(&mut self, call: &str, frame: Bytes, key: &[u8], value: Value) {
        let key = self.key(key);
        let lent = Bytes { at: VALUE_AT + self.odd[3], length: value.length };
        self.random(lent, value.seed);
        let (frame, key, value) = (List::lent(frame), List::lent(key), List::lent(lent));
        match self.edition {
            Edition::One => self.call(call, format_args!("{frame} {key} {value}")),
            Edition::Two => {
                let stamp = self.stamp();
                self.call(call, format_args!("{frame} {key} {value} ={stamp}"));
            }
        }
    }

    pub fn erase_of(&mut self, frame: Bytes, key: &[u8]) {
        let key = self.key(key);
        self.call("erase", format_args!("{} {}", List::lent(frame), List::lent(key)));
    }

    pub fn pack_of(&mut self, frame: Bytes, out: Bytes) {
        self.call("pack", format_args!("{} {}", List::lent(frame), List::lent(out)));
    }

    /// Of edition 1 alone; in edition 2 nothing.
    pub fn pack_before_of(&mut self, frame: Bytes, out: Bytes) {
        if self.edition == Edition::One {
            self.call("pack_before", format_args!("{} {}", List::lent(frame), List::lent(out)));
        }
    }

    pub fn info_of(&mut self, frame: Bytes, numbers: usize) {
        self.dirty(numbers);
        self.call("info", format_args!("{} {NUMBERS_AT}*{numbers}", List::lent(frame)));
    }

    pub fn list_of(&mut self, frame: Bytes, names: Names, buffer: usize, numbers: usize) {
        let prefix = self.key(names.prefix);
        let start = names.start.unwrap_or_default();
        let lent = Bytes { at: START_AT + self.odd[3], length: start.len() };
        self.set(lent.at, start);
        self.dirty(numbers);
        let (given, delimiter) = (u64::from(names.start.is_some()), names.delimiter);
        let (frame, prefix, start) = (List::lent(frame), List::lent(prefix), List::lent(lent));
        let buffer = List::lent(self.out(buffer));
        let lent = format_args!("{frame} {prefix} {start} ={given} ={delimiter} {buffer}");
        self.call("list", format_args!("{lent} {NUMBERS_AT}*{numbers}"));
    }

    /// The second frame is what is lent as output.
    pub fn batch_of(&mut self, frame: Bytes, second: usize, batch: &[u8], answers: usize) {
        let lent = Bytes { at: BATCH_AT + self.odd[2], length: batch.len() };
        for (place, bytes) in batch.chunks(LINE_BYTES).enumerate() {
            self.set(lent.at + place * LINE_BYTES, bytes);
        }
        let answers = Bytes { at: ANSWERS_AT + self.odd[3], length: answers };
        self.line(format_args!("fill {} {} {DIRT}", answers.at, answers.length.max(1)));
        let (frame, second) = (List::lent(frame), List::lent(self.out(second)));
        let (batch, answers) = (List::lent(lent), List::lent(answers));
        self.call("batch", format_args!("{frame} {second} {batch} {answers}"));
    }

    /// Known bytes where so many numbers are lent, and one beside them.
    fn dirty(&mut self, numbers: usize) {
        self.line(format_args!("fill {} {} {DIRT}", NUMBERS_AT - 8, (numbers + 2) * 8));
    }

    // The same over the scene's own frame.

    pub fn format(&mut self, n: usize) {
        self.format_of(self.frame, self.frame.length as u64, n as u64);
    }

    pub fn check(&mut self) {
        self.check_of(self.frame);
    }

    pub fn look_up(&mut self, key: &[u8]) {
        self.look_up_of(self.frame, key, self.edition.look_up_numbers());
    }

    pub fn put(&mut self, key: &[u8], value: Value) {
        self.put_of(self.frame, key, value);
    }

    pub fn replace(&mut self, key: &[u8], value: Value) {
        self.replace_of(self.frame, key, value);
    }

    /// New, or in the place of what is there: one of the two does it.
    pub fn put_or_replace(&mut self, key: &[u8], value: Value) {
        self.put(key, value);
        self.replace(key, value);
    }

    pub fn erase(&mut self, key: &[u8]) {
        self.erase_of(self.frame, key);
    }

    pub fn pack(&mut self) {
        self.pack_of(self.frame, self.out(self.frame.length));
    }

    pub fn pack_before(&mut self) {
        self.pack_before_of(self.frame, self.out(self.frame.length));
    }

    pub fn list(&mut self, names: Names, buffer: usize) {
        self.list_of(self.frame, names, buffer, LIST_NUMBERS);
    }

    pub fn batch(&mut self, batch: &[u8], answers: usize) {
        self.batch_of(self.frame, self.frame.length, batch, answers);
    }

    pub fn info(&mut self) {
        self.info_of(self.frame, INFO_NUMBERS);
    }

    /// Every call that may meet a frame that is not good, and the frame again as it was kept.
    pub fn every_call(&mut self, key: &[u8], value: Value) {
        self.check();
        self.info();
        self.look_up(key);
        self.list(Names { prefix: key, start: Some(key), delimiter: NO_DELIMITER }, value.length);
        self.pack();
        self.pack_before();
        self.put(key, value);
        self.replace(key, value);
        self.erase(key);
        self.restore();
    }
}
