//! The frames that are measured, and the calls that are made on them.
//!
//! Records look like the settings of small devices: line profiles, subscriber
//! settings and pieces of firmware. In edition 2 they are the same, each with a stamp.
//! Everything follows from fixed seeds.

use crate::calls::{self, Call, Lent, NOTHING_FOUND};
use crate::plain::layout::number::{ABSENT, DONE, NO_ROOM, REPLACED};
use crate::plain::layout::{get32, set32, AT_EDITION, AT_U, LONGEST_FRAME, MOST_SLOTS};
use crate::plain::{self, Edition, One, Two};
use crate::random::Random;
use frame_store::Batch;

/// Frame lengths with their slot capacities.
pub const FRAMES: [(usize, usize); 3] = [(1_024, 16), (16_384, 300), (524_288, MOST_SLOTS)];

#[derive(Clone, Copy, PartialEq, Eq, Debug)]
pub enum Fill {
    /// A tenth of the records that a full frame holds, at least two.
    Sparse,
    /// Records put until 6, less a few, so that there is room for each call.
    Full,
    /// Three quarters of a full one's records, of which a third was erased again,
    /// and of the others about a quarter got a value of another length.
    Churned,
}

impl Fill {
    pub const ALL: [Fill; 3] = [Fill::Sparse, Fill::Full, Fill::Churned];

    pub fn name(self) -> &'static str {
        match self {
            Fill::Sparse => "sparse",
            Fill::Full => "full",
            Fill::Churned => "churned",
        }
    }

    fn records(self, most: usize) -> usize {
        match self {
            Fill::Sparse => (most / 10).max(2),
            Fill::Full => most - (most / 50).max(1),
            Fill::Churned => most - most / 4,
        }
    }
}

pub struct Record {
    pub key: Vec<u8>,
    pub value: Vec<u8>,
}

/// A call with the inputs it is measured on; each of them gives `number`.
pub struct Task {
    pub name: &'static str,
    pub call: Call,
    pub number: u32,
    pub inputs: Vec<Record>,
}

pub struct Workload {
    pub frame: Vec<u8>,
    pub n: usize,
    pub tasks: Vec<Task>,
}

impl Workload {
    /// Slots ever given out.
    pub fn slots(&self) -> usize {
        get32(&self.frame, AT_U)
    }

    /// The same frame in edition 2, all stamps 0, without the calls: what is good in
    /// edition 1 is so in edition 2, but for the number.
    pub fn in_edition_2(&self) -> Workload {
        let mut frame = self.frame.clone();
        set32(&mut frame, AT_EDITION, Two::NUMBER);
        Workload { frame, n: self.n, tasks: Vec::new() }
    }
}

const SEED: u64 = 1;
/// Different inputs of one task; they are used in turn.
const MOST_INPUTS: usize = 64;
const LONGEST_NEW_VALUE: usize = 48;
/// The stamp of the first record; each has a second of its own.
const FIRST_STAMP: u64 = 1_700_000_000;

/// The stamp of the record whose turn it is.
fn stamp(turn: usize) -> u64 {
    FIRST_STAMP + turn as u64
}

/// Children of every node of a wide tree: each number makes nodes of another
/// kind.
pub const WIDTHS: [usize; 4] = [4, 16, 48, 64];

/// The records of a wide tree that are left out, to be put.
pub const ABSENT_OF_WIDE: usize = 2;

/// A tree of two levels with so many children at each node: two bytes, spread
/// over all that a key can hold, and the same text behind them.
pub fn wide<E: Edition>(children: usize) -> Workload {
    let (f, n) = (LONGEST_FRAME, MOST_SLOTS);
    let mut random = Random::new(SEED);
    let mut records = records_of_tree(2, children, &mut random);
    random.shuffle(&mut records);
    let absent = records.split_off(records.len() - ABSENT_OF_WIDE);
    let mut frame = formatted::<E>(f, n);
    assert_eq!(puts_until_no_room::<E>(&mut frame, &records), None, "the longest frame has room");
    let tasks = tasks::<E>(&frame, n, &records, &absent);
    Workload { frame, n, tasks }
}

/// Records whose keys part at each of the first bytes, into so many children.
fn records_of_tree(levels: u32, children: usize, random: &mut Random) -> Vec<Record> {
    let spread = |place: usize| 1 + (place * 255 / children) as u8;
    (0..children.pow(levels))
        .map(|leaf| {
            let places = (0..levels).rev().map(|level| leaf / children.pow(level) % children);
            let way: Vec<u8> = places.map(spread).collect();
            let length = random.below(LONGEST_NEW_VALUE);
            Record { key: [&way[..], b"/setting"].concat(), value: random.bytes(length) }
        })
        .collect()
}

/// Children of every node of the trees that the look-up proper is measured on:
/// nodes of kind Node16.
pub const SOUGHT: [usize; 3] = [16, 12, 8];

/// A tree of three levels with so many children at each node: its frame and its
/// keys.
pub fn sought(children: usize) -> (Vec<u8>, Vec<Record>) {
    let records = records_of_tree(3, children, &mut Random::new(SEED));
    let mut frame = formatted::<One>(LONGEST_FRAME, MOST_SLOTS);
    assert_eq!(puts_until_no_room::<One>(&mut frame, &records), None, "the longest frame has room");
    (frame, records)
}

/// A full frame of the longest length and its keys, which are text.
pub fn sought_text() -> (Vec<u8>, Vec<Record>) {
    let (records, _, frame) = filled::<One>(LONGEST_FRAME, MOST_SLOTS, Fill::Full);
    (frame, records)
}

/// The names on a page that is measured.
pub const PAGE_NAMES: usize = 50;

/// A full frame of the longest length, and the start keys of a page at its
/// beginning (none: no byte), in its middle and at its end.
pub fn page_starts() -> (Vec<u8>, [Vec<u8>; 3]) {
    let (frame, mut records) = sought_text();
    records.sort_by(|one, other| one.key.cmp(&other.key));
    let before = |place: usize| records[place - 1].key.clone();
    let starts = [Vec::new(), before(records.len() / 2), before(records.len() - PAGE_NAMES)];
    (frame, starts)
}

/// The changes of a visit.
pub const VISIT: usize = 200;

/// A full frame of the longest length, and the changes of a visit to it: two
/// replacements by a value of the same length, an erase and a put of a new key,
/// over and over. None of them is refused.
pub fn visit() -> (Vec<u8>, Vec<(Call, Record)>) {
    let (present, absent, frame) = filled::<One>(LONGEST_FRAME, MOST_SLOTS, Fill::Full);
    let mut after = frame.clone();
    let mut changes = Vec::new();
    let (mut present, mut absent) = (present.into_iter(), absent.into_iter());
    while changes.len() < VISIT {
        let call = [Call::Replace, Call::Erase, Call::Replace, Call::Put][changes.len() % 4];
        let from = if call == Call::Put { &mut absent } else { &mut present };
        let Record { key, value } = from.next().expect("there are more records");
        let value = value.iter().map(|byte| !byte).collect();
        let record = Record { key, value };
        let mut trial = after.clone();
        let given = match call {
            Call::Put => plain::put::<One>(&mut trial, &record.key, &record.value, 0),
            Call::Replace => plain::replace::<One>(&mut trial, &record.key, &record.value, 0),
            _ => plain::erase::<One>(&mut trial, &record.key),
        };
        if given != NO_ROOM {
            after = trial;
            changes.push((call, record));
        }
    }
    (frame, changes)
}

/// The changes as a batch.
pub fn batch(changes: &[(Call, Record)]) -> Vec<u8> {
    let mut lent = vec![0; 1 << 20];
    let mut batch = Batch::new(&mut lent, changes.len()).expect("there is room");
    for (call, Record { key, value }) in changes {
        let added = match call {
            Call::Put => batch.put(key, value),
            Call::Replace => batch.replace(key, value),
            _ => batch.erase(key),
        };
        added.expect("there is room");
    }
    batch.bytes().to_vec()
}

pub fn workload<E: Edition>(f: usize, n: usize, fill: Fill) -> Workload {
    let (records, absent, frame) = filled::<E>(f, n, fill);
    let tasks = tasks::<E>(&frame, n, &records, &absent);
    Workload { frame, n, tasks }
}

/// Records that are in the frame, some that are not, and the frame.
fn filled<E: Edition>(f: usize, n: usize, fill: Fill) -> (Vec<Record>, Vec<Record>, Vec<u8>) {
    let mut random = Random::new(SEED);
    let mut records = all_records(&mut random);
    let most = puts_until_no_room::<E>(&mut formatted::<E>(f, n), &records);
    let most = most.expect("there are more records than any frame holds");
    let absent = records.split_off(fill.records(most));
    let mut frame = formatted::<E>(f, n);
    let refused = puts_until_no_room::<E>(&mut frame, &records);
    assert_eq!(refused, None, "fewer records than a full frame's have room");
    match fill {
        Fill::Sparse | Fill::Full => (records, absent, frame),
        Fill::Churned => (churned::<E>(&mut frame, records), absent, frame),
    }
}

/// Erases a third of the records, and gives about a quarter of the others another
/// length; gives those that are there then.
fn churned<E: Edition>(frame: &mut [u8], records: Vec<Record>) -> Vec<Record> {
    let mut left = Vec::new();
    for (turn, mut record) in records.into_iter().enumerate() {
        if turn % 3 == 0 && plain::erase::<E>(frame, &record.key) == DONE {
            continue;
        }
        let other = other_length(&record.value);
        let replace = |frame| plain::replace::<E>(frame, &record.key, &other, stamp(turn));
        if turn % 4 == 1 && replace(frame) == REPLACED {
            record.value = other;
        }
        left.push(record);
    }
    left
}

fn other_length(value: &[u8]) -> Vec<u8> {
    vec![b'+'; value.len() % 16 + 1]
}

fn formatted<E: Edition>(f: usize, n: usize) -> Vec<u8> {
    let mut frame = vec![0; f];
    let number = plain::format::<E>(&mut frame, f, n);
    assert_eq!(number, DONE, "F {f} and N {n} are within the limits");
    frame
}

/// Puts one record after the other; gives how many were put before a 6.
fn puts_until_no_room<E: Edition>(frame: &mut [u8], records: &[Record]) -> Option<usize> {
    let refused = |(turn, Record { key, value }): (usize, &Record)| {
        plain::put::<E>(frame, key, value, stamp(turn)) == NO_ROOM
    };
    records.iter().enumerate().map(refused).position(|refused| refused)
}

/// More records than the largest frame holds, with distinct keys, shuffled.
fn all_records(random: &mut Random) -> Vec<Record> {
    let groups: [(&str, usize, &[&str]); 3] = [
        ("line", 480, &["rate", "profile", "vlan", "state", "loop.length", "margin"]),
        ("subscriber", 640, &["name", "plan", "since", "credit", "voice.number"]),
        ("firmware", 200, &["part", "sum", "size", "signature", "version", "boot"]),
    ];
    let mut records = Vec::new();
    for (group, members, fields) in groups {
        for member in 0..members {
            for field in fields {
                let length = random.below(LONGEST_NEW_VALUE);
                let key = format!("{group}/{member}/{field}").into_bytes();
                records.push(Record { key, value: random.bytes(length) });
            }
        }
    }
    random.shuffle(&mut records);
    records
}

fn tasks<E: Edition>(frame: &[u8], n: usize, present: &[Record], absent: &[Record]) -> Vec<Task> {
    let keys = |from: &[Record]| -> Vec<Record> {
        from.iter().map(|it| Record { key: it.key.clone(), value: Vec::new() }).collect()
    };
    let with = |from: &[Record], value: fn(&[u8]) -> Vec<u8>| -> Vec<Record> {
        from.iter().map(|it| Record { key: it.key.clone(), value: value(&it.value) }).collect()
    };
    let same: fn(&[u8]) -> Vec<u8> = |value| value.to_vec();
    let same_length: fn(&[u8]) -> Vec<u8> = |value| value.iter().map(|byte| !byte).collect();
    let nothing = || vec![Record { key: Vec::new(), value: Vec::new() }];
    let tasks = [
        ("format", Call::Format, DONE, nothing()),
        ("check", Call::Check, DONE, nothing()),
        ("look-up, present", Call::LookUp, DONE, keys(present)),
        ("look-up, absent", Call::LookUp, ABSENT, keys(absent)),
        ("put, new", Call::Put, DONE, with(absent, same)),
        ("replace, same length", Call::Replace, REPLACED, with(present, same_length)),
        ("replace, other length", Call::Replace, REPLACED, with(present, other_length)),
        ("erase", Call::Erase, DONE, keys(present)),
        ("pack", Call::Pack, DONE, nothing()),
        ("list, first page", Call::List, DONE, nothing()),
    ];
    tasks
        .into_iter()
        .map(|(name, call, number, mut inputs)| {
            keep_giving::<E>(frame, n, call, number, &mut inputs);
            assert!(!inputs.is_empty(), "no input of {name} gives {number}");
            Task { name, call, number, inputs }
        })
        .collect()
}

/// Keeps inputs that give this number on a copy of the frame, and not too many.
fn keep_giving<E: Edition>(
    frame: &[u8],
    n: usize,
    call: Call,
    number: u32,
    inputs: &mut Vec<Record>,
) {
    let (mut copy, mut out) = (frame.to_vec(), vec![0; frame.len()]);
    let mut kept = 0;
    inputs.retain(|input| {
        if kept == MOST_INPUTS {
            return false;
        }
        copy.copy_from_slice(frame);
        let given = calls::plain::<E>(call)(&mut Lent {
            frame: &mut copy,
            out: &mut out,
            key: &input.key,
            value: &input.value,
            n,
            found: NOTHING_FOUND,
        });
        kept += usize::from(given == number);
        given == number
    });
}
