//! Many changes, checked once, over the bytes of two lent frames.
//!
//! Believed here: Q-6 of document 02, and the layout of a batch in
//! docs/FORMAT.md: a count, the offset of each change, then the changes, each
//! with its kind, the lengths of key and value, in edition 2 the stamp, key
//! and value. Gaps, bytes behind the last change, and the stamp and the value of an
//! erase are not looked at.

use crate::check::check;
use crate::layout::number::*;
use crate::layout::*;
use crate::store;
use crate::trees::Change;
use crate::value::{get_stamp, set_stamp, Value, NO_STAMP, STAMP_BYTES};

pub const COUNT_BYTES: usize = 4;
pub const OFFSET_BYTES: usize = 4;
pub const AT_KIND: usize = 0;
pub const AT_KEY_LENGTH: usize = 2;
pub const AT_VALUE_LENGTH: usize = 4;
/// In edition 2.
pub const AT_STAMP: usize = 8;
pub const PUT: usize = 1;
pub const REPLACE: usize = 2;
pub const ERASE: usize = 3;

/// Where the key of a change begins.
pub fn at_key(edition: Edition) -> usize {
    match edition {
        Edition::One => AT_STAMP,
        Edition::Two => AT_STAMP + STAMP_BYTES,
    }
}

/// Why a batch is not one.
#[derive(Clone, Copy, PartialEq, Eq, PartialOrd, Ord, Debug)]
pub enum Fault {
    /// Fewer bytes than the count and the offsets have.
    Header,
    /// An offset before the end of what stands before it: the offsets, or the
    /// change before.
    RunsBack,
    /// The change's fields run past the end.
    FieldsOutside,
    UnknownKind,
    /// Key or value run past the end.
    RecordOutside,
}

impl Fault {
    pub const ALL: [Fault; 5] = [
        Fault::Header,
        Fault::RunsBack,
        Fault::FieldsOutside,
        Fault::UnknownKind,
        Fault::RecordOutside,
    ];
}

/// The changes of a batch; the stamp and the value of an erase are passed over.
pub fn changes(edition: Edition, batch: &[u8]) -> Result<Vec<Change>, Fault> {
    if batch.len() < COUNT_BYTES {
        return Err(Fault::Header);
    }
    let count = get32(batch, 0);
    let mut end = COUNT_BYTES + OFFSET_BYTES * count;
    if end > batch.len() {
        return Err(Fault::Header);
    }
    let mut found = Vec::new();
    for index in 0..count {
        let at = get32(batch, COUNT_BYTES + OFFSET_BYTES * index);
        if at < end {
            return Err(Fault::RunsBack);
        }
        let key_at = at + at_key(edition);
        if key_at > batch.len() {
            return Err(Fault::FieldsOutside);
        }
        let value_at = key_at + get16(batch, at + AT_KEY_LENGTH);
        end = value_at + get32(batch, at + AT_VALUE_LENGTH);
        let kind = get16(batch, at + AT_KIND);
        if !(PUT..=ERASE).contains(&kind) {
            return Err(Fault::UnknownKind);
        }
        if end > batch.len() {
            return Err(Fault::RecordOutside);
        }
        let stamp = match edition {
            Edition::One => NO_STAMP,
            Edition::Two => get_stamp(batch, at + AT_STAMP),
        };
        let key = batch[key_at..value_at].to_vec();
        let value = Value { bytes: batch[value_at..end].to_vec(), stamp };
        found.push(match kind {
            PUT => Change::Put { key, value },
            REPLACE => Change::Replace { key, value },
            _ => Change::Erase { key },
        });
    }
    Ok(found)
}

/// Lays changes out, each behind so many bytes that nobody looks at; an erase
/// has a value of as many bytes, and in edition 2 a stamp of such bytes.
pub fn laid(edition: Edition, changes: &[Change], gap: usize) -> Vec<u8> {
    const UNUSED: u8 = 0xAA;
    let mut batch = vec![0; COUNT_BYTES + OFFSET_BYTES * changes.len()];
    set32(&mut batch, 0, changes.len());
    let unused = vec![UNUSED; gap];
    let of_erase =
        Value { bytes: unused.clone(), stamp: u64::from_le_bytes([UNUSED; STAMP_BYTES]) };
    for (index, change) in changes.iter().enumerate() {
        let (kind, key, value) = match change {
            Change::Put { key, value } => (PUT, key, value),
            Change::Replace { key, value } => (REPLACE, key, value),
            Change::Erase { key } => (ERASE, key, &of_erase),
        };
        batch.extend_from_slice(&unused);
        let at = batch.len();
        set32(&mut batch, COUNT_BYTES + OFFSET_BYTES * index, at);
        batch.resize(at + at_key(edition), 0);
        set16(&mut batch, at + AT_KIND, kind);
        set16(&mut batch, at + AT_KEY_LENGTH, key.len());
        set32(&mut batch, at + AT_VALUE_LENGTH, value.bytes.len());
        if edition == Edition::Two {
            set_stamp(&mut batch, at + AT_STAMP, value.stamp);
        }
        batch.extend_from_slice(key);
        batch.extend_from_slice(&value.bytes);
    }
    batch.extend_from_slice(&unused);
    batch
}

/// 8, 9 and 11 do not stop a batch.
pub fn stops(number: u32) -> bool {
    !matches!(number, DONE | ABSENT | REPLACED | PRESENT)
}

fn make(edition: Edition, frame: &mut [u8], change: &Change) -> u32 {
    match change {
        Change::Put { key, value } => store::put(edition, frame, key, value.given()),
        Change::Replace { key, value } => store::replace(edition, frame, key, value.given()),
        Change::Erase { key } => store::erase(edition, frame, key),
    }
}

/// The number, and the place from 1 of the first change that is refused, else 0.
/// The second frame is then as the changes before it left it; after a batch
/// that is done it equals the first.
pub fn apply(
    edition: Edition,
    frame: &mut [u8],
    second: &mut [u8],
    batch: &[u8],
    answers: &mut [u8],
) -> (u32, u64) {
    let checked = check(edition, frame);
    if checked != DONE {
        return (checked, 0);
    }
    if second.len() != frame.len() {
        return (OUTPUT_LENGTH, 0);
    }
    let Ok(changes) = changes(edition, batch) else {
        return (LAYOUT, 0);
    };
    second.copy_from_slice(frame);
    let mut given = Vec::new();
    for (index, change) in changes.iter().enumerate() {
        let number = make(edition, second, change);
        if stops(number) {
            return (number, index as u64 + 1);
        }
        given.push(number as u8);
    }
    frame.copy_from_slice(second);
    for (answer, number) in answers.iter_mut().zip(given) {
        *answer = number;
    }
    (DONE, 0)
}
