//! Changes, and what is said of their answers.

use crate::image::EDITION;
use crate::lines::Record;
use frame_rules::layout::number;
use frame_store::{Batch, Frame, Full, Lack, Refusal};

pub enum Change {
    Put(Record),
    Replace(Record),
    Erase(Vec<u8>),
}

/// A change that was not refused.
#[derive(Clone, Copy, PartialEq, Eq)]
pub enum Done {
    New,
    Replaced,
    Erased,
    /// Nothing was changed: a put's key is there; a replacement's or an erase's is not.
    Present,
    Absent,
}

impl Change {
    pub fn name(&self) -> &'static str {
        match self {
            Change::Put(_) => "put",
            Change::Replace(_) => "replace",
            Change::Erase(_) => "erase",
        }
    }

    pub fn key(&self) -> &[u8] {
        match self {
            Change::Put(record) | Change::Replace(record) => &record.key,
            Change::Erase(key) => key,
        }
    }

    fn value(&self) -> &[u8] {
        match self {
            Change::Put(record) | Change::Replace(record) => &record.value,
            Change::Erase(_) => b"",
        }
    }

    fn add_to(&self, batch: &mut Batch) -> Result<(), Full> {
        // A key that is longer is refused as one that is too long by a byte.
        let key = &self.key()[..self.key().len().min(EDITION.longest_key() + 1)];
        match self {
            Change::Put(_) => batch.put(key, self.value()),
            Change::Replace(_) => batch.replace(key, self.value()),
            Change::Erase(_) => batch.erase(key),
        }
    }

    /// The bytes of key and value that an extent would have to hold.
    fn text_bytes(&self) -> usize {
        match self {
            Change::Put(_) | Change::Replace(_) => self.key().len() + self.value().len(),
            Change::Erase(_) => 0,
        }
    }

    /// What its answer says, which is no refusal.
    fn done(&self, answer: u8) -> Done {
        match (self, u32::from(answer)) {
            (_, number::ABSENT) => Done::Absent,
            (_, number::PRESENT) => Done::Present,
            (Change::Put(_), _) => Done::New,
            (Change::Replace(_), _) => Done::Replaced,
            (Change::Erase(_), _) => Done::Erased,
        }
    }

    /// Why it was refused, of the frame that was left as it was.
    fn refused(&self, frame: &Frame<Vec<u8>>, refusal: Refusal) -> String {
        let why = match (refusal, frame.info()) {
            (Refusal::Room, Ok(info)) => {
                let lack = match (self, info.lacked(self.text_bytes())) {
                    // A replacement needs no slot.
                    (Change::Replace(_), _) | (_, Lack::Bytes) => "bytes",
                    (_, Lack::Slots) => "slots",
                    (_, Lack::SlotsOrBytes) => "slots or bytes",
                };
                format!(
                    "too few {lack} are left; packing gives back {} slots and {} bytes or more",
                    info.slots_to_pack(),
                    info.bytes_to_pack()
                )
            }
            _ => refusal.to_string(),
        };
        format!("{} refused (answer {}): {why}", self.name(), refusal.number())
    }
}

/// The bytes that a change takes in a batch beside its key and value, and that the batch itself takes, are no more.
const BESIDE_TEXT: usize = 16;

/// A change that was refused, from 0, and why; nothing was changed.
pub struct Stopped {
    pub at: usize,
    pub why: String,
}

/// Makes all changes, in their order, or none.
pub fn make(changes: &[Change], frame: &mut Frame<Vec<u8>>) -> Result<Vec<Done>, Stopped> {
    let sizes =
        changes.iter().map(|change| BESIDE_TEXT + change.key().len() + change.value().len());
    let mut lent = vec![0; BESIDE_TEXT + sizes.sum::<usize>()];
    let mut batch = Batch::new(&mut lent, changes.len()).expect("room for the batch");
    for change in changes {
        change.add_to(&mut batch).expect("room for every change");
    }
    let mut second = vec![0; frame.bytes().len()];
    let mut answers = vec![0; changes.len()];
    let applied = frame.apply(&batch, &mut second, &mut answers);
    applied.map_err(|stopped| match stopped.change.checked_sub(1) {
        // The second frame is as the changes before it left it.
        Some(at) => Stopped { at, why: changes[at].refused(&Frame::over(second), stopped.refusal) },
        None => Stopped { at: 0, why: stopped.refusal.to_string() },
    })?;
    Ok(changes.iter().zip(answers).map(|(change, answer)| change.done(answer)).collect())
}

impl Done {
    /// Why nothing was changed.
    pub fn without_effect(self) -> Option<&'static str> {
        match self {
            Done::Present => Some("the key is there (answer 11)"),
            Done::Absent => Some("no such key (answer 8)"),
            Done::New | Done::Replaced | Done::Erased => None,
        }
    }
}
