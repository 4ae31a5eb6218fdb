//! Which cases a run has reached.
//!
//! Believed here: the list of everything a put, a replacement, an erase and the other calls
//! can come to. A run that never reaches an entry of it proves nothing about
//! that entry, and fails.

use crate::batch::Fault;
use crate::chains;
use crate::check::Rule;
use crate::layout::{number::*, Edition, Kind};
use crate::slotless::{Beginning, Case, End, Survivor, Told};
use std::collections::BTreeMap;

#[derive(Clone, Copy, PartialEq, Eq, PartialOrd, Ord, Debug)]
pub enum Call {
    Format,
    Check,
    LookUp,
    Put,
    Replace,
    Erase,
    Pack,
    PackBefore,
    Info,
    List,
    Batch,
}

impl Call {
    /// The calls of both editions on a frame that is there.
    const ON_A_FRAME: [Call; 9] = [
        Call::Check,
        Call::LookUp,
        Call::Put,
        Call::Replace,
        Call::Erase,
        Call::Pack,
        Call::Info,
        Call::List,
        Call::Batch,
    ];
}

/// Keys that edition 2 alone has.
#[derive(Clone, Copy, PartialEq, Eq, PartialOrd, Ord, Debug)]
pub enum Key {
    /// As long as can be, and every byte 0.
    LongestOfZeros,
    /// As long as can be, and no byte 0.
    LongestWithoutZero,
    /// Bytes 0 behind another key that is there.
    ZerosBehindAnother,
    /// Another key that is there is this one and bytes 0 behind it.
    BeforeAnother,
    /// A byte 0, and a byte 255 behind it.
    Zero255,
}

impl Key {
    pub const ALL: [Key; 5] = [
        Key::LongestOfZeros,
        Key::LongestWithoutZero,
        Key::ZerosBehindAnother,
        Key::BeforeAnother,
        Key::Zero255,
    ];
}

/// What edition 2 makes of stamps.
#[derive(Clone, Copy, PartialEq, Eq, PartialOrd, Ord, Debug)]
pub enum Stamp {
    /// A look-up tells 0,
    Least,
    /// the largest number,
    Most,
    /// or another one.
    Between,
    /// A replacement has another stamp than the record, and the same value,
    Alone,
    /// another value of the same length,
    WithSameLength,
    /// or one of another length.
    WithOtherLength,
    /// A replacement has the record's stamp, and another value of the same length.
    Kept,
    /// A put that finds its key present has another stamp,
    LeftByPut,
    /// or a replacement that is refused for room.
    LeftWithoutRoom,
    /// After a batch a record has another stamp, and the same value.
    AloneInBatch,
}

impl Stamp {
    pub const ALL: [Stamp; 10] = [
        Stamp::Least,
        Stamp::Most,
        Stamp::Between,
        Stamp::Alone,
        Stamp::WithSameLength,
        Stamp::WithOtherLength,
        Stamp::Kept,
        Stamp::LeftByPut,
        Stamp::LeftWithoutRoom,
        Stamp::AloneInBatch,
    ];
}

/// How a case ended.
#[derive(Clone, Copy, PartialEq, Eq, PartialOrd, Ord, Debug)]
pub enum Outcome {
    Done,
    /// Done, with not one slot left after it.
    DoneWithLastSlots,
    /// Done, with not one byte left after it.
    DoneWithLastBytes,
    /// Refused for slots alone.
    NoSlots,
    /// Refused for bytes alone.
    NoBytes,
    /// Refused for slots and for bytes.
    NoSlotsNorBytes,
}

/// What a batch can be.
#[derive(Clone, Copy, PartialEq, Eq, PartialOrd, Ord, Debug)]
pub enum Batch {
    NoChange,
    FewerAnswers,
    MoreAnswers,
    /// A change is refused, and those before it have changed the frame.
    StoppedLater,
    /// A change is refused for room, and would not be without those before it.
    StoppedByThoseBefore,
    /// A second frame of another length, and a fault besides.
    LengthAndFault,
}

impl Batch {
    pub const ALL: [Batch; 6] = [
        Batch::NoChange,
        Batch::FewerAnswers,
        Batch::MoreAnswers,
        Batch::StoppedLater,
        Batch::StoppedByThoseBefore,
        Batch::LengthAndFault,
    ];
}

/// What a listing can meet.
#[derive(Clone, Copy, PartialEq, Eq, PartialOrd, Ord, Debug)]
pub enum Listing {
    /// No key begins with the prefix.
    NoneMatches,
    /// Keys begin with the prefix, and no entry sorts after the start key.
    NoneAfterStart,
    /// Nothing is to be listed, and the buffer has not one byte.
    NoBuffer,
    /// The last entry of all ends with the buffer.
    EndsWithBuffer,
    /// An entry does not fit for one byte.
    ByteShort,
    /// The first entry does not fit for one byte.
    FirstByteShort,
    /// An entry does not fit, and a later one would.
    ShorterLater,
    /// An entry written stands for several keys.
    Group,
    /// An entry written stands for a group, and is a key.
    GroupIsKey,
    /// All that is left are keys of the last entry written.
    EndsWithGroup,
    PrefixIsKey,
    ZeroInPrefix,
    DelimiterInPrefix,
    StartIsNoKey,
    StartIsGroup,
    /// The start key lies in a group and is longer than its text.
    StartInGroup,
    /// The start key does not begin with the prefix, and shuts nothing out.
    StartBelowPrefix,
    /// The start key does not begin with the prefix, and shuts all out.
    StartAbovePrefix,
    /// In edition 2: an entry written has a byte 0, and does not end with it,
    ZeroInEntry,
    /// is one before it and a byte 0 behind it,
    ZeroBehindEntry,
    /// stands for a group that a byte 0 ends.
    GroupByZero,
    /// In edition 2: the start key has a byte 0, and shuts some out.
    ZeroInStart,
}

impl Listing {
    pub const OF_ZEROS: [Listing; 4] = [
        Listing::ZeroInEntry,
        Listing::ZeroBehindEntry,
        Listing::GroupByZero,
        Listing::ZeroInStart,
    ];
    pub const ALL: [Listing; 18] = [
        Listing::NoneMatches,
        Listing::NoneAfterStart,
        Listing::NoBuffer,
        Listing::EndsWithBuffer,
        Listing::ByteShort,
        Listing::FirstByteShort,
        Listing::ShorterLater,
        Listing::Group,
        Listing::GroupIsKey,
        Listing::EndsWithGroup,
        Listing::PrefixIsKey,
        Listing::ZeroInPrefix,
        Listing::DelimiterInPrefix,
        Listing::StartIsNoKey,
        Listing::StartIsGroup,
        Listing::StartInGroup,
        Listing::StartBelowPrefix,
        Listing::StartAbovePrefix,
    ];
}

#[derive(Clone, Copy, PartialEq, Eq, PartialOrd, Ord, Debug)]
pub enum Entry {
    Number(Call, u32),
    /// A case, and the Prefixes that the frame then has more, or would have.
    Ended(Case, isize, Outcome),
    /// What was done to a shared beginning.
    Beginning(Beginning),
    /// A put, a replacement, a look-up or an erase that was done.
    Key(Call, Key),
    Stamp(Stamp),
    /// Every call on a good frame of the other edition.
    OtherEdition,
    /// Every call on such a frame with the number of this edition in its header.
    CalledThisEdition {
        taken: bool,
    },
    FromList(Call, Kind),
    Fresh(Call, Kind),
    Absent(Call, End),
    /// A put finds its key present where a replacement would have no room, or a
    /// replacement finds it absent where a put would have none.
    NoneNeeded(Call),
    /// A sequence of changes and one with the same calls in another order: with
    /// a refusal in either, and left out, or with none.
    Shuffled {
        refused: bool,
    },
    /// An answer in such a pair without a refusal.
    ShuffledAnswer(u32),
    /// The end frames of such a pair differ, though they pack alike.
    ShuffledFramesDiffer,
    /// A look-up visits as many slots as a key of its length can: its length and
    /// 2 of a key that is there, one less of one that is not.
    MostSlots {
        present: bool,
    },
    /// A listing that is not refused for its frame, its prefix or its start key.
    Listing(Listing),
    /// A batch that is not refused for its frames.
    BatchFault(Fault),
    Batch(Batch),
    /// A change with this answer did not stop its batch.
    WentOn(u32),
    /// An info tells that this kind's list is not empty.
    Listed(Kind),
    /// A call on a frame from before Q-3, which breaks this rule of Q-3 alone.
    Before(Call, Rule),
    /// A call frees a body of this kind that is not zero before,
    WipedBody(Call, Kind),
    /// or an extent.
    WipedExtent(Call),
}

#[derive(Clone, Default, Debug)]
pub struct Tally {
    counts: BTreeMap<Entry, u64>,
}

impl Tally {
    pub fn add(&mut self, entry: Entry) {
        *self.counts.entry(entry).or_default() += 1;
    }

    pub fn count(&mut self, call: Call, told: &Told) {
        self.add(Entry::Number(call, told.number));
        if let Some(end) = told.end {
            self.add(Entry::Absent(call, end));
        }
        let Some((case, room)) = &told.case else {
            return;
        };
        let outcome = match (room.lacks_slots(), room.lacks_bytes()) {
            (true, true) => Outcome::NoSlotsNorBytes,
            (true, false) => Outcome::NoSlots,
            (false, true) => Outcome::NoBytes,
            (false, false) => Outcome::Done,
        };
        let ended = |outcome| Entry::Ended(*case, told.prefixes, outcome);
        self.add(ended(outcome));
        if outcome != Outcome::Done {
            return;
        }
        if let Some(beginning) = told.beginning {
            self.add(Entry::Beginning(beginning));
        }
        if !room.fresh.is_empty() && room.fresh.len() == room.slots_left {
            self.add(ended(Outcome::DoneWithLastSlots));
        }
        if room.fresh_bytes > 0 && room.fresh_bytes == room.bytes_left {
            self.add(ended(Outcome::DoneWithLastBytes));
        }
        for kind in &room.from_list {
            self.add(Entry::FromList(call, *kind));
        }
        for kind in &room.fresh {
            self.add(Entry::Fresh(call, *kind));
        }
    }

    pub fn counts(&self) -> impl Iterator<Item = (&Entry, &u64)> {
        self.counts.iter()
    }

    pub fn never_reached(&self, edition: Edition) -> Vec<Entry> {
        expected(edition).into_iter().filter(|entry| !self.counts.contains_key(entry)).collect()
    }
}

/// Each with the Prefixes that the frame can then have more.
fn cases(edition: Edition) -> Vec<(Case, isize)> {
    let mut all = vec![
        (Case::PutInEmptyFrame, 0),
        (Case::ReplaceSameLength, 0),
        (Case::ReplaceOtherLength { same_rounded: true }, 0),
        (Case::ReplaceOtherLength { same_rounded: false }, 0),
        (Case::EraseOnlyRecord, 0),
    ];
    for kind in Kind::INNER {
        all.extend([(Case::PutAdds(kind), 0), (Case::EraseRemoves(kind), 0)]);
        all.extend(kind.larger().map(|_| (Case::PutGrows(kind), 0)));
        all.extend(kind.smaller().map(|_| (Case::EraseShrinks(kind), 0)));
    }
    all.push((Case::PutSplitsLeaf { shared: false }, 0));
    let cut = |before, after| Case::PutCutsPrefix { before, after };
    all.extend([
        (cut(true, true), 1),
        (cut(true, false), 0),
        (cut(false, true), 0),
        (cut(false, false), -1),
    ]);
    let left = |survivor, prefix_above| Case::EraseCollapses { survivor, prefix_above };
    all.extend([
        (left(Survivor::Leaf, false), 0),
        (left(Survivor::Prefix, false), 0),
        (left(Survivor::Prefix, true), -1),
        (left(Survivor::Inner, false), 1),
        (left(Survivor::Inner, true), 0),
    ]);
    // At most 509 bytes are shared, which five Prefixes hold.
    let most = match edition {
        Edition::One => 1,
        Edition::Two => 5,
    };
    for prefixes in 1..=most {
        all.push((Case::PutSplitsLeaf { shared: true }, prefixes));
        all.push((left(Survivor::Leaf, true), -prefixes));
    }
    if edition == Edition::Two {
        all.extend([
            (cut(true, true), 0),
            (cut(true, true), -1),
            (cut(true, false), -1),
            (cut(false, true), -1),
            (left(Survivor::Prefix, false), 1),
            (left(Survivor::Prefix, true), 0),
            (left(Survivor::Prefix, true), 1),
            (left(Survivor::Inner, true), 1),
        ]);
    }
    all
}

fn needs_bodies(case: Case, prefixes: isize) -> bool {
    match case {
        Case::PutInEmptyFrame
        | Case::PutSplitsLeaf { .. }
        | Case::PutAdds(_)
        | Case::PutGrows(_)
        | Case::PutCutsPrefix { .. }
        | Case::EraseShrinks(_) => true,
        Case::EraseCollapses { .. } => prefixes > 0,
        Case::ReplaceSameLength
        | Case::ReplaceOtherLength { .. }
        | Case::EraseOnlyRecord
        | Case::EraseRemoves(_) => false,
    }
}

/// Everything a full run has to reach.
pub fn expected(edition: Edition) -> Vec<Entry> {
    let mut all = Vec::new();
    for (case, prefixes) in cases(edition) {
        let mut outcomes = vec![Outcome::Done];
        if needs_bodies(case, prefixes) {
            outcomes.extend([
                Outcome::DoneWithLastSlots,
                Outcome::NoSlots,
                Outcome::NoSlotsNorBytes,
            ]);
        }
        if needs_bodies(case, prefixes) || matches!(case, Case::ReplaceOtherLength { .. }) {
            outcomes.extend([Outcome::DoneWithLastBytes, Outcome::NoBytes]);
        }
        all.extend(outcomes.into_iter().map(|outcome| Entry::Ended(case, prefixes, outcome)));
    }
    all.extend([Entry::OtherEdition, Entry::CalledThisEdition { taken: true }]);
    match edition {
        Edition::One => all.extend(of_edition_1()),
        Edition::Two => all.extend(of_edition_2()),
    }
    let put = [Kind::Leaf, Kind::Prefix, Kind::Node4, Kind::Node16, Kind::Node48, Kind::Node256];
    let erase = [Kind::Prefix, Kind::Node4, Kind::Node16, Kind::Node48];
    let put = put.into_iter().map(|kind| (Call::Put, kind));
    for (call, kind) in put.chain(erase.into_iter().map(|kind| (Call::Erase, kind))) {
        all.extend([Entry::FromList(call, kind), Entry::Fresh(call, kind)]);
    }
    for call in [Call::LookUp, Call::Replace, Call::Erase] {
        let ends = [End::EmptyFrame, End::AnotherLeaf, End::NoSuchByte, End::PrefixDiffers];
        all.extend(ends.map(|end| Entry::Absent(call, end)));
    }
    all.extend([Call::Put, Call::Replace].map(Entry::NoneNeeded));
    all.extend([true, false].map(|refused| Entry::Shuffled { refused }));
    all.extend([DONE, ABSENT, REPLACED, PRESENT].map(Entry::ShuffledAnswer));
    all.push(Entry::ShuffledFramesDiffer);
    all.extend([true, false].map(|present| Entry::MostSlots { present }));
    all.extend(Listing::ALL.map(Entry::Listing));
    all.extend(Fault::ALL.map(Entry::BatchFault));
    all.extend(Batch::ALL.map(Entry::Batch));
    all.extend([DONE, ABSENT, REPLACED, PRESENT].map(Entry::WentOn));
    let numbers: [(Call, &[u32]); 10] = [
        (Call::Format, &[DONE, LENGTHS]),
        (Call::Check, &[DONE, LENGTHS, NOT_GOOD]),
        (Call::LookUp, &[DONE, ABSENT, LENGTHS, NOT_GOOD, KEY_LENGTH]),
        (Call::Put, &[DONE, PRESENT, LENGTHS, NOT_GOOD, KEY_LENGTH, VALUE_LENGTH, NO_ROOM]),
        (Call::Replace, &[REPLACED, ABSENT, LENGTHS, NOT_GOOD, KEY_LENGTH, VALUE_LENGTH, NO_ROOM]),
        (Call::Erase, &[DONE, ABSENT, LENGTHS, NOT_GOOD, KEY_LENGTH, NO_ROOM]),
        (Call::Pack, &[DONE, LENGTHS, NOT_GOOD, OUTPUT_LENGTH]),
        (Call::Info, &[DONE, LENGTHS, NOT_GOOD]),
        (
            Call::Batch,
            &[DONE, LENGTHS, NOT_GOOD, OUTPUT_LENGTH, LAYOUT, KEY_LENGTH, VALUE_LENGTH, NO_ROOM],
        ),
        (Call::List, &[DONE, LENGTHS, NOT_GOOD, KEY_LENGTH, BUFFER]),
    ];
    for (call, given) in numbers {
        all.extend(given.iter().map(|number| Entry::Number(call, *number)));
    }
    all.extend(Kind::ALL.map(Entry::Listed));
    all.extend(Call::ON_A_FRAME.into_iter().flat_map(before));
    // An EmptyRoot is zero as long as it is live.
    let put = [Kind::Prefix, Kind::Node4, Kind::Node16, Kind::Node48];
    let erase = Kind::ALL.into_iter().filter(|kind| *kind != Kind::EmptyRoot);
    all.extend(put.map(|kind| Entry::WipedBody(Call::Put, kind)));
    all.extend(erase.map(|kind| Entry::WipedBody(Call::Erase, kind)));
    all.extend([Call::Replace, Call::Erase].map(Entry::WipedExtent));
    all
}

fn before(call: Call) -> [Entry; 3] {
    Rule::WIPED.map(|rule| Entry::Before(call, rule))
}

/// Refusal 4, the packing by the old rule, and frames that edition 2 alone has.
fn of_edition_1() -> Vec<Entry> {
    let with_a_key = [Call::LookUp, Call::Put, Call::Replace, Call::Erase, Call::Batch, Call::List];
    let packed = [DONE, LENGTHS, NOT_GOOD, OUTPUT_LENGTH];
    let mut all = with_a_key.map(|call| Entry::Number(call, KEY_HOLDS_ZERO)).to_vec();
    all.extend(packed.map(|number| Entry::Number(Call::PackBefore, number)));
    all.extend(before(Call::PackBefore));
    all.push(Entry::CalledThisEdition { taken: false });
    all
}

/// Shared beginnings at the ends of full Prefixes, keys with bytes 0, and stamps.
fn of_edition_2() -> Vec<Entry> {
    let mut all: Vec<Entry> = chains::expected().into_iter().map(Entry::Beginning).collect();
    for call in [Call::LookUp, Call::Put, Call::Replace, Call::Erase] {
        all.extend(Key::ALL.map(|key| Entry::Key(call, key)));
    }
    all.extend(Listing::OF_ZEROS.map(Entry::Listing));
    all.extend(Stamp::ALL.map(Entry::Stamp));
    all
}
