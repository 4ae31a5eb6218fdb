//! A settings store in one lent frame of bytes: named records that are put, replaced, looked up, erased and packed by proved calls.
//!
//! A frame has F bytes, a multiple of 8 from 1,024 to 524,288, and N slots, an even number from 8 to 10,240; 64 + 4 N + 8 is at
//! most F. A value has 0 to 65,535 bytes. A key has 1 to 112 bytes, none of them 0, in a [`Frame`], which is one of edition 1; in a
//! [`Frame2`], of edition 2, it has 1 to 255 bytes of any kind, and each record a stamp. Nothing is allocated, and everything that is kept
//! stands in the frame: store its bytes anywhere, and [`Frame::open`](FrameOf::open) them again later.
//!
//! ```
//! use frame_store::{Erase, Frame, Put, Refusal, Replace};
//!
//! let mut bytes = [0; 1024];
//! let mut frame = Frame::format(&mut bytes, 8)?;
//! assert_eq!(frame.put(b"line.rate", b"100")?, Put::New);
//! assert_eq!(frame.put(b"line.rate", b"250")?, Put::Present, "and the value stays");
//! assert_eq!(frame.replace(b"line.rate", b"250")?, Replace::Done);
//! assert_eq!(frame.look_up(b"line.rate")?, Some(&b"250"[..]));
//! assert_eq!(frame.erase(b"line.mode")?, Erase::Absent);
//! assert_eq!(frame.put(b"", b"100"), Err(Refusal::KeyLength));
//! # Ok::<(), Refusal>(())
//! ```
//!
//! Edition 2 is for keys that are no text, or long, and for records that are to tell when they were written: its puts and replacements take
//! a stamp, 64 bits that mean what the caller wants, and [`Frame2::record`](FrameOf::record) gives it back. Frames of edition 1 are not
//! mixed up with those of edition 2, which refuse them ([`Refusal::Frame`]).
//!
//! ```
//! use frame_store::{Frame, Frame2, Put, Record, Refusal, Replace};
//!
//! let mut bridge = Frame2::format([0; 1024], 8)?;
//! let address = [0x00, 0x1A, 0x2B, 0x00, 0x00, 0x01];
//! let (first_seen, later) = (1_700_000_000, 1_700_000_300);
//! assert_eq!(bridge.put(&address, b"port 3", first_seen)?, Put::New);
//! assert_eq!(bridge.put(&address, b"port 4", later)?, Put::Present, "value and stamp stay");
//! assert_eq!(bridge.record(&address)?, Some(Record { value: b"port 3", stamp: first_seen }));
//! assert_eq!(bridge.replace(&address, b"port 3", later)?, Replace::Done);
//! assert_eq!(bridge.stamp(&address)?, Some(later));
//! assert_eq!(bridge.look_up(&address)?, Some(&b"port 3"[..]));
//! assert_eq!(Frame::open(bridge.into_bytes()).err(), Some(Refusal::Frame));
//! # Ok::<(), Refusal>(())
//! ```
//!
//! No call takes a frame of the other edition:
//!
//! ```compile_fail
//! use frame_store::{Frame, Frame2};
//!
//! let mut settings: Frame<[u8; 1024]> = Frame::format([0; 1024], 8).unwrap();
//! settings = Frame2::format([0; 1024], 8).unwrap();
//! ```
//!
//! A frame stands in anything that lends bytes: an array, a `Vec`, a box, a slice borrowed from elsewhere. Any bytes may be lent:
//! each call checks the whole frame first, and one that is not good is refused. A refused call has changed nothing. That lent
//! bytes do not overlap, which the calls ask of a C program, follows here from Rust's borrows.
//!
//! The check looks at how a frame is built, not at what the records say: a frame whose bytes were changed on the way can be a good
//! frame with other records. Keep a checksum beside stored bytes; the example `settings_file` does.
//!
//! What is erased or replaced is overwritten with zero, and a good frame has zero wherever nothing is stored. A frame from before that
//! was so is refused with [`Refusal::Frame`] by all but [`View::pack_before`](ViewOf::pack_before), which packs it once.
#![no_std]
#![warn(missing_docs)]
#![deny(unsafe_code)]

mod batch;
mod calls;
mod edition;
mod names;

pub use batch::{Batch, Batch2, BatchOf, Full, Stopped};
pub use edition::{Edition, Edition1, Edition2};
pub use names::{Entries, Entry, NamesOf, Page};

use core::fmt;
use core::marker::PhantomData;
use core::ops::Range;

/// A frame of edition 1, to read and to change: keys of 1 to 112 bytes, none of them 0.
pub type Frame<B> = FrameOf<Edition1, B>;
/// A frame of edition 2: keys of 1 to 255 bytes of any kind, and a stamp with each record.
pub type Frame2<B> = FrameOf<Edition2, B>;
/// A frame of edition 1 in borrowed bytes, to read.
pub type View<'a> = ViewOf<'a, Edition1>;
/// A frame of edition 2 in borrowed bytes, to read.
pub type View2<'a> = ViewOf<'a, Edition2>;
/// The names of a frame of edition 1.
pub type Names<'n> = NamesOf<'n, Edition1>;
/// The names of a frame of edition 2.
pub type Names2<'n> = NamesOf<'n, Edition2>;

/// Why a call was refused; nothing was changed then. If several apply, it is the first in the order of this list.
#[derive(Clone, Copy, PartialEq, Eq, Hash, Debug)]
pub enum Refusal {
    /// 1: format: F or N against the limits. Else: the slice's length is no frame's, or not the one that the frame holds.
    Length,
    /// 2: the bytes are not a good frame.
    Frame,
    /// 3: the key has no byte, or more than 112 (in edition 2: 255); in a listing also: the prefix has more than that.
    KeyLength,
    /// 4: the key holds a byte 0. Edition 2 does not give it.
    KeyZero,
    /// 5: the value has more than 65,535 bytes.
    ValueLength,
    /// 7: pack, by either rule: the output is not as long as the frame. Batch: the second frame is not.
    Output,
    /// 6: not enough slots or bytes are left for what the call needs.
    Room,
    /// 10: a listing's buffer is too small for the first entry.
    Buffer,
    /// 12: the bytes are not laid out as a batch.
    Layout,
}

impl Refusal {
    /// The number that the exported call gives.
    pub fn number(self) -> u32 {
        match self {
            Refusal::Length => 1,
            Refusal::Frame => 2,
            Refusal::KeyLength => 3,
            Refusal::KeyZero => 4,
            Refusal::ValueLength => 5,
            Refusal::Room => 6,
            Refusal::Output => 7,
            Refusal::Buffer => 10,
            Refusal::Layout => 12,
        }
    }

    const ALL: [Refusal; 9] = [
        Refusal::Length,
        Refusal::Frame,
        Refusal::KeyLength,
        Refusal::KeyZero,
        Refusal::ValueLength,
        Refusal::Output,
        Refusal::Room,
        Refusal::Buffer,
        Refusal::Layout,
    ];

    fn of_number(number: u32) -> Refusal {
        let found = Refusal::ALL.into_iter().find(|refusal| refusal.number() == number);
        found.expect("the calls give no other number")
    }
}

impl fmt::Display for Refusal {
    fn fmt(&self, to: &mut fmt::Formatter<'_>) -> fmt::Result {
        to.write_str(match self {
            Refusal::Length => {
                "a frame has a multiple of 8 bytes from 1,024 to 524,288, always as many as it was formatted with, \
                 and an even number of slots from 8 to 10,240, for each of which 4 bytes are taken"
            }
            Refusal::Frame => "the bytes are not a good frame",
            Refusal::KeyLength => "the key has no byte, or it or the prefix has more than 112, or in edition 2 more than 255",
            Refusal::KeyZero => "the key holds a byte 0",
            Refusal::ValueLength => "the value has more than 65,535 bytes",
            Refusal::Output => "the output, or the second frame, is not as long as the frame",
            Refusal::Room => "too few slots or bytes are left for this call; `Info::lacked` tells which, and packing gives back what is no longer used",
            Refusal::Buffer => "the buffer is too small for the first entry",
            Refusal::Layout => "the bytes are not laid out as a batch",
        })
    }
}

impl core::error::Error for Refusal {}

/// What a put did.
#[derive(Clone, Copy, PartialEq, Eq, Hash, Debug)]
pub enum Put {
    /// 0: the key was new.
    New,
    /// 11: the key is there already, with the value, and in edition 2 the stamp, that it had. Nothing was changed.
    Present,
}

/// What a replacement did.
#[derive(Clone, Copy, PartialEq, Eq, Hash, Debug)]
pub enum Replace {
    /// 9: the key has the new value now, and in edition 2 the new stamp.
    Done,
    /// 8: there is no such key. Nothing was changed.
    Absent,
}

/// What an erase did.
#[derive(Clone, Copy, PartialEq, Eq, Hash, Debug)]
pub enum Erase {
    /// 0: the record is gone.
    Done,
    /// 8: there is no such key. Nothing was changed.
    Absent,
}

/// A record of edition 2, without its key.
#[derive(Clone, Copy, PartialEq, Eq, Hash, Debug)]
pub struct Record<'a> {
    /// The value, as a part of the frame.
    pub value: &'a [u8],
    /// The stamp that was passed with it.
    pub stamp: u64,
}

/// What a call that was refused for room lacked.
#[derive(Clone, Copy, PartialEq, Eq, Hash, Debug)]
pub enum Lack {
    /// Slots: a frame of the same length with more of them would take the call.
    Slots,
    /// Bytes: a longer frame would take the call.
    Bytes,
    /// One of the two, or both: so little is left of each that it depends on where the key leads.
    SlotsOrBytes,
}

/// How full a frame is.
#[derive(Clone, Copy, PartialEq, Eq, Hash, Debug)]
pub struct Info {
    /// F: the bytes of the frame.
    pub bytes: usize,
    /// N: the slots of the frame.
    pub slots: usize,
    /// U: the slots ever given out.
    pub slots_given: usize,
    /// B: the bytes ever given out, with the header and the table of slots.
    pub bytes_given: usize,
    /// R: the records.
    pub records: usize,
    /// X: the bytes of keys and values that are no longer used.
    pub dead_bytes: usize,
    /// How many freed bodies wait to be used again, by kind: Leaf, Prefix, none, Node4, Node16, Node48, Node256, EmptyRoot.
    pub freed: [usize; 8],
}

impl Info {
    /// The bytes of a body, by kind as in `freed`.
    pub const BODY_BYTES: [usize; 8] = [16, 128, 128, 24, 88, 456, 1_032, 8];

    /// The slots never yet given out, N - U. A call that needs more is refused for room, unless a freed body of the kind serves.
    pub fn free_slots(&self) -> usize {
        self.slots - self.slots_given
    }

    /// The bytes never yet given out, F - B. A call that needs more is refused for room, unless a freed body of the kind serves.
    pub fn free_bytes(&self) -> usize {
        self.bytes - self.bytes_given
    }

    /// The most slots that a call of edition 1 needs: a Leaf's, a node's and a Prefix's.
    pub const MOST_SLOTS: usize = 3;
    /// The most slots that a call of edition 2 needs: a Leaf's, a node's and those of five Prefixes.
    pub const MOST_SLOTS_2: usize = 7;

    /// What a call lacked that was refused for room in the frame of edition 1 of these counts. A put needs an extent for the `text` bytes
    /// of key and value, an erase none (0); no call needs more than three slots, or more bytes than those of an extent, a Leaf, a Prefix
    /// and the largest node.
    pub fn lacked(&self, text: usize) -> Lack {
        self.lacked_of(Info::MOST_SLOTS, text)
    }

    /// The same in a frame of edition 2: no call needs more than seven slots, or more bytes than in edition 1, since five Prefixes have
    /// fewer than the largest node.
    pub fn lacked2(&self, text: usize) -> Lack {
        self.lacked_of(Info::MOST_SLOTS_2, text)
    }

    fn lacked_of(&self, most_slots: usize, text: usize) -> Lack {
        let most_bytes = text.next_multiple_of(8)
            + Info::BODY_BYTES[LEAF]
            + Info::BODY_BYTES[PREFIX]
            + Info::BODY_BYTES[NODE256];
        if self.free_slots() >= most_slots {
            Lack::Bytes
        } else if self.free_bytes() >= most_bytes {
            Lack::Slots
        } else {
            Lack::SlotsOrBytes
        }
    }

    /// The slots that packing gives back: those of the freed bodies.
    pub fn slots_to_pack(&self) -> usize {
        self.freed.iter().sum()
    }

    /// The bytes that packing gives back: dead ones and those of the freed bodies; more, where a node can be of a smaller kind.
    pub fn bytes_to_pack(&self) -> usize {
        let bodies = self.freed.iter().zip(Info::BODY_BYTES).map(|(freed, bytes)| freed * bytes);
        self.dead_bytes + bodies.sum::<usize>()
    }
}

/// Places of kinds in `Info::freed` and `Info::BODY_BYTES`.
const LEAF: usize = 0;
const PREFIX: usize = 1;
const NODE256: usize = 6;

const DONE: u32 = 0;
const ABSENT: u32 = 8;
const REPLACED: u32 = 9;
const PRESENT: u32 = 11;

/// A place, a length or a count of a frame.
fn in_frame(number: u64) -> usize {
    usize::try_from(number).expect("a frame has at most 524,288 bytes")
}

/// A frame in borrowed bytes, to read: [`View`] or [`View2`].
#[derive(Clone, Copy)]
pub struct ViewOf<'a, E: Edition> {
    bytes: &'a [u8],
    edition: PhantomData<E>,
}

impl<'a, E: Edition> ViewOf<'a, E> {
    /// Takes bytes that are a good frame of this edition.
    pub fn open(bytes: &'a [u8]) -> Result<Self, Refusal> {
        checked::<E>(bytes)?;
        Ok(ViewOf::over(bytes))
    }

    /// Takes any bytes without looking at them: if they are not a good frame of this edition, each call says so.
    pub fn over(bytes: &'a [u8]) -> Self {
        ViewOf { bytes, edition: PhantomData }
    }

    /// The value of a key, as a part of the lent bytes.
    pub fn look_up(self, key: &[u8]) -> Result<Option<&'a [u8]>, Refusal> {
        Ok(self.place(key)?.map(|place| &self.bytes[place]))
    }

    /// Where the value of a key stands, counted from the frame's start.
    pub fn place(self, key: &[u8]) -> Result<Option<Range<usize>>, Refusal> {
        Ok(self.stamped_place(key)?.map(|(place, _)| place))
    }

    /// The same, with the record's stamp.
    fn stamped_place(self, key: &[u8]) -> Result<Option<(Range<usize>, u64)>, Refusal> {
        match E::CALLS.look_up(self.bytes, key) {
            (DONE, [place, length, _, stamp]) => {
                Ok(Some((in_frame(place)..in_frame(place + length), stamp)))
            }
            (ABSENT, _) => Ok(None),
            (refused, _) => Err(Refusal::of_number(refused)),
        }
    }

    /// How many slots a look-up of this key visits after the check of the frame, the last one included, whether the key is there or
    /// not: at most the key's length and 2, in every good frame of edition 1. In edition 2 it is 3 and each byte of the key, a byte 0 twice.
    pub fn visits(self, key: &[u8]) -> Result<usize, Refusal> {
        match E::CALLS.look_up(self.bytes, key) {
            (DONE | ABSENT, [_, _, slots, _]) => Ok(in_frame(slots)),
            (refused, _) => Err(Refusal::of_number(refused)),
        }
    }

    /// Writes the packed image of the records to `out`, which is as long as the frame: one string of bytes for one set of records,
    /// F and N, and itself a good frame with all room that can be had given back.
    pub fn pack<B: AsMut<[u8]>>(self, mut out: B) -> Result<FrameOf<E, B>, Refusal> {
        match E::CALLS.pack(self.bytes, out.as_mut()) {
            DONE => Ok(FrameOf { bytes: out, edition: PhantomData }),
            refused => Err(Refusal::of_number(refused)),
        }
    }

    /// How full the frame is.
    pub fn info(self) -> Result<Info, Refusal> {
        match E::CALLS.info(self.bytes) {
            (DONE, counts) => {
                let [bytes, slots, slots_given, bytes_given, records, dead_bytes, freed @ ..] =
                    counts.map(in_frame);
                Ok(Info { bytes, slots, slots_given, bytes_given, records, dead_bytes, freed })
            }
            (refused, _) => Err(Refusal::of_number(refused)),
        }
    }

    /// One page of names: those that begin with the prefix (of no byte, or as many as a key) and sort after the start key, in byte order, as
    /// many as fit the buffer; [`Page::entries`] reads them there. With a delimiter all names that share the text up to and including the first
    /// delimiter after the prefix give that text as one entry. The last entry is the start key of the next page.
    pub fn list(
        self,
        prefix: &[u8],
        start: Option<&[u8]>,
        delimiter: Option<u8>,
        buffer: &mut [u8],
    ) -> Result<Page, Refusal> {
        match E::CALLS.list(self.bytes, prefix, start, delimiter, buffer) {
            (DONE, [count, more]) => Ok(Page { count: in_frame(count), more: more != 0 }),
            (refused, _) => Err(Refusal::of_number(refused)),
        }
    }

    /// All names that begin with the prefix, in byte order, a page at a time through the buffer: [`NamesOf::next_entry`] gives them one by
    /// one. A buffer of 114 bytes is enough for any name (in edition 2: of 257); each page costs a check of the frame, so a larger one is
    /// quicker.
    ///
    /// ```
    /// # use frame_store::{Entry, Frame, Refusal};
    /// # let mut frame = Frame::format([0; 1024], 8)?;
    /// # frame.put(b"host", b"modem")?;
    /// # frame.put(b"line.mode", b"vdsl")?;
    /// # frame.put(b"line.rate", b"100")?;
    /// let mut buffer = [0; 114];
    /// let mut names = frame.view().names(b"line.", &mut buffer);
    /// assert_eq!(names.next_entry()?, Some(Entry::Name(b"line.mode")));
    /// assert_eq!(names.next_entry()?, Some(Entry::Name(b"line.rate")));
    /// assert_eq!(names.next_entry()?, None);
    ///
    /// let mut groups = frame.view().names(b"", &mut buffer).grouped(b'.');
    /// assert_eq!(groups.next_entry()?, Some(Entry::Name(b"host")));
    /// assert_eq!(groups.next_entry()?, Some(Entry::Group(b"line.")));
    /// assert_eq!(groups.next_entry()?, None);
    /// # Ok::<(), Refusal>(())
    /// ```
    pub fn names<'n>(self, prefix: &'n [u8], buffer: &'n mut [u8]) -> NamesOf<'n, E>
    where
        'a: 'n,
    {
        NamesOf::new(self, prefix, buffer)
    }

    /// The frame's bytes, to be stored.
    pub fn bytes(self) -> &'a [u8] {
        self.bytes
    }
}

/// What edition 1 alone has.
impl View<'_> {
    /// Packs a frame from before freed bytes were wiped: every other call refuses one that still holds what was erased. A frame
    /// that is good now is packed as [`ViewOf::pack`] packs it. There are no such frames of edition 2.
    ///
    /// ```
    /// # use frame_store::{check, Frame, Refusal, View};
    /// # let mut stored = Frame::format([0; 1024], 8)?.into_bytes();
    /// # stored[1023] = 7;
    /// assert_eq!(check(&stored), Err(Refusal::Frame));
    /// let settings = View::over(&stored).pack_before([0; 1024])?;
    /// assert_eq!(check(settings.bytes()), Ok(()));
    /// # Ok::<(), Refusal>(())
    /// ```
    pub fn pack_before<B: AsMut<[u8]>>(self, mut out: B) -> Result<Frame<B>, Refusal> {
        match calls::pack_before(self.bytes, out.as_mut()) {
            DONE => Ok(Frame { bytes: out, edition: PhantomData }),
            refused => Err(Refusal::of_number(refused)),
        }
    }
}

/// What edition 2 alone has.
impl<'a> View2<'a> {
    /// The record of a key: its value, as a part of the lent bytes, and its stamp.
    pub fn record(self, key: &[u8]) -> Result<Option<Record<'a>>, Refusal> {
        let found = self.stamped_place(key)?;
        Ok(found.map(|(place, stamp)| Record { value: &self.bytes[place], stamp }))
    }

    /// The stamp of a key: what the put or the replacement that wrote the record passed.
    pub fn stamp(self, key: &[u8]) -> Result<Option<u64>, Refusal> {
        Ok(self.record(key)?.map(|record| record.stamp))
    }
}

impl<E: Edition> fmt::Debug for ViewOf<'_, E> {
    fn fmt(&self, to: &mut fmt::Formatter<'_>) -> fmt::Result {
        let [_, name] = E::NAMES;
        write!(to, "{name} of {} bytes", self.bytes.len())
    }
}

/// A frame to read and to change, [`Frame`] or [`Frame2`], in whatever lends its bytes: `[u8; F]`, `Vec<u8>`, `Box<[u8]>`, `&mut [u8]`.
/// One that owns them can be kept and moved.
#[derive(Clone, Copy)]
pub struct FrameOf<E: Edition, B> {
    bytes: B,
    edition: PhantomData<E>,
}

impl<E: Edition, B: AsRef<[u8]> + AsMut<[u8]>> FrameOf<E, B> {
    /// Makes an empty frame with this many slots out of all the bytes that are lent.
    pub fn format(mut bytes: B, slots: usize) -> Result<Self, Refusal> {
        let lent = bytes.as_mut();
        match E::CALLS.format(lent, lent.len(), slots) {
            DONE => Ok(FrameOf::over(bytes)),
            refused => Err(Refusal::of_number(refused)),
        }
    }

    /// Takes bytes that are a good frame of this edition. Others are dropped with a refusal: to keep them, [`check`] them (or
    /// [`check2`]) and take them by [`FrameOf::over`].
    pub fn open(bytes: B) -> Result<Self, Refusal> {
        checked::<E>(bytes.as_ref())?;
        Ok(FrameOf::over(bytes))
    }

    /// Takes any bytes without looking at them: if they are not a good frame of this edition, each call says so.
    pub fn over(bytes: B) -> Self {
        FrameOf { bytes, edition: PhantomData }
    }

    /// Takes a record out, and overwrites with zero what it had. This can be refused for room: a smaller node or a longer prefix may be
    /// needed.
    pub fn erase(&mut self, key: &[u8]) -> Result<Erase, Refusal> {
        match E::CALLS.erase(self.bytes.as_mut(), key) {
            DONE => Ok(Erase::Done),
            ABSENT => Ok(Erase::Absent),
            refused => Err(Refusal::of_number(refused)),
        }
    }

    /// Makes all changes of a batch with one check of the frame, or none. They are made in `second`, which is as long as the frame and
    /// may hold anything, and go to the frame if none is refused; then `answers` has what each change answered, a byte each (0, 8, 9 or 11),
    /// as many as it has room for. If a change is refused, the frame and `answers` are as they were, and `second` holds what the changes
    /// before it made. The batch is one of the frame's edition.
    ///
    /// ```
    /// # use frame_store::{Batch2, Frame2};
    /// # let mut frame = Frame2::format([0; 1024], 8).unwrap();
    /// let (mut lent, mut second, mut answers) = ([0; 128], [0; 1024], [0; 2]);
    /// let mut batch = Batch2::new(&mut lent, 2).unwrap();
    /// batch.put(b"line.rate", b"100", 1_700_000_000).unwrap();
    /// batch.erase(b"line.mode").unwrap();
    /// assert_eq!(frame.apply(&batch, &mut second, &mut answers), Ok(()));
    /// assert_eq!(answers, [0, 8]);
    /// ```
    ///
    /// A batch of the other edition is laid out otherwise, and is not taken:
    ///
    /// ```compile_fail
    /// # use frame_store::{Batch2, Frame};
    /// # let mut frame = Frame::format([0; 1024], 8).unwrap();
    /// let (mut lent, mut second, mut answers) = ([0; 128], [0; 1024], [0; 2]);
    /// let mut batch = Batch2::new(&mut lent, 2).unwrap();
    /// batch.put(b"line.rate", b"100", 1_700_000_000).unwrap();
    /// batch.erase(b"line.mode").unwrap();
    /// assert_eq!(frame.apply(&batch, &mut second, &mut answers), Ok(()));
    /// ```
    pub fn apply(
        &mut self,
        batch: &BatchOf<'_, E>,
        second: &mut [u8],
        answers: &mut [u8],
    ) -> Result<(), Stopped> {
        self.apply_bytes(batch.bytes(), second, answers)
    }

    /// The same with a batch from elsewhere: docs/FORMAT.md has the layout of the edition's. Any bytes may be lent: what is no batch is refused
    /// with [`Refusal::Layout`].
    pub fn apply_bytes(
        &mut self,
        batch: &[u8],
        second: &mut [u8],
        answers: &mut [u8],
    ) -> Result<(), Stopped> {
        match E::CALLS.batch(self.bytes.as_mut(), second, batch, answers) {
            (DONE, _) => Ok(()),
            (refused, place) => {
                let change = usize::try_from(place).expect("a batch has at most 2^32 changes");
                Err(Stopped { change, refusal: Refusal::of_number(refused) })
            }
        }
    }

    /// The same frame, to read.
    pub fn view(&self) -> ViewOf<'_, E> {
        ViewOf::over(self.bytes.as_ref())
    }

    /// The value of a key, as a part of the frame.
    pub fn look_up(&self, key: &[u8]) -> Result<Option<&[u8]>, Refusal> {
        self.view().look_up(key)
    }

    /// Where the value of a key stands, counted from the frame's start.
    pub fn place(&self, key: &[u8]) -> Result<Option<Range<usize>>, Refusal> {
        self.view().place(key)
    }

    /// How many slots a look-up of this key visits; see [`ViewOf::visits`].
    pub fn visits(&self, key: &[u8]) -> Result<usize, Refusal> {
        self.view().visits(key)
    }

    /// Writes the packed image of the records to `out`; see [`ViewOf::pack`]. This frame stays as it is.
    pub fn pack<O: AsMut<[u8]>>(&self, out: O) -> Result<FrameOf<E, O>, Refusal> {
        self.view().pack(out)
    }

    /// All names that begin with the prefix, in byte order, a page at a time through the buffer; see [`ViewOf::names`].
    pub fn names<'n>(&'n self, prefix: &'n [u8], buffer: &'n mut [u8]) -> NamesOf<'n, E> {
        self.view().names(prefix, buffer)
    }

    /// How full the frame is.
    pub fn info(&self) -> Result<Info, Refusal> {
        self.view().info()
    }

    /// The frame's bytes, to be stored.
    pub fn bytes(&self) -> &[u8] {
        self.bytes.as_ref()
    }

    /// Gives the bytes back.
    pub fn into_bytes(self) -> B {
        self.bytes
    }
}

/// What edition 1 alone has, or has without a stamp.
impl<B: AsRef<[u8]> + AsMut<[u8]>> Frame<B> {
    /// Puts a new record. If the key is there already, nothing is changed: `replace` gives it another value.
    pub fn put(&mut self, key: &[u8], value: &[u8]) -> Result<Put, Refusal> {
        put_done(calls::put(self.bytes.as_mut(), key, value))
    }

    /// Gives the record with this key another value. If it is of another length, the old one's bytes are zero after it, and not free
    /// before the frame is packed. To set a value whether the key is there or not, put, and replace if it is [`Put::Present`].
    pub fn replace(&mut self, key: &[u8], value: &[u8]) -> Result<Replace, Refusal> {
        replace_done(calls::replace(self.bytes.as_mut(), key, value))
    }

    /// Packs a frame from before freed bytes were wiped; see [`View::pack_before`](ViewOf::pack_before).
    pub fn pack_before<O: AsMut<[u8]>>(&self, out: O) -> Result<Frame<O>, Refusal> {
        self.view().pack_before(out)
    }
}

/// What edition 2 alone has, or has with a stamp.
impl<B: AsRef<[u8]> + AsMut<[u8]>> Frame2<B> {
    /// Puts a new record with this stamp. If the key is there already, nothing is changed, its stamp neither: `replace` gives it another
    /// value.
    pub fn put(&mut self, key: &[u8], value: &[u8], stamp: u64) -> Result<Put, Refusal> {
        put_done(calls::put2(self.bytes.as_mut(), key, value, stamp))
    }

    /// Gives the record with this key another value and this stamp, or the same value another stamp. If the value is of another length, the
    /// old one's bytes are zero after it, and not free before the frame is packed. To set a value whether the key is there or not, put,
    /// and replace if it is [`Put::Present`].
    pub fn replace(&mut self, key: &[u8], value: &[u8], stamp: u64) -> Result<Replace, Refusal> {
        replace_done(calls::replace2(self.bytes.as_mut(), key, value, stamp))
    }

    /// The record of a key: its value, as a part of the frame, and its stamp.
    pub fn record(&self, key: &[u8]) -> Result<Option<Record<'_>>, Refusal> {
        self.view().record(key)
    }

    /// The stamp of a key: what the put or the replacement that wrote the record passed.
    pub fn stamp(&self, key: &[u8]) -> Result<Option<u64>, Refusal> {
        self.view().stamp(key)
    }
}

fn put_done(number: u32) -> Result<Put, Refusal> {
    match number {
        DONE => Ok(Put::New),
        PRESENT => Ok(Put::Present),
        refused => Err(Refusal::of_number(refused)),
    }
}

fn replace_done(number: u32) -> Result<Replace, Refusal> {
    match number {
        REPLACED => Ok(Replace::Done),
        ABSENT => Ok(Replace::Absent),
        refused => Err(Refusal::of_number(refused)),
    }
}

impl<E: Edition, B: AsRef<[u8]>> fmt::Debug for FrameOf<E, B> {
    fn fmt(&self, to: &mut fmt::Formatter<'_>) -> fmt::Result {
        let [name, _] = E::NAMES;
        write!(to, "{name} of {} bytes", self.bytes.as_ref().len())
    }
}

/// Whether the bytes are a good frame of edition 1.
pub fn check(bytes: &[u8]) -> Result<(), Refusal> {
    checked::<Edition1>(bytes)
}

/// Whether the bytes are a good frame of edition 2.
pub fn check2(bytes: &[u8]) -> Result<(), Refusal> {
    checked::<Edition2>(bytes)
}

fn checked<E: Edition>(bytes: &[u8]) -> Result<(), Refusal> {
    match E::CALLS.check(bytes) {
        DONE => Ok(()),
        refused => Err(Refusal::of_number(refused)),
    }
}
