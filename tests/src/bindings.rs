//! The Rust bindings, behind the same calls.
//!
//! Believed here: how an answer of the bindings is read as a number.

use crate::compare::Calls;
use crate::layout::number::{ABSENT, DONE, LENGTHS, PRESENT, REPLACED};
use crate::layout::{Edition, INFO_NUMBERS};
use crate::names::{Asked, Page};
use crate::store::Found;
use crate::value::{Given, NO_STAMP};
use frame_store::{
    check, check2, Edition1, Edition2, Erase, Frame, Frame2, FrameOf, Info, Put, Record, Refusal,
    Replace, View, View2, ViewOf,
};

pub struct Bindings(pub Edition);

fn number(answer: Result<u32, Refusal>) -> u32 {
    answer.unwrap_or_else(Refusal::number)
}

/// Calls a function over the type of the edition.
macro_rules! call {
    ($edition:expr, $function:ident, $($lent:expr),*) => {
        match $edition {
            Edition::One => $function::<Edition1>($($lent),*),
            Edition::Two => $function::<Edition2>($($lent),*),
        }
    };
}

impl Calls for Bindings {
    fn edition(&self) -> Edition {
        self.0
    }

    /// The bindings take all the bytes that they are lent: no other F can be
    /// asked of them, and it would be refused.
    fn format(&self, frame: &mut [u8], f: usize, n: usize) -> u32 {
        if f != frame.len() {
            return LENGTHS;
        }
        call!(self.0, format, frame, n)
    }

    fn check(&self, frame: &[u8]) -> u32 {
        let check = match self.0 {
            Edition::One => check,
            Edition::Two => check2,
        };
        number(check(frame).map(|()| DONE))
    }

    fn look_up(&self, frame: &[u8], key: &[u8]) -> Found {
        let found = call!(self.0, look_up, frame, key);
        match self.0 {
            Edition::One => found,
            Edition::Two => Found { stamp: stamp(frame, key, found), ..found },
        }
    }

    fn put(&self, frame: &mut [u8], key: &[u8], value: Given) -> u32 {
        let done = match self.0 {
            Edition::One => Frame::over(frame).put(key, without_stamp(value)),
            Edition::Two => Frame2::over(frame).put(key, value.bytes, value.stamp),
        };
        number(done.map(|done| match done {
            Put::New => DONE,
            Put::Present => PRESENT,
        }))
    }

    fn replace(&self, frame: &mut [u8], key: &[u8], value: Given) -> u32 {
        let done = match self.0 {
            Edition::One => Frame::over(frame).replace(key, without_stamp(value)),
            Edition::Two => Frame2::over(frame).replace(key, value.bytes, value.stamp),
        };
        number(done.map(|done| match done {
            Replace::Done => REPLACED,
            Replace::Absent => ABSENT,
        }))
    }

    fn erase(&self, frame: &mut [u8], key: &[u8]) -> u32 {
        call!(self.0, erase, frame, key)
    }

    fn pack(&self, frame: &[u8], out: &mut [u8]) -> u32 {
        call!(self.0, pack, frame, out)
    }

    fn pack_before(&self, frame: &[u8], out: &mut [u8]) -> u32 {
        number(View::over(frame).pack_before(out).map(|_| DONE))
    }

    fn list(&self, frame: &[u8], asked: &Asked, buffer: &mut [u8]) -> Page {
        call!(self.0, list, frame, asked, buffer)
    }

    fn batch(
        &self,
        frame: &mut [u8],
        second: &mut [u8],
        batch: &[u8],
        answers: &mut [u8],
    ) -> (u32, u64) {
        call!(self.0, apply, frame, second, batch, answers)
    }

    fn info(&self, frame: &[u8]) -> (u32, [u64; INFO_NUMBERS]) {
        call!(self.0, info, frame)
    }
}

// The calls over a type of the bindings.

fn format<E: frame_store::Edition>(frame: &mut [u8], n: usize) -> u32 {
    number(FrameOf::<E, _>::format(frame, n).map(|_| DONE))
}

fn look_up<E: frame_store::Edition>(frame: &[u8], key: &[u8]) -> Found {
    let view = ViewOf::<E>::over(frame);
    let all = || Ok((view.place(key)?, view.look_up(key)?, view.visits(key)?));
    let (number, part, slots) = match all() {
        Ok((Some(place), Some(value), slots)) => {
            assert_eq!(frame[place.clone()].as_ptr_range(), value.as_ptr_range());
            (DONE, place, slots)
        }
        Ok((None, None, slots)) => (ABSENT, 0..0, slots),
        Ok(all) => panic!("one look-up finds the key, the other does not: {all:?}"),
        Err(refused) => (Refusal::number(refused), 0..0, 0),
    };
    let (place, length) = (part.start as u64, part.len() as u64);
    Found { number, place, length, slots: slots as u64, stamp: NO_STAMP }
}

/// The stamp that edition 2 tells with the value, and without it.
fn stamp(frame: &[u8], key: &[u8], found: Found) -> u64 {
    let view = View2::over(frame);
    let told = view.stamp(key);
    match (found.number, view.record(key), told) {
        (DONE, Ok(Some(Record { value, stamp })), Ok(Some(alone))) => {
            let part = &frame[found.place as usize..][..found.length as usize];
            assert_eq!(value.as_ptr_range(), part.as_ptr_range());
            assert_eq!(stamp, alone);
            stamp
        }
        (ABSENT, Ok(None), Ok(None)) => NO_STAMP,
        (refused, Err(record), Err(alone)) => {
            assert_eq!([record, alone].map(Refusal::number), [refused; 2]);
            NO_STAMP
        }
        other => panic!("one look-up finds the key, the other does not: {other:?}"),
    }
}

fn without_stamp(value: Given<'_>) -> &[u8] {
    assert_eq!(value.stamp, NO_STAMP, "edition 1 passes no stamp");
    value.bytes
}

fn erase<E: frame_store::Edition>(frame: &mut [u8], key: &[u8]) -> u32 {
    number(FrameOf::<E, _>::over(frame).erase(key).map(|done| match done {
        Erase::Done => DONE,
        Erase::Absent => ABSENT,
    }))
}

fn pack<E: frame_store::Edition>(frame: &[u8], out: &mut [u8]) -> u32 {
    number(ViewOf::<E>::over(frame).pack(out).map(|_| DONE))
}

fn list<E: frame_store::Edition>(frame: &[u8], asked: &Asked, buffer: &mut [u8]) -> Page {
    let Asked { prefix, start, delimiter } = *asked;
    match ViewOf::<E>::over(frame).list(prefix, start, delimiter, buffer) {
        Ok(page) => {
            let (count, more) = (page.count as u64, u64::from(page.more));
            Page { number: DONE, count, more }
        }
        Err(refused) => Page::refused(refused.number()),
    }
}

fn apply<E: frame_store::Edition>(
    frame: &mut [u8],
    second: &mut [u8],
    batch: &[u8],
    answers: &mut [u8],
) -> (u32, u64) {
    match FrameOf::<E, _>::over(frame).apply_bytes(batch, second, answers) {
        Ok(()) => (DONE, 0),
        Err(stopped) => (stopped.refusal.number(), stopped.change as u64),
    }
}

fn info<E: frame_store::Edition>(frame: &[u8]) -> (u32, [u64; INFO_NUMBERS]) {
    match ViewOf::<E>::over(frame).info() {
        Ok(Info { bytes, slots, slots_given, bytes_given, records, dead_bytes, freed }) => {
            let fields = [bytes, slots, slots_given, bytes_given, records, dead_bytes];
            let mut all = fields.into_iter().chain(freed).map(|number| number as u64);
            (DONE, std::array::from_fn(|_| all.next().expect("as many as info tells")))
        }
        Err(refused) => (refused.number(), [0; INFO_NUMBERS]),
    }
}
