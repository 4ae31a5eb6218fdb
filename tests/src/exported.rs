//! The exported C functions, behind the same calls.
//!
//! Believed here: the C declarations; those of edition 2 are edition 1's under other
//! names, but that a put and a replacement take a stamp besides, and that a look-up
//! tells it. The bindings link the archive that has them.

use crate::compare::Calls;
use crate::layout::number::{ABSENT, DONE};
use crate::layout::{Edition, INFO_NUMBERS};
use crate::names::{Asked, Page};
use crate::store::Found;
use crate::value::{Given, NO_STAMP};
use frame_store as _;

/// Declares a function of each edition, both alike.
macro_rules! declared {
    ($($one:ident, $two:ident: fn($($name:ident: $type:ty),* $(,)?) -> $given:ty;)*) => {
        extern "C" {
            $(
                pub fn $one($($name: $type),*) -> $given;
                pub fn $two($($name: $type),*) -> $given;
            )*
        }
    };
}

mod c {
    declared! {
        frame_format, frame2_format: fn(
            frame: *mut u8,
            frame_len: usize,
            f: usize,
            n: usize,
        ) -> u32;
        frame_check, frame2_check: fn(frame: *const u8, frame_len: usize) -> u32;
        frame_look_up, frame2_look_up: fn(
            frame: *const u8,
            frame_len: usize,
            key: *const u8,
            key_len: usize,
            found: *mut u64,
            numbers: usize,
        ) -> u32;
        frame_erase, frame2_erase: fn(
            frame: *mut u8,
            frame_len: usize,
            key: *const u8,
            key_len: usize,
        ) -> u32;
        frame_pack, frame2_pack: fn(
            frame: *const u8,
            frame_len: usize,
            out: *mut u8,
            out_len: usize,
        ) -> u32;
        frame_list, frame2_list: fn(
            frame: *const u8,
            frame_len: usize,
            prefix: *const u8,
            prefix_len: usize,
            start: *const u8,
            start_len: usize,
            has_start: usize,
            delimiter: usize,
            buffer: *mut u8,
            buffer_len: usize,
            count_and_more: *mut u64,
            two: usize,
        ) -> u32;
        frame_batch, frame2_batch: fn(
            frame: *mut u8,
            frame_len: usize,
            second: *mut u8,
            second_len: usize,
            batch: *const u8,
            batch_len: usize,
            answers: *mut u8,
            answers_len: usize,
        ) -> u64;
        frame_info, frame2_info: fn(
            frame: *const u8,
            frame_len: usize,
            counts: *mut u64,
            fourteen: usize,
        ) -> u32;
    }

    extern "C" {
        pub fn frame_put(
            frame: *mut u8,
            frame_len: usize,
            key: *const u8,
            key_len: usize,
            value: *const u8,
            value_len: usize,
        ) -> u32;
        pub fn frame2_put(
            frame: *mut u8,
            frame_len: usize,
            key: *const u8,
            key_len: usize,
            value: *const u8,
            value_len: usize,
            stamp: u64,
        ) -> u32;
        pub fn frame_replace(
            frame: *mut u8,
            frame_len: usize,
            key: *const u8,
            key_len: usize,
            value: *const u8,
            value_len: usize,
        ) -> u32;
        pub fn frame2_replace(
            frame: *mut u8,
            frame_len: usize,
            key: *const u8,
            key_len: usize,
            value: *const u8,
            value_len: usize,
            stamp: u64,
        ) -> u32;
        pub fn frame_pack_before(
            frame: *const u8,
            frame_len: usize,
            out: *mut u8,
            out_len: usize,
        ) -> u32;
    }
}

/// Calls the function of the edition.
macro_rules! call {
    ($edition:expr, $one:ident, $two:ident, $($lent:expr),* $(,)?) => {
        unsafe {
            match $edition {
                Edition::One => c::$one($($lent),*),
                Edition::Two => c::$two($($lent),*),
            }
        }
    };
}

/// A put or a replacement, which takes a stamp in edition 2 alone.
macro_rules! call_with_stamp {
    ($edition:expr, $one:ident, $two:ident, $frame:ident, $key:ident, $value:ident) => {{
        let (frame, frame_len) = ($frame.as_mut_ptr(), $frame.len());
        let (key, key_len) = ($key.as_ptr(), $key.len());
        let Given { bytes, stamp } = $value;
        let (value, value_len) = (bytes.as_ptr(), bytes.len());
        match $edition {
            Edition::One => {
                assert_eq!(stamp, NO_STAMP, "edition 1 passes no stamp");
                unsafe { c::$one(frame, frame_len, key, key_len, value, value_len) }
            }
            Edition::Two => unsafe {
                c::$two(frame, frame_len, key, key_len, value, value_len, stamp)
            },
        }
    }};
}

pub struct Exported(pub Edition);

// Every part is passed with its own length, and lives through the call.
impl Calls for Exported {
    fn edition(&self) -> Edition {
        self.0
    }

    fn format(&self, frame: &mut [u8], f: usize, n: usize) -> u32 {
        call!(self.0, frame_format, frame2_format, frame.as_mut_ptr(), frame.len(), f, n)
    }

    fn check(&self, frame: &[u8]) -> u32 {
        call!(self.0, frame_check, frame2_check, frame.as_ptr(), frame.len())
    }

    fn look_up(&self, frame: &[u8], key: &[u8]) -> Found {
        look_up_by_all_lengths(self.0, frame, key)
    }

    fn put(&self, frame: &mut [u8], key: &[u8], value: Given) -> u32 {
        call_with_stamp!(self.0, frame_put, frame2_put, frame, key, value)
    }

    fn replace(&self, frame: &mut [u8], key: &[u8], value: Given) -> u32 {
        call_with_stamp!(self.0, frame_replace, frame2_replace, frame, key, value)
    }

    fn erase(&self, frame: &mut [u8], key: &[u8]) -> u32 {
        let (frame, length) = (frame.as_mut_ptr(), frame.len());
        call!(self.0, frame_erase, frame2_erase, frame, length, key.as_ptr(), key.len())
    }

    fn pack(&self, frame: &[u8], out: &mut [u8]) -> u32 {
        let (frame, length) = (frame.as_ptr(), frame.len());
        call!(self.0, frame_pack, frame2_pack, frame, length, out.as_mut_ptr(), out.len())
    }

    fn pack_before(&self, frame: &[u8], out: &mut [u8]) -> u32 {
        assert_eq!(self.0, Edition::One, "the other edition has no such function");
        unsafe { c::frame_pack_before(frame.as_ptr(), frame.len(), out.as_mut_ptr(), out.len()) }
    }

    fn info(&self, frame: &[u8]) -> (u32, [u64; INFO_NUMBERS]) {
        info_by_all_lengths(self.0, frame)
    }

    fn list(&self, frame: &[u8], asked: &Asked, buffer: &mut [u8]) -> Page {
        list_by_all_lengths(self.0, frame, asked, buffer)
    }

    /// One number: what is given, and 256 times the place.
    fn batch(
        &self,
        frame: &mut [u8],
        second: &mut [u8],
        batch: &[u8],
        answers: &mut [u8],
    ) -> (u32, u64) {
        const PLACES: u64 = 256;
        let given = call!(
            self.0,
            frame_batch,
            frame2_batch,
            frame.as_mut_ptr(),
            frame.len(),
            second.as_mut_ptr(),
            second.len(),
            batch.as_ptr(),
            batch.len(),
            answers.as_mut_ptr(),
            answers.len(),
        );
        ((given % PLACES) as u32, given / PLACES)
    }
}

/// Count and more go into two numbers if two are lent and the call is not
/// refused, and nowhere else; the buffer is written by each of these calls
/// alike. Whatever says that there is a start key or no delimiter says so, and
/// what stands for a start key that there is not is not looked at.
fn list_by_all_lengths(edition: Edition, frame: &[u8], asked: &Asked, buffer: &mut [u8]) -> Page {
    use std::hint::black_box;
    let (prefix, start) = (asked.prefix, asked.start);
    let call = |buffer: &mut [u8], none: (&[u8], usize), is: usize, two: usize| {
        let mut numbers = [KNOWN; 5];
        let key = start.unwrap_or(none.0);
        let number = call!(
            edition,
            frame_list,
            frame2_list,
            frame.as_ptr(),
            frame.len(),
            prefix.as_ptr(),
            prefix.len(),
            key.as_ptr(),
            key.len(),
            start.map_or(0, |_| is),
            asked.delimiter.map_or(none.1, usize::from),
            buffer.as_mut_ptr(),
            buffer.len(),
            numbers[1..].as_mut_ptr(),
            two,
        );
        (number, *black_box(&mut numbers))
    };
    let before = buffer.to_vec();
    let (number, [first, count, more, last @ ..]) = call(buffer, (b"", 256), 1, 2);
    assert_eq!((first, last), (KNOWN, [KNOWN; 2]), "a listing wrote beside its two numbers");
    let others: [(&[u8], usize, usize, usize); 3] = [
        (&[0; 200], 256 + 47, 2, 0),
        (b"\0", 1 << 32, 1 << 32, 1),
        (b"zzz", usize::MAX, usize::MAX, 3),
    ];
    for (no_start, no_delimiter, is, other) in others {
        let mut again = before.clone();
        let (same, numbers) = call(&mut again, (no_start, no_delimiter), is, other);
        assert_eq!(same, number, "a listing with {other} numbers gives another answer");
        assert_eq!(numbers, [KNOWN; 5], "a listing wrote though {other} numbers were lent");
        assert!(again == buffer, "a listing with {other} numbers writes another buffer");
    }
    if number != DONE {
        assert_eq!([count, more], [KNOWN; 2], "a listing refused with {number} wrote");
        return Page::refused(number);
    }
    Page { number, count, more }
}

/// What lent numbers hold before a call.
const KNOWN: u64 = 0xA5A5_A5A5_5A5A_5A5A;

/// The fourteen numbers are written if fourteen are lent and the call is not
/// refused, and nothing else. Told as the call's own result has them: all 0 of
/// a refusal.
fn info_by_all_lengths(edition: Edition, frame: &[u8]) -> (u32, [u64; INFO_NUMBERS]) {
    use std::hint::black_box;
    let call = |fourteen: usize| {
        let mut numbers = [KNOWN; INFO_NUMBERS + 2];
        let lent = numbers[1..].as_mut_ptr();
        let given =
            call!(edition, frame_info, frame2_info, frame.as_ptr(), frame.len(), lent, fourteen);
        (given, *black_box(&mut numbers))
    };
    let (given, [before, told @ .., after]) = call(INFO_NUMBERS);
    assert_eq!([before, after], [KNOWN; 2], "info wrote beside its numbers");
    for other in [0, 1, INFO_NUMBERS - 1, INFO_NUMBERS + 1] {
        let (again, numbers) = call(other);
        assert_eq!(again, given, "info with {other} numbers gives another answer");
        assert_eq!(numbers, [KNOWN; INFO_NUMBERS + 2], "info wrote though {other} were lent");
    }
    if given != DONE {
        assert_eq!(told, [KNOWN; INFO_NUMBERS], "an info refused with {given} wrote");
        return (given, [0; INFO_NUMBERS]);
    }
    (given, told)
}

/// The most numbers that a look-up tells, in edition 2.
const MOST_FOUND: usize = 4;
/// Place, length and slots; in edition 2 the stamp as well.
fn found_numbers(edition: Edition) -> usize {
    match edition {
        Edition::One => 3,
        Edition::Two => MOST_FOUND,
    }
}

/// What is found goes into as many numbers as the edition tells, if so many are lent
/// and the call is not refused, and nowhere else. Told as the call's own result has
/// it: all 0 of a refusal, and no stamp of edition 1.
fn look_up_by_all_lengths(edition: Edition, frame: &[u8], key: &[u8]) -> Found {
    use std::hint::black_box;
    let call = |lent: usize| {
        let mut numbers = [KNOWN; MOST_FOUND + 2];
        let found = numbers[1..].as_mut_ptr();
        let given = call!(
            edition,
            frame_look_up,
            frame2_look_up,
            frame.as_ptr(),
            frame.len(),
            key.as_ptr(),
            key.len(),
            found,
            lent,
        );
        (given, *black_box(&mut numbers))
    };
    let told = found_numbers(edition);
    let (number, [before, numbers @ ..]) = call(told);
    let (found, after) = numbers.split_at(told);
    let beside = [before].iter().chain(after).all(|number| *number == KNOWN);
    assert!(beside, "look-up wrote beside its {told} numbers");
    for other in (0..=MOST_FOUND + 1).filter(|other| *other != told) {
        let (again, numbers) = call(other);
        assert_eq!(again, number, "look-up with {other} numbers gives another answer");
        assert_eq!(numbers, [KNOWN; MOST_FOUND + 2], "look-up wrote though {other} were lent");
    }
    if !matches!(number, DONE | ABSENT) {
        let kept = found.iter().all(|number| *number == KNOWN);
        assert!(kept, "a look-up refused with {number} wrote");
        return Found::refused(number);
    }
    let (&[place, length, slots], stamp) = found.split_first_chunk().expect("three in both");
    let stamp = stamp.first().copied().unwrap_or(NO_STAMP);
    Found { number, place, length, slots, stamp }
}
