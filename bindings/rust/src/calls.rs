//! The exported calls. This is the only file with `unsafe` in it.
//!
//! Believed here: the C declarations, as `include/frame_store.h` has them; those of edition 2 are edition 1's under other names, but that
//! put and replacement take a stamp there and look-up tells one. Every slice is passed with its own length and lives through the call,
//! and what is lent for writing overlaps nothing, since it is borrowed by `&mut`.
#![allow(unsafe_code)]

/// A length or a number that is passed: 64 bits on every machine, as `frame_length` in C.
type Length = u64;

fn length(of: usize) -> Length {
    Length::try_from(of).expect("a length of at most 64 bits")
}

/// Declares a function of each edition, both alike, and the two in one table each.
macro_rules! declared {
    ($($call:ident: $one:ident, $two:ident = fn($($name:ident: $type:ty),* $(,)?) -> $given:ty;)*) => {
        mod alike {
            use super::Length;

            extern "C" {
                $(
                    pub fn $one($($name: $type),*) -> $given;
                    pub fn $two($($name: $type),*) -> $given;
                )*
            }
        }

        /// The calls that both editions have alike, of one of them.
        pub struct Calls {
            $($call: unsafe extern "C" fn($($name: $type),*) -> $given,)*
            /// How many numbers its look-up tells.
            numbers: usize,
        }

        impl Calls {
            pub const OF_EDITION_1: Calls = Calls { $($call: alike::$one,)* numbers: FOUND };
            pub const OF_EDITION_2: Calls = Calls { $($call: alike::$two,)* numbers: FOUND_STAMPED };
        }
    };
}

declared! {
    format: frame_format, frame2_format =
        fn(frame: *mut u8, frame_len: Length, f: Length, n: Length) -> u32;
    check: frame_check, frame2_check = fn(frame: *const u8, frame_len: Length) -> u32;
    look_up: frame_look_up, frame2_look_up = fn(
        frame: *const u8,
        frame_len: Length,
        key: *const u8,
        key_len: Length,
        found: *mut u64,
        numbers: Length,
    ) -> u32;
    erase: frame_erase, frame2_erase =
        fn(frame: *mut u8, frame_len: Length, key: *const u8, key_len: Length) -> u32;
    pack: frame_pack, frame2_pack =
        fn(frame: *const u8, frame_len: Length, out: *mut u8, out_len: Length) -> u32;
    list: frame_list, frame2_list = fn(
        frame: *const u8,
        frame_len: Length,
        prefix: *const u8,
        prefix_len: Length,
        start: *const u8,
        start_len: Length,
        has_start: Length,
        delimiter: Length,
        buffer: *mut u8,
        buffer_len: Length,
        page: *mut u64,
        two: Length,
    ) -> u32;
    batch: frame_batch, frame2_batch = fn(
        frame: *mut u8,
        frame_len: Length,
        second: *mut u8,
        second_len: Length,
        batch: *const u8,
        batch_len: Length,
        answers: *mut u8,
        answers_len: Length,
    ) -> u64;
    info: frame_info, frame2_info =
        fn(frame: *const u8, frame_len: Length, counts: *mut u64, fourteen: Length) -> u32;
}

extern "C" {
    fn frame_put(
        frame: *mut u8,
        frame_len: Length,
        key: *const u8,
        key_len: Length,
        value: *const u8,
        value_len: Length,
    ) -> u32;
    fn frame_replace(
        frame: *mut u8,
        frame_len: Length,
        key: *const u8,
        key_len: Length,
        value: *const u8,
        value_len: Length,
    ) -> u32;
    fn frame2_put(
        frame: *mut u8,
        frame_len: Length,
        key: *const u8,
        key_len: Length,
        value: *const u8,
        value_len: Length,
        stamp: u64,
    ) -> u32;
    fn frame2_replace(
        frame: *mut u8,
        frame_len: Length,
        key: *const u8,
        key_len: Length,
        value: *const u8,
        value_len: Length,
        stamp: u64,
    ) -> u32;
    fn frame_pack_before(frame: *const u8, frame_len: Length, out: *mut u8, out_len: Length)
        -> u32;
}

/// The numbers that a look-up of edition 1 tells: place, length and slots.
const FOUND: usize = 3;
/// Those that a look-up of edition 2 tells: the stamp is the last.
const FOUND_STAMPED: usize = 4;
/// As a delimiter: none.
const NO_DELIMITER: Length = 256;
/// What a number of the batch's stands for: the answer in its lowest byte, the place of the refused change above it.
const PLACE: u64 = 256;

impl Calls {
    pub fn format(&self, frame: &mut [u8], f: usize, n: usize) -> u32 {
        unsafe { (self.format)(frame.as_mut_ptr(), length(frame.len()), length(f), length(n)) }
    }

    pub fn check(&self, frame: &[u8]) -> u32 {
        unsafe { (self.check)(frame.as_ptr(), length(frame.len())) }
    }

    /// Place, length, slots and stamp; in edition 1, which tells no stamp, it is 0.
    pub fn look_up(&self, frame: &[u8], key: &[u8]) -> (u32, [u64; FOUND_STAMPED]) {
        let mut found = [0; FOUND_STAMPED];
        let told = &mut found[..self.numbers];
        let (frame_len, key_len) = (length(frame.len()), length(key.len()));
        let (lent, numbers) = (told.as_mut_ptr(), length(told.len()));
        let number = unsafe {
            (self.look_up)(frame.as_ptr(), frame_len, key.as_ptr(), key_len, lent, numbers)
        };
        (number, found)
    }

    pub fn erase(&self, frame: &mut [u8], key: &[u8]) -> u32 {
        let (frame_len, key_len) = (length(frame.len()), length(key.len()));
        unsafe { (self.erase)(frame.as_mut_ptr(), frame_len, key.as_ptr(), key_len) }
    }

    pub fn pack(&self, frame: &[u8], out: &mut [u8]) -> u32 {
        let (frame_len, out_len) = (length(frame.len()), length(out.len()));
        unsafe { (self.pack)(frame.as_ptr(), frame_len, out.as_mut_ptr(), out_len) }
    }

    pub fn list(
        &self,
        frame: &[u8],
        prefix: &[u8],
        start: Option<&[u8]>,
        delimiter: Option<u8>,
        buffer: &mut [u8],
    ) -> (u32, [u64; 2]) {
        let mut page = [0; 2];
        let (has_start, start) = (Length::from(start.is_some()), start.unwrap_or_default());
        let delimiter = delimiter.map_or(NO_DELIMITER, Length::from);
        let (buffer_len, two) = (length(buffer.len()), length(page.len()));
        let (buffer, lent) = (buffer.as_mut_ptr(), page.as_mut_ptr());
        let number = unsafe {
            (self.list)(
                frame.as_ptr(),
                length(frame.len()),
                prefix.as_ptr(),
                length(prefix.len()),
                start.as_ptr(),
                length(start.len()),
                has_start,
                delimiter,
                buffer,
                buffer_len,
                lent,
                two,
            )
        };
        (number, page)
    }

    pub fn batch(
        &self,
        frame: &mut [u8],
        second: &mut [u8],
        batch: &[u8],
        answers: &mut [u8],
    ) -> (u32, u64) {
        let (frame_len, second_len) = (length(frame.len()), length(second.len()));
        let (batch_len, answers_len) = (length(batch.len()), length(answers.len()));
        let (frame, second) = (frame.as_mut_ptr(), second.as_mut_ptr());
        let (batch, answers) = (batch.as_ptr(), answers.as_mut_ptr());
        let given = unsafe {
            (self.batch)(
                frame,
                frame_len,
                second,
                second_len,
                batch,
                batch_len,
                answers,
                answers_len,
            )
        };
        ((given % PLACE) as u32, given / PLACE)
    }

    pub fn info(&self, frame: &[u8]) -> (u32, [u64; 14]) {
        let mut counts = [0; 14];
        let fourteen = length(counts.len());
        let lent = counts.as_mut_ptr();
        (unsafe { (self.info)(frame.as_ptr(), length(frame.len()), lent, fourteen) }, counts)
    }
}

/// The put of edition 1.
pub fn put(frame: &mut [u8], key: &[u8], value: &[u8]) -> u32 {
    let (frame_len, lent) = (length(frame.len()), frame.as_mut_ptr());
    let (key_len, value_len) = (length(key.len()), length(value.len()));
    unsafe { frame_put(lent, frame_len, key.as_ptr(), key_len, value.as_ptr(), value_len) }
}

/// The replacement of edition 1.
pub fn replace(frame: &mut [u8], key: &[u8], value: &[u8]) -> u32 {
    let (frame_len, lent) = (length(frame.len()), frame.as_mut_ptr());
    let (key_len, value_len) = (length(key.len()), length(value.len()));
    unsafe { frame_replace(lent, frame_len, key.as_ptr(), key_len, value.as_ptr(), value_len) }
}

/// The put of edition 2.
pub fn put2(frame: &mut [u8], key: &[u8], value: &[u8], stamp: u64) -> u32 {
    let (frame_len, lent) = (length(frame.len()), frame.as_mut_ptr());
    let (key_len, value_len) = (length(key.len()), length(value.len()));
    let (key, value) = (key.as_ptr(), value.as_ptr());
    unsafe { frame2_put(lent, frame_len, key, key_len, value, value_len, stamp) }
}

/// The replacement of edition 2.
pub fn replace2(frame: &mut [u8], key: &[u8], value: &[u8], stamp: u64) -> u32 {
    let (frame_len, lent) = (length(frame.len()), frame.as_mut_ptr());
    let (key_len, value_len) = (length(key.len()), length(value.len()));
    let (key, value) = (key.as_ptr(), value.as_ptr());
    unsafe { frame2_replace(lent, frame_len, key, key_len, value, value_len, stamp) }
}

/// The packing by the old rule, which edition 1 alone has.
pub fn pack_before(frame: &[u8], out: &mut [u8]) -> u32 {
    let (frame_len, out_len) = (length(frame.len()), length(out.len()));
    unsafe { frame_pack_before(frame.as_ptr(), frame_len, out.as_mut_ptr(), out_len) }
}
