//! The calls of both stores behind one type of function, so that they are
//! measured in the same way.
//!
//! Trusted here: the C declarations of the exported calls. The bindings link
//! the archive that has them.

use crate::plain::{self, Edition, One, Two};
use frame_store as _;

/// A public call.
#[derive(Clone, Copy, PartialEq, Eq, Debug)]
pub enum Call {
    Format,
    Check,
    LookUp,
    Put,
    Replace,
    Erase,
    Pack,
    /// A page of names, after the key if there is one.
    List,
}

impl Call {
    pub const ALL: [Call; 8] = [
        Call::Format,
        Call::Check,
        Call::LookUp,
        Call::Put,
        Call::Replace,
        Call::Erase,
        Call::Pack,
        Call::List,
    ];

    pub fn name(self) -> &'static str {
        match self {
            Call::Format => "format",
            Call::Check => "check",
            Call::LookUp => "look-up",
            Call::Put => "put",
            Call::Replace => "replace",
            Call::Erase => "erase",
            Call::Pack => "pack",
            Call::List => "list",
        }
    }

    /// Whether the frame has to be restored before the call can be repeated.
    pub fn changes_frame(self) -> bool {
        matches!(self, Call::Put | Call::Replace | Call::Erase)
    }
}

/// As much of the output as a listing is lent.
pub const PAGE_BYTES: usize = 2_048;

/// What is lent to a call; each call takes what it needs.
pub struct Lent<'a> {
    pub frame: &'a mut [u8],
    /// The output of pack, and the buffer of a listing.
    pub out: &'a mut [u8],
    pub key: &'a [u8],
    pub value: &'a [u8],
    /// The slot capacity for format.
    pub n: usize,
    /// Place, length, slots and, in edition 2, the stamp that look-up gives; count
    /// and whether more remain that a listing gives.
    pub found: Found,
}

/// As many numbers as a call gives at most.
pub type Found = [u64; 4];
pub const NOTHING_FOUND: Found = [0; 4];

/// Makes the call and gives its number.
pub type Function = fn(&mut Lent) -> u32;

/// The calls of both stores in one edition.
pub struct Stores {
    pub plain: fn(Call) -> Function,
    pub proved: fn(Call) -> Function,
}

pub const STORES_1: Stores = Stores { plain: plain::<One>, proved };
pub const STORES_2: Stores = Stores { plain: plain::<Two>, proved: proved2 };

/// What is passed with a record: another stamp than the frames have. Edition 1 has none.
const STAMP: u64 = u64::MAX;

pub fn plain<E: Edition>(call: Call) -> Function {
    match call {
        Call::Format => |lent| plain::format::<E>(lent.frame, lent.frame.len(), lent.n),
        Call::Check => |lent| plain::check::<E>(lent.frame),
        Call::LookUp => |lent| {
            let (number, found) = plain::look_up::<E>(lent.frame, lent.key);
            lent.found = found;
            number
        },
        Call::Put => |lent| plain::put::<E>(lent.frame, lent.key, lent.value, STAMP),
        Call::Replace => |lent| plain::replace::<E>(lent.frame, lent.key, lent.value, STAMP),
        Call::Erase => |lent| plain::erase::<E>(lent.frame, lent.key),
        Call::Pack => |lent| plain::pack::<E>(lent.frame, lent.out),
        Call::List => |lent| {
            let start = (!lent.key.is_empty()).then_some(lent.key);
            let asked = plain::Asked { prefix: b"", start, delimiter: None };
            let (number, [count, more]) = plain::list::<E>(lent.frame, &asked, page(lent.out));
            lent.found = [count, more, 0, 0];
            number
        },
    }
}

fn page(out: &mut [u8]) -> &mut [u8] {
    let length = out.len().min(PAGE_BYTES);
    &mut out[..length]
}

/// The exported calls of one edition, how many numbers its look-up gives, and the stamp
/// that is passed with a record, if it has one. Every part is passed with its own
/// length, and lives through the call.
macro_rules! calls_of_edition {
    ($(#[$about:meta])* $proved:ident: $format:ident, $check:ident, $look_up:ident, $put:ident,
     $replace:ident, $erase:ident, $pack:ident, $list:ident; $numbers:expr $(, $stamp:expr)?) => {
        $(#[$about])*
        pub fn $proved(call: Call) -> Function {
            match call {
                Call::Format => |lent| unsafe {
                    let length = lent.frame.len();
                    exported::$format(lent.frame.as_mut_ptr(), length, length, lent.n)
                },
                Call::Check => {
                    |lent| unsafe { exported::$check(lent.frame.as_ptr(), lent.frame.len()) }
                }
                Call::LookUp => |lent| unsafe {
                    let found = &mut lent.found[..$numbers];
                    exported::$look_up(
                        lent.frame.as_ptr(),
                        lent.frame.len(),
                        lent.key.as_ptr(),
                        lent.key.len(),
                        found.as_mut_ptr(),
                        found.len(),
                    )
                },
                Call::Put => |lent| unsafe {
                    exported::$put(
                        lent.frame.as_mut_ptr(),
                        lent.frame.len(),
                        lent.key.as_ptr(),
                        lent.key.len(),
                        lent.value.as_ptr(),
                        lent.value.len(),
                        $($stamp)?
                    )
                },
                Call::Replace => |lent| unsafe {
                    exported::$replace(
                        lent.frame.as_mut_ptr(),
                        lent.frame.len(),
                        lent.key.as_ptr(),
                        lent.key.len(),
                        lent.value.as_ptr(),
                        lent.value.len(),
                        $($stamp)?
                    )
                },
                Call::Erase => |lent| unsafe {
                    let length = lent.frame.len();
                    exported::$erase(
                        lent.frame.as_mut_ptr(),
                        length,
                        lent.key.as_ptr(),
                        lent.key.len(),
                    )
                },
                Call::Pack => |lent| unsafe {
                    let (frame, out) = (lent.frame.as_ptr(), lent.out.as_mut_ptr());
                    exported::$pack(frame, lent.frame.len(), out, lent.out.len())
                },
                Call::List => |lent| unsafe {
                    let (frame, buffer) = (lent.frame.as_ptr(), page(lent.out));
                    exported::$list(
                        frame,
                        lent.frame.len(),
                        b"".as_ptr(),
                        0,
                        lent.key.as_ptr(),
                        lent.key.len(),
                        usize::from(!lent.key.is_empty()),
                        exported::NO_DELIMITER,
                        buffer.as_mut_ptr(),
                        buffer.len(),
                        lent.found.as_mut_ptr(),
                        exported::PAGE_NUMBERS,
                    )
                },
            }
        }
    };
}

calls_of_edition! {
    /// Those of edition 1.
    proved: frame_format, frame_check, frame_look_up, frame_put, frame_replace, frame_erase,
    frame_pack, frame_list; exported::FOUND_NUMBERS
}

calls_of_edition! {
    /// Those of edition 2.
    proved2: frame2_format, frame2_check, frame2_look_up, frame2_put, frame2_replace, frame2_erase,
    frame2_pack, frame2_list; exported::FOUND_NUMBERS_2, STAMP
}

/// A batch by the proved store; gives its number and the place of the change
/// that was refused.
pub fn proved_batch(
    frame: &mut [u8],
    second: &mut [u8],
    batch: &[u8],
    answers: &mut [u8],
) -> (u32, u64) {
    // SAFETY: every part is passed with its own length, and lives through the
    // call.
    let given = unsafe {
        exported::frame_batch(
            frame.as_mut_ptr(),
            frame.len(),
            second.as_mut_ptr(),
            second.len(),
            batch.as_ptr(),
            batch.len(),
            answers.as_mut_ptr(),
            answers.len(),
        )
    };
    ((given % exported::BATCH_PLACE) as u32, given / exported::BATCH_PLACE)
}

mod exported {
    /// What the place of a refused change is multiplied by.
    pub const BATCH_PLACE: u64 = 256;
    pub const NO_DELIMITER: usize = 256;
    pub const PAGE_NUMBERS: usize = 2;
    pub const FOUND_NUMBERS: usize = 3;
    pub const FOUND_NUMBERS_2: usize = 4;

    /// Declares a function of each edition, both alike.
    macro_rules! declared {
        ($($one:ident, $two:ident: fn($($name:ident: $type:ty),* $(,)?) -> $given:ty;)*) => {
            extern "C" {
                $(
                    pub fn $one($($name: $type),*) -> $given;
                    pub fn $two($($name: $type),*) -> $given;
                )*
            }
        };
    }

    declared! {
        frame_format, frame2_format: fn(
            frame: *mut u8,
            length: usize,
            f: usize,
            n: usize,
        ) -> u32;
        frame_check, frame2_check: fn(frame: *const u8, length: usize) -> u32;
        frame_look_up, frame2_look_up: fn(
            frame: *const u8,
            length: usize,
            key: *const u8,
            key_length: usize,
            found: *mut u64,
            numbers: usize,
        ) -> u32;
        frame_erase, frame2_erase: fn(
            frame: *mut u8,
            length: usize,
            key: *const u8,
            key_length: usize,
        ) -> u32;
        frame_pack, frame2_pack: fn(
            frame: *const u8,
            length: usize,
            out: *mut u8,
            out_length: usize,
        ) -> u32;
        frame_list, frame2_list: fn(
            frame: *const u8,
            length: usize,
            prefix: *const u8,
            prefix_length: usize,
            start: *const u8,
            start_length: usize,
            has_start: usize,
            delimiter: usize,
            buffer: *mut u8,
            buffer_length: usize,
            page: *mut u64,
            numbers: usize,
        ) -> u32;
    }

    extern "C" {
        pub fn frame_put(
            frame: *mut u8,
            length: usize,
            key: *const u8,
            key_length: usize,
            value: *const u8,
            value_length: usize,
        ) -> u32;
        pub fn frame_replace(
            frame: *mut u8,
            length: usize,
            key: *const u8,
            key_length: usize,
            value: *const u8,
            value_length: usize,
        ) -> u32;
        pub fn frame2_put(
            frame: *mut u8,
            length: usize,
            key: *const u8,
            key_length: usize,
            value: *const u8,
            value_length: usize,
            stamp: u64,
        ) -> u32;
        pub fn frame2_replace(
            frame: *mut u8,
            length: usize,
            key: *const u8,
            key_length: usize,
            value: *const u8,
            value_length: usize,
            stamp: u64,
        ) -> u32;
        pub fn frame_batch(
            frame: *mut u8,
            length: usize,
            second: *mut u8,
            second_length: usize,
            batch: *const u8,
            batch_length: usize,
            answers: *mut u8,
            answers_length: usize,
        ) -> u64;
    }
}
