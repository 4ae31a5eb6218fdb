//! The plain store: documents 01 and 02 in Rust without proofs, written for
//! speed.
//!
//! The public calls over a lent frame of either edition. Each call on an existing
//! frame begins with the whole check (refusals 1 and 2) and then works in place,
//! without a heap.

mod chain;
mod change;
mod check;
mod edition;
pub mod layout;
mod list;
mod pack;
mod walk;

pub use change::{erase, put, replace};
pub use check::check;
pub use edition::{Edition, One, Two};
pub use list::{list, Asked};
pub use pack::{pack, pack_before};

use edition::{text, TextRoom};
use layout::number::*;
use layout::*;

pub fn format<E: Edition>(frame: &mut [u8], f: usize, n: usize) -> u32 {
    if !frame_length_allowed(f) || !slot_capacity_allowed(n) || frame.len() != f {
        return LENGTHS;
    }
    let d = data_start(n);
    if d + EMPTY_ROOT_BYTES > f {
        return LENGTHS;
    }
    frame.fill(0);
    for (at, field) in [
        (AT_EDITION, E::NUMBER),
        (AT_F, f),
        (AT_N, n),
        (AT_D, d),
        (AT_B, d + EMPTY_ROOT_BYTES),
        (AT_U, 1),
    ] {
        set32(frame, at, field);
    }
    set16(frame, AT_ROOT, 1);
    set_entry(frame, 1, d, EMPTY_ROOT);
    DONE
}

/// The number; the place and length of the value, the slots visited, and the stamp,
/// which is 0 in edition 1.
pub fn look_up<E: Edition>(frame: &[u8], key: &[u8]) -> (u32, [u64; 4]) {
    match refusal::<E>(frame, key) {
        DONE => {}
        refused => return (refused, [0; 4]),
    }
    let mut room = TextRoom::None;
    let way = walk::walk::<E>(frame, text::<E>(key, &mut room));
    let slots = way.slots as u64;
    match walk::present(frame, &way.end, key) {
        None => (ABSENT, [0, 0, slots, 0]),
        Some(leaf) => {
            let place = (leaf.extent + key.len()) as u64;
            let stamp = if E::STAMPS { get64(frame, way.end.body + LEAF_STAMP) } else { 0 };
            (DONE, [place, leaf.value_length as u64, slots, stamp])
        }
    }
}

/// Refusals 1 to 4, in their order.
fn refusal<E: Edition>(frame: &[u8], key: &[u8]) -> u32 {
    match check::<E>(frame) {
        DONE => key_refusal::<E>(key),
        refused => refused,
    }
}

/// Refusals 3 and 4.
fn key_refusal<E: Edition>(key: &[u8]) -> u32 {
    match key {
        _ if !(1..=E::LONGEST_KEY).contains(&key.len()) => KEY_LENGTH,
        _ if !E::ZEROS && key.contains(&0) => KEY_HOLDS_ZERO,
        _ => DONE,
    }
}
