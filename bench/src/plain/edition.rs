//! What the editions differ in. Each call is compiled for either by itself, so that
//! none pays for the other.

use super::layout::{ESCAPE, LONGEST_PREFIX, UNIT};

pub trait Edition {
    const NUMBER: usize;
    const LONGEST_KEY: usize;
    /// Whether a key can hold bytes 0, which its walked string has escaped. Otherwise
    /// they are refused.
    const ZEROS: bool;
    /// Whether a record has a stamp.
    const STAMPS: bool;
    /// Whether there are chains: shared beginnings that are longer than one Prefix.
    const CHAINS: bool = Self::LONGEST_KEY > LONGEST_PREFIX;

    /// Bytes of a key that lead to where the check is, and room for one Prefix copied
    /// as a whole.
    type Path: AsRef<[u8]> + AsMut<[u8]>;
    const NO_PATH: Self::Path;
}

/// Document 01.
pub struct One;

impl Edition for One {
    const NUMBER: usize = 1;
    const LONGEST_KEY: usize = 112;
    const ZEROS: bool = false;
    const STAMPS: bool = false;

    type Path = [u8; path_room(One::LONGEST_KEY)];
    const NO_PATH: Self::Path = [0; path_room(One::LONGEST_KEY)];
}

/// Document 02, Q-7 and Q-8.
pub struct Two;

impl Edition for Two {
    const NUMBER: usize = 2;
    const LONGEST_KEY: usize = 255;
    const ZEROS: bool = true;
    const STAMPS: bool = true;

    type Path = [u8; path_room(Two::LONGEST_KEY)];
    const NO_PATH: Self::Path = [0; path_room(Two::LONGEST_KEY)];
}

const fn path_room(longest_key: usize) -> usize {
    (longest_key + LONGEST_PREFIX).next_multiple_of(UNIT)
}

/// The text of a key is its walked string before the end.
pub const LONGEST_TEXT: usize = 2 * Two::LONGEST_KEY;

/// Where a text is spelt that is not the key itself.
pub type TextRoom = Option<[u8; LONGEST_TEXT]>;

#[inline(always)]
pub fn text<'a, E: Edition>(key: &'a [u8], room: &'a mut TextRoom) -> &'a [u8] {
    if E::ZEROS && key.contains(&0) {
        spelt(key, room)
    } else {
        key
    }
}

#[inline(never)]
fn spelt<'a>(key: &[u8], room: &'a mut TextRoom) -> &'a [u8] {
    let room = room.insert([0; LONGEST_TEXT]);
    let mut end = 0;
    for byte in key {
        room[end] = *byte;
        end += 1;
        if *byte == 0 {
            room[end] = ESCAPE;
            end += 1;
        }
    }
    &room[..end]
}
