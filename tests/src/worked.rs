//! The worked frames W1 to W11, everything under "Run and compared", and worked
//! cases of document 02.
//!
//! Believed here: the figures document 01 prints, which hold in both editions since
//! no key is longer there or has a byte 0, and what document 02 says of cases that
//! can be told beforehand. They are literal, and do not come from any reading in
//! this crate. Chains have a file of their own.

use crate::batch::{laid, AT_KIND};
use crate::compare::{Compared, Comparer, Held};
use crate::layout::*;
use crate::names::Asked;
use crate::trees::Change;
use crate::value::Value;

const SMALL: (usize, usize) = (1_024, 8);
const LARGE: (usize, usize) = (524_288, 10_240);

/// Number given and the fields after it.
pub struct Figures {
    pub name: &'static str,
    pub number: u32,
    pub fields: &'static [(usize, usize)],
}

impl Figures {
    pub fn hold(&self, comparer: &Comparer, held: &Held, number: u32) -> Compared<()> {
        if number != self.number {
            return comparer.differs(format!("{} gave {number}, not {}", self.name, self.number));
        }
        for (at, value) in self.fields {
            let found = get32(held.bytes(), *at);
            if found != *value {
                let name = self.name;
                return comparer.differs(format!("{name}: {found} stands at {at}, not {value}"));
            }
        }
        Ok(())
    }
}

pub fn formatted(comparer: &mut Comparer, (f, n): (usize, usize), fill: u8) -> Compared<Held> {
    let made = comparer.format(&vec![fill; f], f, n)?;
    Ok(made.expect("F and N are within the limits"))
}

/// With some stamp in edition 2, on which no figure hangs.
pub fn put(
    comparer: &mut Comparer,
    held: &mut Held,
    key: &[u8],
    value: &[u8],
    figures: Figures,
) -> Compared<()> {
    let value = comparer.stamped(value);
    let number = comparer.put(held, key, value)?;
    figures.hold(comparer, held, number)
}

fn replace(
    comparer: &mut Comparer,
    held: &mut Held,
    key: &[u8],
    value: &[u8],
    figures: Figures,
) -> Compared<()> {
    let value = comparer.stamped(value);
    let number = comparer.replace(held, key, value)?;
    figures.hold(comparer, held, number)
}

pub fn worked_frames(comparer: &mut Comparer) -> Compared<()> {
    comparer.begin("worked frames W1 to W11".to_string());
    let mut held = formatted(comparer, SMALL, 0xEE)?;
    let w1 = Figures { name: "W1", number: 0, fields: &[(AT_D, 96), (AT_U, 1), (AT_B, 104)] };
    w1.hold(comparer, &held, 0)?;
    let w2 = Figures { name: "W2", number: 0, fields: &[(AT_U, 2), (AT_B, 128)] };
    put(comparer, &mut held, b"a", b"1", w2)?;
    let w3 = Figures { name: "W3", number: 0, fields: &[(AT_U, 4), (AT_B, 176)] };
    put(comparer, &mut held, b"b", b"2", w3)?;
    let w4 = Figures { name: "W4", number: 0, fields: &[(AT_U, 6), (AT_B, 224)] };
    put(comparer, &mut held, b"ab", b"3", w4)?;
    let w5 = Figures { name: "W5", number: 0, fields: &[(AT_U, 7), (AT_B, 248)] };
    put(comparer, &mut held, b"ac", b"4", w5)?;

    let packed = comparer.pack(&held, &vec![0xEE; SMALL.0])?.expect("a good frame packs");
    let w6 = Figures {
        name: "W6",
        number: 0,
        fields: &[(AT_U, 6), (AT_B, 240), (64, 524_300), (72, 131_090)],
    };
    w6.hold(comparer, &packed, 0)?;

    let mut full = held.clone();
    let w7 = Figures { name: "W7", number: 0, fields: &[(AT_U, 8), (AT_B, 272)] };
    put(comparer, &mut full, b"ad", b"5", w7)?;
    let w8 = Figures { name: "W8", number: 6, fields: &[(AT_U, 8), (AT_B, 272)] };
    put(comparer, &mut full, b"ae", b"6", w8)?;

    let mut erased = held.clone();
    let number = comparer.erase(&mut erased, b"ab")?;
    let w9 = Figures { name: "W9", number: 0, fields: &[(AT_U, 7), (AT_B, 248), (AT_X, 8)] };
    w9.hold(comparer, &erased, number)?;
    let w9 = Figures { name: "W9 after put", number: 0, fields: &[(AT_U, 7), (AT_B, 256)] };
    put(comparer, &mut erased, b"ad", b"5", w9)?;

    let mut held = formatted(comparer, SMALL, 0)?;
    for key in [&b"x"[..], b"ab", b"ac"] {
        let step = Figures { name: "W10 before erase", number: 0, fields: &[] };
        put(comparer, &mut held, key, b"v", step)?;
    }
    let number = comparer.erase(&mut held, b"x")?;
    let w10 = Figures { name: "W10", number: 0, fields: &[(AT_U, 7), (AT_B, 352), (AT_X, 8)] };
    w10.hold(comparer, &held, number)?;

    let mut held = formatted(comparer, LARGE, 0xEE)?;
    let w11 = Figures { name: "W11", number: 0, fields: &[(AT_D, 41_024), (AT_B, 73_824)] };
    put(comparer, &mut held, b"fw", &vec![7; 32_768], w11)
}

/// Values and keys at their limits.
pub fn lengths_at_the_limits(comparer: &mut Comparer) -> Compared<()> {
    comparer.begin("lengths at the limits".to_string());
    let mut held = formatted(comparer, LARGE, 1)?;
    for (length, expected) in [
        (0, 0),
        (1, 0),
        (32_767, 0),
        (32_768, 0),
        (65_535, 0),
        (65_536, 5),
        (65_537, 5),
        (131_072, 5),
    ] {
        let key = format!("value of {length}");
        let figures = Figures { name: "a value's length", number: expected, fields: &[] };
        put(comparer, &mut held, key.as_bytes(), &vec![length as u8; length], figures)?;
        comparer.look_up(&held, key.as_bytes())?;
    }
    let lengths: &[(usize, u32)] = match comparer.edition() {
        Edition::One => &[(0, 3), (1, 0), (111, 0), (112, 0), (113, 3), (200, 3), (65_648, 3)],
        Edition::Two => {
            &[(0, 3), (1, 0), (112, 0), (113, 0), (254, 0), (255, 0), (256, 3), (65_791, 3)]
        }
    };
    for (length, expected) in lengths.iter().copied() {
        let key = vec![b'k'; length];
        let figures = Figures { name: "a key's length", number: expected, fields: &[] };
        put(comparer, &mut held, &key, b"v", figures)?;
        comparer.look_up(&held, &key)?;
    }
    let number = match comparer.edition() {
        Edition::One => 4,
        Edition::Two => 0,
    };
    for key in [&b"\0"[..], b"a\0", b"\0a", b"a\0b", b"\0\xff", &[0; 112]] {
        let figures = Figures { name: "a key with a byte 0", number, fields: &[] };
        put(comparer, &mut held, key, b"v", figures)?;
        comparer.look_up(&held, key)?;
        comparer.erase(&mut held, key)?;
    }
    comparer.check(&held)?;
    // Read back, replaced and packed at full length.
    for length in [32_768, 65_535, 32_767] {
        let figures = Figures { name: "a replaced value", number: 9, fields: &[] };
        replace(comparer, &mut held, b"value of 1", &vec![3; length], figures)?;
        comparer.look_up(&held, b"value of 1")?;
    }
    let packed = comparer.pack(&held, &vec![2; LARGE.0])?.expect("a good frame packs");
    comparer.look_up(&packed, b"value of 65535")?;
    for length in [32_767, 32_768, 65_535] {
        comparer.erase(&mut held, format!("value of {length}").as_bytes())?;
    }
    comparer.check(&held)
}

/// 4 to 5, 16 to 17, 48 to 49 children, and 38 to 37, 13 to 12, 4 to 3.
pub fn growth_and_shrinking(comparer: &mut Comparer) -> Compared<()> {
    for (stage, shuffled) in [("in byte order", 1), ("in another order", 77)] {
        comparer.begin(format!("growth and shrinking {stage}"));
        let mut held = formatted(comparer, (32_768, 600), 0)?;
        let key = |turn: usize| [(turn * shuffled % 251) as u8 + 1];
        let root_kind = |held: &Held| {
            let root = get16(held.bytes(), AT_ROOT);
            get_entry(held.bytes(), root).1
        };
        for children in 1..=60 {
            let value = comparer.stamped(b"v");
            comparer.put(&mut held, &key(children), value)?;
            let expected = match children {
                1 => 1,
                2..=4 => 4,
                5..=16 => 5,
                17..=48 => 6,
                _ => 7,
            };
            if root_kind(&held) != expected {
                return comparer.differs(format!("{children} children are not kind {expected}"));
            }
        }
        for children in (1..60).rev() {
            comparer.erase(&mut held, &key(children + 1))?;
            let expected = match children {
                1 => 1,
                2..=3 => 4,
                4..=12 => 5,
                13..=37 => 6,
                _ => 7,
            };
            if root_kind(&held) != expected {
                return comparer.differs(format!("{children} children left, not kind {expected}"));
            }
            comparer.pack(&held, &vec![9; held.bytes().len()])?;
        }
    }
    Ok(())
}

/// what a put and a replacement answer, and that neither asks for room if
/// it has nothing to do.
pub fn puts_and_replacements(comparer: &mut Comparer) -> Compared<()> {
    comparer.begin("puts and replacements".to_string());
    let long_value = vec![1; LONGEST_VALUE + 1];
    let mut w2 = formatted(comparer, SMALL, 0)?;
    let figures = Figures { name: "W2", number: 0, fields: &[(AT_B, 128), (AT_X, 0)] };
    put(comparer, &mut w2, b"a", b"1", figures)?;
    let as_before = &[(AT_U, 2), (AT_B, 128), (AT_R, 1), (AT_X, 0)];
    let figures = |name, number| Figures { name, number, fields: as_before };
    put(comparer, &mut w2, b"a", b"2", figures("a put of a present key", 11))?;
    put(comparer, &mut w2, b"a", b"longer", figures("a longer put of a present key", 11))?;
    put(comparer, &mut w2, b"a", &long_value, figures("5 before 11", 5))?;
    replace(comparer, &mut w2, b"b", b"2", figures("a replacement of an absent key", 8))?;
    replace(comparer, &mut w2, b"b", &long_value, figures("5 before 8", 5))?;
    replace(comparer, &mut w2, b"", b"2", figures("a replacement without a key", 3))?;
    let with_zero = match comparer.edition() {
        Edition::One => 4,
        Edition::Two => 8,
    };
    replace(comparer, &mut w2, b"b\0", b"2", figures("a replacement of a key with 0", with_zero))?;
    replace(comparer, &mut w2, b"a", b"2", figures("the same length", 9))?;
    let figures = Figures {
        name: "another length, though the size is the same",
        number: 9,
        fields: &[(AT_U, 2), (AT_B, 136), (AT_R, 1), (AT_X, 8)],
    };
    replace(comparer, &mut w2, b"a", b"23", figures)?;

    let mut w7 = formatted(comparer, SMALL, 0)?;
    for (key, value) in
        [(&b"a"[..], b"1"), (b"b", b"2"), (b"ab", b"3"), (b"ac", b"4"), (b"ad", b"5")]
    {
        let figures = Figures { name: "W7", number: 0, fields: &[] };
        put(comparer, &mut w7, key, value, figures)?;
    }
    let as_before = &[(AT_U, 8), (AT_B, 272), (AT_R, 5), (AT_X, 0)];
    let figures = |name, number| Figures { name, number, fields: as_before };
    put(comparer, &mut w7, b"ae", b"6", figures("W8", 6))?;
    put(comparer, &mut w7, b"a", b"9", figures("no slot left, key present", 11))?;
    replace(comparer, &mut w7, b"ae", b"6", figures("no slot left, key absent", 8))?;

    let mut full = formatted(comparer, SMALL, 0)?;
    let fill = vec![5; 1_024 - 104 - 16 - 1];
    let figures = Figures { name: "full to the byte", number: 0, fields: &[(AT_B, 1_024)] };
    put(comparer, &mut full, b"a", &fill, figures)?;
    let as_before = &[(AT_U, 2), (AT_B, 1_024), (AT_R, 1), (AT_X, 0)];
    let figures = |name, number| Figures { name, number, fields: as_before };
    put(comparer, &mut full, b"a", &[5; 900], figures("no byte left, key present", 11))?;
    replace(comparer, &mut full, b"b", b"2", figures("no byte left, key absent", 8))?;
    replace(comparer, &mut full, b"a", b"2", figures("a shorter value, no byte left", 6))?;
    replace(comparer, &mut full, b"a", &[6; 903], figures("the same length, no byte left", 9))
}

/// Records, and the slots on the way of a key.
type Path<'a> = (&'a [&'a [u8]], &'a [u8], u64);

/// EmptyRoot; Leaf; Node4 and Leaf; two Node4 and Leaf, the most that a key
/// of one byte can have; a Prefix and what is below it.
const PATHS: [Path; 14] = [
    (&[], b"a", 1),
    (&[b"a"], b"a", 1),
    (&[b"a"], b"b", 1),
    (&[b"a", b"b"], b"a", 2),
    (&[b"a", b"b"], b"b", 2),
    (&[b"a", b"b"], b"c", 1),
    (&[b"a", b"b", b"ab"], b"a", 3),
    (&[b"a", b"b", b"ab"], b"ab", 3),
    (&[b"a", b"b", b"ab"], b"b", 2),
    (&[b"a", b"b", b"ab"], b"ac", 2),
    (&[b"a", b"b", b"ab"], b"abc", 3),
    (&[b"zz\x01", b"zz\x02"], b"zz\x01", 3),
    (&[b"zz\x01", b"zz\x02"], b"zz", 2),
    (&[b"zz\x01", b"zz\x02"], b"za", 1),
];

/// worked paths; none for a refused look-up.
pub fn slots_visited(comparer: &mut Comparer) -> Compared<()> {
    comparer.begin("slots that a look-up visits".to_string());
    for (keys, key, slots) in PATHS {
        let mut held = formatted(comparer, SMALL, 0)?;
        for there in keys {
            let figures = Figures { name: "a record on the way", number: 0, fields: &[] };
            put(comparer, &mut held, there, b"v", figures)?;
        }
        visited(comparer, &held, key, slots)?;
        visited(comparer, &held, b"", 0)?;
        if comparer.edition() == Edition::One {
            visited(comparer, &held, b"\0", 0)?;
        }
        let mut not_good = held.bytes().to_vec();
        not_good[AT_X] ^= 8;
        visited(comparer, &comparer.held(not_good), key, 0)?;
        visited(comparer, &comparer.held(held.bytes()[..1_016].to_vec()), key, 0)?;
    }
    Ok(())
}

/// every length of a key with the most slots that it can have.
pub fn most_slots_visited(comparer: &mut Comparer) -> Compared<()> {
    comparer.begin("the most slots that a look-up visits".to_string());
    match comparer.edition() {
        Edition::One => row_of_edition_1(comparer),
        Edition::Two => row_of_edition_2(comparer),
    }
}

fn in_the_row() -> Figures {
    Figures { name: "a record of the row", number: 0, fields: &[] }
}

/// p, pp and so on, and q beside them: a node for every byte.
fn row_of_edition_1(comparer: &mut Comparer) -> Compared<()> {
    const MOST: usize = 112;
    let mut held = formatted(comparer, (32_768, 400), 0)?;
    put(comparer, &mut held, b"q", b"v", in_the_row())?;
    let row = vec![b'p'; MOST];
    for length in 1..=MOST {
        put(comparer, &mut held, &row[..length], b"v", in_the_row())?;
    }
    for length in 1..MOST {
        visited(comparer, &held, &row[..length], length as u64 + 2)?;
    }
    // No longer key parts from it, so its Leaf hangs where its last byte leads.
    visited(comparer, &held, &row, MOST as u64 + 1)
}

/// The same, and behind each of them a byte 0, so that it parts at the second byte
/// of its end.
fn row_of_edition_2(comparer: &mut Comparer) -> Compared<()> {
    const MOST: usize = 255;
    let mut held = formatted(comparer, (131_072, 2_200), 0)?;
    put(comparer, &mut held, b"q", b"v", in_the_row())?;
    let row = vec![b'p'; MOST];
    for length in 1..=MOST {
        put(comparer, &mut held, &row[..length], b"v", in_the_row())?;
        if length < MOST {
            let with_zero = [&row[..length], &[0]].concat();
            put(comparer, &mut held, &with_zero, b"v", in_the_row())?;
        }
    }
    for length in [1, 2, 3, 111, 112, 113, 252, 253] {
        visited(comparer, &held, &row[..length], length as u64 + 3)?;
        visited(comparer, &held, &[&row[..length], &[0]].concat(), length as u64 + 3)?;
    }
    // Its two bytes 0 lead to no other key.
    visited(comparer, &held, &row, MOST as u64 + 1)?;
    for length in [1, 112, 253] {
        comparer.erase(&mut held, &row[..length])?;
        visited(comparer, &held, &row[..length], length as u64 + 2)?;
    }
    Ok(())
}

fn visited(comparer: &mut Comparer, held: &Held, key: &[u8], slots: u64) -> Compared<()> {
    let told = comparer.look_up(held, key)?.slots;
    if told != slots {
        let way = key.escape_ascii();
        return comparer.differs(format!("the way of {way} has {slots} slots, and not {told}"));
    }
    Ok(())
}

/// What is asked (prefix, start key, delimiter, bytes of the buffer), and what is
/// told (number, whether more remain, entries).
type Worked<'a> = (&'a [u8], Option<&'a [u8]>, Option<u8>, usize, u32, u64, &'a [&'a [u8]]);

const LISTED_KEYS: [&[u8]; 7] = [b"a", b"a/b", b"a/c", b"ab", b"b/x", b"b/y", b"c"];
const SLASH: Option<u8> = Some(b'/');
const LISTINGS: [Worked; 16] = [
    // 8 of 12 bytes; a/c needs 5
    (b"", None, None, 12, 0, 1, &[b"a", b"a/b"]),
    (b"", Some(b"a/b"), None, 8, 0, 1, &[b"a/c"]),
    // 18 bytes exactly
    (b"", None, SLASH, 18, 0, 0, &[b"a", b"a/", b"ab", b"b/", b"c"]),
    (b"", None, SLASH, 17, 0, 1, &[b"a", b"a/", b"ab", b"b/"]),
    (b"", Some(b"a/"), SLASH, 18, 0, 0, &[b"ab", b"b/", b"c"]),
    // a/ does not sort after a/b
    (b"", Some(b"a/b"), SLASH, 18, 0, 0, &[b"ab", b"b/", b"c"]),
    // a delimiter within the prefix does not count
    (b"a/", None, SLASH, 18, 0, 0, &[b"a/b", b"a/c"]),
    // the prefix itself matches
    (b"a", None, SLASH, 18, 0, 0, &[b"a", b"a/", b"ab"]),
    // all that match sort before the start key
    (b"a", Some(b"b"), None, 18, 0, 0, &[]),
    (b"b", Some(b"a"), None, 5, 0, 1, &[b"b/x"]),
    (b"d", None, None, 0, 0, 0, &[]),
    // the first entry needs 3
    (b"", None, None, 2, 10, 0, &[]),
    (b"", None, None, 3, 0, 1, &[b"a"]),
    (b"", Some(b"c"), None, 0, 0, 0, &[]),
    // a byte 0 in the prefix is no fault
    (b"\0", None, None, 18, 0, 0, &[]),
    (b"", Some(b""), None, 18, 3, 0, &[]),
];
const LISTINGS_OF_EDITION_1: [Worked; 4] = [
    (b"", Some(b"a\0"), None, 18, 4, 0, &[]),
    // the order of refusals
    (&[b'p'; 113], Some(b"a\0"), None, 0, 3, 0, &[]),
    (b"", Some(b"a\0"), None, 0, 4, 0, &[]),
    (&[b'p'; 112], None, None, 0, 0, 0, &[]),
];
const LISTINGS_OF_EDITION_2: [Worked; 5] = [
    // 14 of 18 bytes; b/x needs 5
    (b"", Some(b"a\0"), None, 18, 0, 1, &[b"a/b", b"a/c", b"ab"]),
    (b"a", Some(&[0; 255]), None, 4, 0, 1, &[b"a"]),
    (&[b'p'; 255], None, None, 0, 0, 0, &[]),
    (&[b'p'; 256], None, None, 0, 3, 0, &[]),
    (b"", Some(&[b'p'; 256]), None, 0, 3, 0, &[]),
];

/// A key sorts before itself and a byte 0, and that before every longer one.
const ZERO_KEYS: [&[u8]; 7] = [b"\0", b"\0\0", b"\0\xff", b"\x01", b"a", b"a\0", b"a\0\0\xff"];
const ZERO: Option<u8> = Some(0);
const ZERO_LISTINGS: [Worked; 9] = [
    (b"", None, None, 27, 0, 0, &ZERO_KEYS),
    (b"", None, None, 26, 0, 1, &[b"\0", b"\0\0", b"\0\xff", b"\x01", b"a", b"a\0"]),
    (b"\0", None, None, 11, 0, 0, &[b"\0", b"\0\0", b"\0\xff"]),
    (b"\0", Some(b"\0"), None, 8, 0, 0, &[b"\0\0", b"\0\xff"]),
    (b"\0", Some(b"\0\0"), None, 8, 0, 0, &[b"\0\xff"]),
    (b"a", Some(b"a\0\0"), None, 6, 0, 0, &[b"a\0\0\xff"]),
    // a byte 0 as delimiter: \0 stands for three keys, a\0 for two
    (b"", None, ZERO, 13, 0, 0, &[b"\0", b"\x01", b"a", b"a\0"]),
    (b"\0", None, ZERO, 11, 0, 0, &[b"\0", b"\0\0", b"\0\xff"]),
    (b"a", Some(b"a"), ZERO, 4, 0, 0, &[b"a\0"]),
];

/// Bytes of 128 and more sort last; a group that is the last entry.
const HIGH_KEYS: [&[u8]; 4] = [b"\x7f", b"\x80", b"\xff/a", b"\xff/b"];
const HIGH_LISTINGS: [Worked; 2] = [
    (b"", None, SLASH, 20, 0, 0, &[b"\x7f", b"\x80", b"\xff/"]),
    (b"", Some(b"\x7f"), SLASH, 7, 0, 0, &[b"\x80", b"\xff/"]),
];

/// listings of a few keys, told beforehand.
pub fn worked_listings(comparer: &mut Comparer) -> Compared<()> {
    comparer.begin("worked listings".to_string());
    listed(comparer, &LISTED_KEYS, &LISTINGS)?;
    listed(comparer, &HIGH_KEYS, &HIGH_LISTINGS)?;
    match comparer.edition() {
        Edition::One => listed(comparer, &LISTED_KEYS, &LISTINGS_OF_EDITION_1),
        Edition::Two => {
            listed(comparer, &LISTED_KEYS, &LISTINGS_OF_EDITION_2)?;
            listed(comparer, &ZERO_KEYS, &ZERO_LISTINGS)
        }
    }
}

fn listed(comparer: &mut Comparer, keys: &[&[u8]], listings: &[Worked]) -> Compared<()> {
    let mut held = formatted(comparer, (2_048, 40), 0)?;
    for key in keys {
        let figures = Figures { name: "a listed key", number: 0, fields: &[] };
        put(comparer, &mut held, key, b"v", figures)?;
    }
    for (prefix, start, delimiter, room, number, more, entries) in listings.iter().copied() {
        let asked = Asked { prefix, start, delimiter };
        let (page, written) = comparer.list(&held, &asked, &vec![0xEE; room])?;
        let told = (page.number, page.more, page.count);
        let count = entries.len() as u64;
        if told != (number, more, count) || !written.iter().eq(entries.iter()) {
            return comparer.differs(format!("{asked:?} in {room} bytes: {told:?}, {written:?}"));
        }
    }
    Ok(())
}

/// The values of a and b in the first frame.
type Values<'a> = (Option<&'a [u8]>, Option<&'a [u8]>);
/// Changes; number and place; answers; what is there after them.
type Batched<'a> = (Vec<Change>, (u32, u64), &'a [u8], Values<'a>);

/// What every change of a worked batch passes in edition 2.
const BATCHED_STAMP: u64 = 0x8877_6655_4433_2211;

/// batches on W2, told beforehand.
pub fn worked_batches(comparer: &mut Comparer) -> Compared<()> {
    comparer.begin("worked batches".to_string());
    let mut w2 = formatted(comparer, SMALL, 0)?;
    let figures = Figures { name: "W2", number: 0, fields: &[] };
    put(comparer, &mut w2, b"a", b"1", figures)?;
    let edition = comparer.edition();
    let value = |bytes: &[u8]| Value::stamped(edition, bytes.to_vec(), BATCHED_STAMP);
    let put = |key: &[u8], bytes: &[u8]| Change::Put { key: key.into(), value: value(bytes) };
    let replace =
        |key: &[u8], bytes: &[u8]| Change::Replace { key: key.into(), value: value(bytes) };
    let erase = |key: &[u8]| Change::Erase { key: key.into() };
    let long = vec![7; LONGEST_VALUE + 1];
    let fill = vec![7; 1_024];
    let was: Values = (Some(b"1"), None);
    let with_b: Values = (Some(b"1"), Some(b"2"));
    let with_zero: Batched = match comparer.edition() {
        Edition::One => (vec![put(b"b", b"2"), erase(b"a\0")], (4, 2), &[], was),
        Edition::Two => (vec![put(b"b", b"2"), erase(b"a\0")], (0, 0), &[0, 8], with_b),
    };
    let cases: [Batched; 9] = [
        (vec![], (0, 0), &[], was),
        (vec![put(b"a", b"2"), put(b"b", b"2")], (0, 0), &[11, 0], with_b),
        (vec![erase(b"c"), replace(b"a", b"3")], (0, 0), &[8, 9], (Some(b"3"), None)),
        (vec![put(b"b", b"2"), erase(b"")], (3, 2), &[], was),
        with_zero,
        (vec![put(b"b", &long)], (5, 1), &[], was),
        (vec![put(b"b", b"2"), erase(b"c"), replace(b"a", &fill)], (6, 3), &[], was),
        (
            vec![erase(b"a"), put(b"a", b"3"), put(b"a", b"4")],
            (0, 0),
            &[0, 0, 11],
            (Some(b"3"), None),
        ),
        (vec![erase(b"a"), erase(b"a"), replace(b"a", b"4")], (0, 0), &[0, 8, 8], (None, None)),
    ];
    for (changes, told, answers, values) in cases {
        // With bytes between the changes, and room for fewer answers and for more.
        for (gap, lent) in [(0, changes.len() + 1), (3, changes.len() / 2)] {
            let batch = laid(edition, &changes, gap);
            let mut given = vec![0xEE; lent];
            let mut held = w2.clone();
            let call = comparer.batch(&mut held, &[0xEE; 1_024], &batch, &given)?;
            // The answers themselves, from the calls and not from any prediction.
            let (mut first, mut second) = (w2.bytes().to_vec(), vec![0xEE; 1_024]);
            comparer.calls().batch(&mut first, &mut second, &batch, &mut given);
            let expected = answers.iter().copied().chain(std::iter::repeat(0xEE)).take(lent);
            let as_told = call == told && given.iter().copied().eq(expected);
            let records = held.state().records();
            let found = |key: &[u8]| records.get(key).map(|value| &value.bytes[..]);
            if !as_told || (found(b"a"), found(b"b")) != values {
                return comparer.differs(format!("{changes:?}: {call:?}, {given:?}, {records:?}"));
            }
        }
    }
    // 12 before any change; 7 before 12; 2 before 7; 1 before 2.
    let right = laid(edition, &[put(b"b", b"2"), erase(b"c"), put(b"c", b"3")], 0);
    let altered = |alter: fn(&mut Vec<u8>)| {
        let mut batch = right.clone();
        alter(&mut batch);
        batch
    };
    let unknown = altered(|batch| {
        let second_change = get32(batch, 8);
        set16(batch, second_change + AT_KIND, 4);
    });
    let no_kind = altered(|batch| {
        let last_change = get32(batch, 12);
        set16(batch, last_change + AT_KIND, 0);
    });
    let twice = altered(|batch| {
        let first_change = get32(batch, 4);
        set32(batch, 8, first_change);
    });
    let many = altered(|batch| set32(batch, 0, 3 + (1 << 16)));
    let mut not_good = w2.bytes().to_vec();
    not_good[AT_X] ^= 8;
    let cut = w2.bytes()[..1_016].to_vec();
    for (bytes, second, batch, number) in [
        (w2.bytes().to_vec(), 1_024, &unknown[..], 12),
        (w2.bytes().to_vec(), 1_024, &no_kind, 12),
        (w2.bytes().to_vec(), 1_024, &twice, 12),
        (w2.bytes().to_vec(), 1_024, &many, 12),
        (w2.bytes().to_vec(), 1_032, &unknown, 7),
        (w2.bytes().to_vec(), 1_032, &right, 7),
        (w2.bytes().to_vec(), 1_016, &right, 7),
        (not_good.clone(), 1_032, &unknown, 2),
        (not_good, 1_024, &unknown, 2),
        (cut, 1_032, &unknown, 1),
        (w2.bytes().to_vec(), 1_024, &unknown[..3], 12),
    ] {
        let mut held = comparer.held(bytes);
        let call = comparer.batch(&mut held, &vec![0xEE; second], batch, &[0xEE; 3])?;
        if call != (number, 0) {
            return comparer.differs(format!("a batch gave {call:?}, not {number}"));
        }
    }
    Ok(())
}

/// Where a text stands in a frame.
fn places_of(held: &Held, text: &[u8]) -> Vec<usize> {
    let parts = held.bytes().windows(text.len()).enumerate();
    parts.filter(|(_, part)| *part == text).map(|(at, _)| at).collect()
}

/// How often a text may stand in a frame.
fn stands(comparer: &Comparer, held: &Held, text: &[u8], times: usize) -> Compared<()> {
    let found = places_of(held, text);
    if found.len() != times {
        let text = text.escape_ascii();
        return comparer.differs(format!("{text} stands at {found:?}, and not {times} times"));
    }
    Ok(())
}

/// what is freed is nowhere in the frame; a frame from before, in which it
/// still is, gets 2 from every call but the packing that takes the old rule.
pub fn wiped_bytes(comparer: &mut Comparer) -> Compared<()> {
    comparer.begin("wiped bytes".to_string());
    let done = || Figures { name: "a call on its way to be wiped", number: 0, fields: &[] };
    let replaced = || Figures { name: "a replacement that wipes", number: 9, fields: &[] };
    let mut held = formatted(comparer, (2_048, 40), 0xEE)?;
    put(comparer, &mut held, b"pin", b"hunter2!", done())?;
    put(comparer, &mut held, b"user", b"nobody", done())?;
    let secret = places_of(&held, b"hunter2!");
    stands(comparer, &held, b"hunter2!", 1)?;
    replace(comparer, &mut held, b"pin", b"-", replaced())?;
    for text in [&b"hunter2!"[..], b"hunt", b"er2!"] {
        stands(comparer, &held, text, 0)?;
    }
    stands(comparer, &held, b"pin", 1)?;

    // The same frame from before.
    let mut before = held.bytes().to_vec();
    before[secret[0]..][..8].copy_from_slice(b"hunter2!");
    from_before(comparer, &held, before)?;

    // A Leaf, a Node4, a Prefix and an extent at once.
    put(comparer, &mut held, b"subscriber.1", b"one", done())?;
    put(comparer, &mut held, b"subscriber.2", b"two", done())?;
    stands(comparer, &held, b"bscriber.", 3)?;
    comparer.erase(&mut held, b"subscriber.2")?;
    stands(comparer, &held, b"bscriber.", 1)?;
    stands(comparer, &held, b"two", 0)?;
    // A Node4 that grows.
    for key in [b"k1", b"k2", b"k3", b"k4"] {
        put(comparer, &mut held, key, b"v", done())?;
    }
    stands(comparer, &held, b"1234", 1)?;
    put(comparer, &mut held, b"k5", b"v", done())?;
    stands(comparer, &held, b"1234", 1)?;
    stands(comparer, &held, b"12345", 1)?;
    // In a batch, and in the frame that it is made in.
    put(comparer, &mut held, b"line", b"secret", done())?;
    let changes = [
        Change::Replace { key: b"line".to_vec(), value: comparer.stamped(b"open").owned() },
        Change::Erase { key: b"user".to_vec() },
    ];
    let batch = laid(comparer.edition(), &changes, 0);
    let mut frames = [held.bytes().to_vec(), vec![0xEE; 2_048]];
    comparer.batch(&mut held, &frames[1], &batch, &[0xEE; 2])?;
    let [first, second] = &mut frames;
    comparer.calls().batch(first, second, &batch, &mut [0; 2]);
    for frame in frames.map(|frame| comparer.held(frame)).iter().chain([&held]) {
        stands(comparer, frame, b"secret", 0)?;
        stands(comparer, frame, b"nobody", 0)?;
        stands(comparer, frame, b"open", 1)?;
    }
    Ok(())
}

/// A frame, and the same from before: every call but one refuses it, and there is
/// no such call in edition 2.
fn from_before(comparer: &mut Comparer, held: &Held, before: Vec<u8>) -> Compared<()> {
    let before = comparer.held(before);
    comparer.check(&before)?;
    let refused = comparer.pack(&before, &[0xEE; 2_048])?;
    let moved = comparer.pack_before(&before, &[0xEE; 2_048])?;
    let by_both = comparer.edition() == Edition::One;
    if refused.is_some() || moved.is_some() != by_both {
        return comparer.differs("a frame from before is packed by the old rule alone".to_string());
    }
    let packed = comparer.pack(held, &[0x11; 2_048])?.expect("a good frame packs");
    if moved.is_some_and(|moved| moved.bytes() != packed.bytes()) {
        return comparer.differs("what was wiped is in no packed image".to_string());
    }
    let again = comparer.pack_before(held, &[0x55; 2_048])?;
    if again.is_some_and(|again| again.bytes() != packed.bytes()) {
        return comparer.differs("a good frame packs alike by both rules".to_string());
    }
    Ok(())
}

/// F and N around their limits, and slices of another length.
pub fn format_limits(comparer: &mut Comparer) -> Compared<()> {
    comparer.begin("format around the limits".to_string());
    const ALL: [usize; 16] =
        [0, 1, 2, 6, 7, 8, 9, 10, 238, 239, 240, 242, 10_238, 10_240, 10_241, 10_242];
    const FEW: [usize; 5] = [6, 8, 9, 10_240, 10_242];
    let short = [0, 8, 1_016, 1_020, 1_023, 1_024, 1_025, 1_032, 16_384];
    let long = [41_024, 41_032, 524_280, 524_288, 524_289, 524_296, 1 << 20];
    let short = short.into_iter().map(|f| (f, &ALL[..]));
    for (f, capacities) in short.chain(long.into_iter().map(|f| (f, &FEW[..]))) {
        for n in capacities {
            comparer.format(&vec![0xEE; f], f, *n)?;
        }
        for slice in [0, f.saturating_sub(8), f + 8, f + 1] {
            comparer.format(&vec![0xEE; slice], f, FEWEST_SLOTS)?;
        }
    }
    for huge in [1 << 32, (1 << 32) + 1_024, usize::MAX, usize::MAX - 7, 1 << 62] {
        comparer.format(&[0xEE; 1_024], huge, 8)?;
        comparer.format(&[0xEE; 1_024], 1_024, huge)?;
        comparer.format(&[0xEE; 1_024], 1_024, huge.wrapping_add(8))?;
    }
    Ok(())
}

/// The first refusal in the order 1, 2, 3, 4, 5, 7, 6 is the one given.
pub fn order_of_refusals(comparer: &mut Comparer) -> Compared<()> {
    comparer.begin("order of refusals".to_string());
    let mut full = formatted(comparer, SMALL, 0)?;
    let fill = vec![5; 1_024 - 104 - 16 - 1];
    let figures =
        Figures { name: "a put that fills the frame", number: 0, fields: &[(AT_B, 1_024)] };
    put(comparer, &mut full, b"a", &fill, figures)?;
    let mut not_good = full.bytes().to_vec();
    not_good[AT_X] ^= 8;
    let mut wrong_length = not_good.clone();
    wrong_length.truncate(1_016);
    // The EmptyRoot that the put has freed.
    let mut before = full.bytes().to_vec();
    before[96] = 1;
    let long_value = vec![1; LONGEST_VALUE + 1];
    let most = comparer.edition().longest_key();
    let (long_key, long_prefix) = (vec![b'k'; most + 1], vec![b'p'; most + 1]);
    let zeros = vec![0; most + 1];
    let keys: [&[u8]; 6] = [b"", &long_key, &zeros, b"a\0", b"b", b"a"];
    for bytes in [full.bytes().to_vec(), not_good, wrong_length, before] {
        let mut held = comparer.held(bytes);
        for key in keys {
            for bytes in [&b""[..], b"v", &fill, &long_value] {
                let value = comparer.stamped(bytes);
                comparer.put(&mut held, key, value)?;
                comparer.replace(&mut held, key, value)?;
            }
            comparer.look_up(&held, key)?;
            comparer.erase(&mut held, key)?;
        }
        for out in [0, 1, 1_016, 1_023, 1_025, 1_032, 524_288, 1_024] {
            comparer.pack(&held, &vec![0xEE; out])?;
            comparer.pack_before(&held, &vec![0xEE; out])?;
        }
        for (prefix, start) in [(&long_prefix[..], None), (b"", Some(&b""[..])), (b"", None)] {
            comparer.list(&held, &Asked { prefix, start, delimiter: None }, &[])?;
        }
        comparer.check(&held)?;
        comparer.info(&held)?;
    }
    Ok(())
}
