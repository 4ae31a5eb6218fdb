//! Stamps of edition 2, and the zero that edition 1 keeps in their place.
//!
//! Believed here: what Q-8 of document 02 says of a put, a replacement, a look-up,
//! the packed image and a batch, for cases that can be told beforehand. The figures
//! and bytes are literal, worked out by hand from its words and from the layouts of
//! docs/FORMAT.md; they do not come from any reading in this crate.

use crate::compare::{Compared, Comparer, Held};
use crate::layout::*;
use crate::tally::Call;
use crate::value::Value;
use crate::worked::{formatted, Figures};

const SMALL: (usize, usize) = (1_024, 8);

/// No two bytes are alike.
const FIRST: u64 = 0x1122_3344_5566_7788;
const SECOND: u64 = 0xFEDC_BA98_7654_3210;
const FIRST_BYTES: [u8; 8] = [0x88, 0x77, 0x66, 0x55, 0x44, 0x33, 0x22, 0x11];
const SECOND_BYTES: [u8; 8] = [0x10, 0x32, 0x54, 0x76, 0x98, 0xBA, 0xDC, 0xFE];

/// A call with key, value and stamp; its number, B and X after it, and the stamp
/// that the key `a` then has.
type Step<'a> = (Call, &'a [u8], &'a [u8], u64, u32, (usize, usize), u64);

const STEPS: [Step; 16] = [
    (Call::Put, b"a", b"1", FIRST, 0, (128, 0), FIRST),
    // "changes nothing"
    (Call::Put, b"a", b"2", SECOND, 11, (128, 0), FIRST),
    (Call::Put, b"a", b"1", SECOND, 11, (128, 0), FIRST),
    (Call::Put, b"a", b"longer", SECOND, 11, (128, 0), FIRST),
    // the same length: nothing is needed
    (Call::Replace, b"a", b"2", SECOND, 9, (128, 0), SECOND),
    (Call::Replace, b"a", b"2", FIRST, 9, (128, 0), FIRST),
    (Call::Replace, b"a", b"3", FIRST, 9, (128, 0), FIRST),
    (Call::Replace, b"a", b"3", 0, 9, (128, 0), 0),
    (Call::Replace, b"b", b"3", SECOND, 8, (128, 0), 0),
    // another length
    (Call::Replace, b"a", b"34", u64::MAX, 9, (136, 8), u64::MAX),
    (Call::Replace, b"a", b"34", 1, 9, (136, 8), 1),
    (Call::Replace, b"a", b"3", SECOND, 9, (144, 16), SECOND),
    // refused: for the key, for the value, for room
    (Call::Replace, b"", b"3", FIRST, 3, (144, 16), SECOND),
    (Call::Replace, b"a", &[b'v'; 65_536], FIRST, 5, (144, 16), SECOND),
    (Call::Replace, b"a", &[b'v'; 900], FIRST, 6, (144, 16), SECOND),
    (Call::Put, b"b", &[b'v'; 900], FIRST, 6, (144, 16), SECOND),
];

pub fn worked_stamps(comparer: &mut Comparer) -> Compared<()> {
    comparer.begin("worked stamps".to_string());
    puts_and_replacements(comparer)?;
    many_children(comparer)?;
    packed_records(comparer)?;
    if comparer.edition() == Edition::Two {
        a_batch(comparer)?;
    }
    Ok(())
}

/// The stamp that is told, which is 0 in edition 1.
fn told(comparer: &mut Comparer, held: &Held, key: &[u8], stamp: u64) -> Compared<()> {
    let is = comparer.look_up(held, key)?.stamp;
    let Value { stamp, .. } = Value::stamped(comparer.edition(), (), stamp);
    if is != stamp {
        let key = key.escape_ascii();
        return comparer.differs(format!("the stamp {is} is told of {key}, not {stamp}"));
    }
    Ok(())
}

fn puts_and_replacements(comparer: &mut Comparer) -> Compared<()> {
    let mut held = formatted(comparer, SMALL, 0)?;
    for (call, key, bytes, stamp, number, (b, x), then) in STEPS {
        let value = Value::stamped(comparer.edition(), bytes, stamp);
        let given = match call {
            Call::Replace => comparer.replace(&mut held, key, value)?,
            _ => comparer.put(&mut held, key, value)?,
        };
        let figures = Figures { name: "a stamped record", number, fields: &[(AT_U, 2), (AT_R, 1)] };
        figures.hold(comparer, &held, given)?;
        let are = (get32(held.bytes(), AT_B), get32(held.bytes(), AT_X));
        if are != (b, x) {
            return comparer.differs(format!("B and X are {are:?}, not {b} and {x}"));
        }
        told(comparer, &held, b"a", then)?;
    }
    // Not of a key that is absent, and not of a refusal.
    for key in [&b"b"[..], b"ab", b"", &[b'k'; 256]] {
        told(comparer, &held, key, 0)?;
    }
    let mut not_good = held.bytes().to_vec();
    not_good[AT_X] ^= 8;
    for bytes in [not_good, held.bytes()[..1_016].to_vec()] {
        let refused = comparer.held(bytes);
        told(comparer, &refused, b"a", 0)?;
    }
    // The only record goes, and comes with another stamp.
    comparer.erase(&mut held, b"a")?;
    told(comparer, &held, b"a", 0)?;
    let value = Value::stamped(comparer.edition(), &b"3"[..], FIRST);
    comparer.put(&mut held, b"a", value)?;
    told(comparer, &held, b"a", FIRST)
}

/// Every record keeps its stamp while its node grows and gives way to a smaller one,
/// and while nodes above it come and go.
fn many_children(comparer: &mut Comparer) -> Compared<()> {
    const MOST: u8 = 49;
    let mut held = formatted(comparer, (4_096, 64), 0)?;
    let stamp = |byte: u8| u64::from_le_bytes([byte; 8]);
    let all_told = |comparer: &mut Comparer, held: &Held, last: u8| {
        (1..=last).try_for_each(|byte| told(comparer, held, &[b'k', byte], stamp(byte)))
    };
    for byte in 1..=MOST {
        let value = Value::stamped(comparer.edition(), &b"v"[..], stamp(byte));
        comparer.put(&mut held, &[b'k', byte], value)?;
        if [2, 5, 17, 49].contains(&byte) {
            all_told(comparer, &held, byte)?;
        }
    }
    for byte in (2..=MOST).rev() {
        comparer.erase(&mut held, &[b'k', byte])?;
        if [38, 13, 4, 2].contains(&byte) {
            all_told(comparer, &held, byte - 1)?;
        }
    }
    Ok(())
}

/// Of a=1 and b=2 with F 1,024 and N 8: a Node4 at 96, then a Leaf with its extent
/// at 120 and at 136, and another one at 144 and at 160.
fn packed_records(comparer: &mut Comparer) -> Compared<()> {
    let mut held = formatted(comparer, SMALL, 0)?;
    for (key, bytes, stamp) in [(b"b", b"2", SECOND), (b"a", b"1", FIRST)] {
        let value = Value::stamped(comparer.edition(), &bytes[..], stamp);
        comparer.put(&mut held, key, value)?;
    }
    let packed = comparer.pack(&held, &[0xEE; 1_024])?.expect("a good frame packs");
    let [first, second] = match comparer.edition() {
        Edition::One => [[0; 8]; 2],
        Edition::Two => [FIRST_BYTES, SECOND_BYTES],
    };
    let leaves = [
        [136, 0, 0, 0, 1, 0, 1, 0],
        first,
        *b"a1\0\0\0\0\0\0",
        [160, 0, 0, 0, 1, 0, 1, 0],
        second,
        *b"b2\0\0\0\0\0\0",
    ]
    .concat();
    let found = &packed.bytes()[120..168];
    if found != leaves {
        return comparer.differs(format!("two packed Leaves are {found:?}, not {leaves:?}"));
    }
    Ok(())
}

/// Three changes, byte by byte: a replacement of a, an erase of b whose stamp is not
/// looked at, and a put of c.
const BATCH: [&[u8]; 13] = [
    &[3, 0, 0, 0, 16, 0, 0, 0, 34, 0, 0, 0, 51, 0, 0, 0],
    // at 16
    &[2, 0, 1, 0, 1, 0, 0, 0],
    &SECOND_BYTES,
    b"a",
    b"9",
    // at 34
    &[3, 0, 1, 0, 0, 0, 0, 0],
    &[255; 8],
    b"b",
    // at 51
    &[1, 0, 1, 0, 2, 0, 0, 0],
    &FIRST_BYTES,
    b"c",
    b"12",
    // not looked at
    &[255; 3],
];

fn a_batch(comparer: &mut Comparer) -> Compared<()> {
    let mut held = formatted(comparer, SMALL, 0)?;
    for (key, bytes, stamp) in [(b"a", b"1", FIRST), (b"b", b"2", u64::MAX)] {
        comparer.put(&mut held, key, Value { bytes: &bytes[..], stamp })?;
    }
    let before = held.bytes().to_vec();
    let given = comparer.batch(&mut held, &[0xEE; 1_024], &BATCH.concat(), &[0xEE; 3])?;
    // The answers themselves, from the calls and not from any prediction.
    let (mut first, mut second, mut answers) = (before, vec![0xEE; 1_024], [0xEE; 3]);
    comparer.calls().batch(&mut first, &mut second, &BATCH.concat(), &mut answers);
    if given != (0, 0) || answers != [9, 0, 0] {
        return comparer.differs(format!("three changes: {given:?}, {answers:?}"));
    }
    for (key, stamp) in [(b"a", SECOND), (b"b", 0), (b"c", FIRST)] {
        told(comparer, &held, key, stamp)?;
    }
    Ok(())
}
