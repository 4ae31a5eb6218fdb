//! Random listings, and sequences of pages.
//!
//! Believed here: that these listings are worth making, and that pages glued
//! together give every matching name once. Prefixes and start keys are cut out
//! of keys, lengthened, or no keys at all; delimiters stand within and behind
//! the prefix; buffers end with an entry, one byte before and one behind it.

use crate::compare::{Compared, Comparer, Held};
use crate::crafted::{build, Spare};
use crate::layout::number::{BUFFER, DONE};
use crate::layout::Edition;
use crate::names::{Asked, LENGTH_BYTES};
use crate::random::Random;
use crate::run::Rounds;
use crate::slotless::ByKind;
use crate::store::{self, Records};
use crate::trees::random_tree;

const ROOM: Spare = Spare { slots: 8, bytes: 1_024 };

/// A frame with records whose keys look like paths, or with any keys.
fn some_frame(edition: Edition, random: &mut Random) -> Held {
    let leaves = *random.pick(&[1, 2, 5, 14, 40]);
    if random.one_in(3) {
        let tree = if random.one_in(8) { None } else { Some(random_tree(edition, random, leaves)) };
        let (frame, _) = build(edition, random, &tree, &ByKind::default(), 0, ROOM);
        return Held::new(edition, frame);
    }
    let (f, n) = (16_384, 300);
    let mut frame = vec![0; f];
    assert_eq!(store::format(edition, &mut frame, f, n), DONE);
    let letters: &[&[u8]] = match edition {
        Edition::One => &[b"ab/", b"a/.", b"\x01/\xff", b"/"],
        Edition::Two => &[b"ab/", b"\0/.", b"\0\x01/\xff", b"\0", b"\0\xff"],
    };
    let letters = *random.pick(letters);
    let longest = *random.pick(&[2, 4, 8]);
    for _ in 0..leaves {
        let length = random.from_to(1, longest);
        let mut key: Vec<u8> = (0..length).map(|_| *random.pick(letters)).collect();
        if random.one_in(20) {
            key.resize(edition.longest_key(), *random.pick(letters));
        }
        let value = random.value(edition, 0);
        store::put(edition, &mut frame, &key, value.given());
    }
    Held::new(edition, frame)
}

/// A key of the set, cut or lengthened; sometimes no key at all.
fn near_a_key(edition: Edition, random: &mut Random, keys: &[Vec<u8>]) -> Vec<u8> {
    if keys.is_empty() || random.one_in(12) {
        let length = random.below(4);
        return random.bytes(length);
    }
    let mut key = random.pick(keys).clone();
    match random.below(6) {
        0 | 1 => {}
        2 | 3 => key.truncate(random.below(key.len() + 1)),
        4 => key.push(random.key_byte(edition)),
        _ => {
            let last = key.last_mut().expect("a key has a byte");
            *last = last.wrapping_add(*random.pick(&[1, 255]));
        }
    }
    key
}

fn prefix(edition: Edition, random: &mut Random, keys: &[Vec<u8>]) -> Vec<u8> {
    match random.below(24) {
        0 => vec![random.byte(); edition.longest_key() + 1],
        1 => vec![0],
        2..=6 => Vec::new(),
        _ => near_a_key(edition, random, keys),
    }
}

fn start(edition: Edition, random: &mut Random, keys: &[Vec<u8>]) -> Option<Vec<u8>> {
    match random.below(24) {
        0 => Some(Vec::new()),
        1 => Some(vec![random.key_byte(edition); edition.longest_key() + 1]),
        2 => Some(b"a\0".to_vec()),
        3..=9 => None,
        _ => Some(near_a_key(edition, random, keys)),
    }
}

fn delimiter(random: &mut Random, keys: &[Vec<u8>]) -> Option<u8> {
    match random.below(6) {
        0 => None,
        1 | 2 => Some(b'/'),
        3 => Some(*random.pick(&[0, 1, 127, 128, 255])),
        _ if keys.is_empty() => Some(random.byte()),
        _ => {
            let key = random.pick(keys);
            Some(*random.pick(key))
        }
    }
}

/// A buffer's length: most often about the end of an entry, or of all.
fn room(random: &mut Random, held: &Held, asked: &Asked) -> usize {
    let Some(entries) = held.refusal().is_none().then(|| held.state().entries(asked)) else {
        return random.below(20);
    };
    let mut end = 0;
    let mut ends: Vec<usize> = vec![0];
    for entry in entries {
        end += LENGTH_BYTES + entry.len();
        ends.push(end);
    }
    let about = match random.below(4) {
        0 => end,
        1 => ends[ends.len().min(2) - 1],
        _ => *random.pick(&ends),
    };
    match random.below(5) {
        0 => about.saturating_sub(1),
        1 => about + 1,
        2 => about + random.below(12),
        _ => about,
    }
}

/// Listings of every sort over one frame after another.
pub fn listings(comparer: &mut Comparer, seed: u64, rounds: Rounds) -> Compared<()> {
    const LISTINGS: usize = 12;
    for round in rounds {
        comparer.begin(format!("listings of seed {seed}, round {round}"));
        let mut random = Random::new(seed.wrapping_mul(1_000_099).wrapping_add(round));
        let random = &mut random;
        let edition = comparer.edition();
        let held = some_frame(edition, random);
        let keys: Vec<Vec<u8>> = held.state().records().into_keys().collect();
        for _ in 0..LISTINGS {
            let prefix = prefix(edition, random, &keys);
            let start = start(edition, random, &keys);
            let delimiter = delimiter(random, &keys);
            let asked = Asked { prefix: &prefix, start: start.as_deref(), delimiter };
            let room = room(random, &held, &asked);
            let buffer = random.bytes(room);
            comparer.list(&held, &asked, &buffer)?;
        }
        let prefix = near_a_key(edition, random, &keys);
        let delimiter = delimiter(random, &keys);
        if prefix.len() <= edition.longest_key() {
            pages(comparer, random, &held, &prefix, delimiter)?;
            changing_pages(comparer, random, held, &prefix, delimiter)?;
        }
    }
    Ok(())
}

/// "Every matching name appears once over the pages": the last entry of a page
/// is the start key of the next.
fn pages(
    comparer: &mut Comparer,
    random: &mut Random,
    held: &Held,
    prefix: &[u8],
    delimiter: Option<u8>,
) -> Compared<()> {
    let all = held.state().entries(&Asked { prefix, start: None, delimiter });
    let mut listed: Vec<Vec<u8>> = Vec::new();
    let mut start: Option<Vec<u8>> = None;
    let mut least = 0;
    loop {
        let room = least + random.below(24);
        let asked = Asked { prefix, start: start.as_deref(), delimiter };
        let (page, entries) = comparer.list(held, &asked, &vec![0xEE; room])?;
        if page.number == BUFFER {
            // No entry is longer than a key.
            least = LENGTH_BYTES + comparer.edition().longest_key();
            continue;
        }
        start = entries.last().cloned().or(start);
        listed.extend(entries);
        least = 0;
        if page.more == 0 {
            break;
        }
    }
    if listed.iter().ne(all.iter()) {
        let (are, should) = (listed.len(), all.len());
        return comparer.differs(format!("pages list {are} names and not the {should} once each"));
    }
    Ok(())
}

/// Changes between the pages: "each page is right for the frame it saw".
fn changing_pages(
    comparer: &mut Comparer,
    random: &mut Random,
    mut held: Held,
    prefix: &[u8],
    delimiter: Option<u8>,
) -> Compared<()> {
    const PAGES: usize = 4;
    let mut start: Option<Vec<u8>> = None;
    for _ in 0..PAGES {
        let asked = Asked { prefix, start: start.as_deref(), delimiter };
        let room = random.from_to(LENGTH_BYTES + 1, 40);
        let (_, entries) = comparer.list(&held, &asked, &vec![0xEE; room])?;
        start = entries.last().cloned().or(start);
        let records: Records = held.state().records();
        let keys: Vec<Vec<u8>> = records.into_keys().collect();
        let (key, value) = (near_a_key(comparer.edition(), random, &keys), comparer.stamped(b""));
        comparer.put(&mut held, &key, value)?;
        if let Some(key) = (!keys.is_empty()).then(|| random.pick(&keys)) {
            comparer.erase(&mut held, key)?;
        }
    }
    Ok(())
}
