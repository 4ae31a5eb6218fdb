//! What the list has calls for. Believed here: nothing but that these calls are worth making.
//!
//! A history does not know what its calls give: keys come from few enough that they meet again, and frames are tight enough that room
//! runs out. Which answers a run must have met stands in `ports/answers.txt`.

use crate::list::{
    Bytes, Edition, List, Names, Value, INFO_NUMBERS, LIST_NUMBERS, LONGEST_FRAME, LONGEST_VALUE,
    NO_DELIMITER,
};
use crate::random::Random;

const SHORTEST_FRAME: usize = 1_024;
const MOST_SLOTS: usize = 10_240;
const NONE: Value = Value { length: 0, seed: 1 };

/// How keys of one history look.
enum Keys {
    /// Any bytes of these, up to a length.
    Few { letters: &'static [u8], longest: usize },
    /// A long common beginning of one byte, cut anywhere, and a few bytes more.
    LongBeginning(u8),
    /// One or two bytes of all.
    Wide,
    /// As settings are called.
    Text,
}

impl Keys {
    fn key(&self, edition: Edition, random: &mut Random) -> Vec<u8> {
        match self {
            Keys::Few { letters, longest } => {
                let length = random.between(1, *longest);
                (0..length).map(|_| letters[random.below(letters.len())]).collect()
            }
            Keys::LongBeginning(byte) => {
                // In edition 2 about the ends of full Prefixes; a walked string has two bytes for a 0.
                let starts = match edition {
                    Edition::One => [0, 1, 20, 50, 51, 52, 100, 110, 111],
                    Edition::Two => [0, 1, 56, 57, 112, 113, 168, 224, 252],
                };
                let start = starts[random.below(9)];
                let mut key = vec![*byte; start];
                let more = random.between(1, 4).min(edition.longest_key() - start);
                key.extend((0..more).map(|_| byte + random.below(3) as u8));
                key
            }
            Keys::Wide => match random.below(8) {
                0 => vec![b'm'],
                1 => vec![random.key_byte()],
                _ => vec![b'm', random.key_byte()],
            },
            Keys::Text => {
                let group = random.pick(&["line", "profile", "subscriber", "firmware"]);
                let field = random.pick(&["rate", "mode", "margin", "name", "delay"]);
                format!("{group}.{}.{field}", random.below(12)).into_bytes()
            }
        }
    }
}

fn small_value(random: &mut Random) -> Value {
    let length = if random.one_in(4) { random.below(60) } else { random.below(9) };
    Value { length, seed: random.seed() }
}

/// Puts, replacements and erases at random, more to put or more to erase in turn, with look-ups, checks and packings between them.
fn history(list: &mut List, random: &mut Random, keys: &Keys, steps: usize) {
    let edition = list.edition();
    let too_long = vec![b'p'; edition.longest_key() + 1];
    let wide = matches!(keys, Keys::Wide);
    for step in 0..steps {
        let shrinking = step * 4 / steps % 2 == 1;
        let key = match random.below(60) {
            0 => random.pick::<[u8]>(&[b"", b"a\0b", &too_long, &[0; 200]]).to_vec(),
            _ => keys.key(edition, random),
        };
        if random.below(10) < if shrinking { 2 } else { 8 } {
            let value = if wide { NONE } else { small_value(random) };
            match random.below(3) {
                0 => list.put(&key, value),
                1 => list.replace(&key, value),
                _ => list.put_or_replace(&key, value),
            }
        } else {
            list.erase(&key);
        }
        match random.below(16) {
            0 => list.check(),
            4 => list.info(),
            5 => listing(list, random, &key),
            1 | 2 => list.look_up(&key),
            3 => {
                list.pack();
                if random.one_in(2) {
                    list.take_packed();
                }
            }
            _ => {}
        }
    }
    list.pack();
}

/// Names that begin as a key does, or all; after a key that may be there, or from the first; with a delimiter, one that no key has, or none.
fn listing(list: &mut List, random: &mut Random, key: &[u8]) {
    let cut = random.below(key.len() + 1);
    let start = random.pick::<[u8]>(&[b"a", b"line.1", b"m\x40", b"pppp", b"\xff"]);
    let names = Names {
        prefix: if random.one_in(2) { b"" } else { &key[..cut.min(list.edition().longest_key())] },
        start: (!random.one_in(3)).then_some(start),
        delimiter: [b'.'.into(), b'p'.into(), b'b'.into(), 0, NO_DELIMITER, u64::MAX]
            [random.below(6)],
    };
    list.list(names, [0, 2, 3, 9, 40, 700][random.below(6)]);
}

fn odd(random: &mut Random) -> [usize; 4] {
    [0; 4].map(|_| random.below(8))
}

/// Every refusal, alone and with others behind it in the order.
fn refusals(list: &mut List) {
    const F: usize = SHORTEST_FRAME;
    let long_key = list.edition().longest_key() + 1;
    let (too_long, zeros) = (vec![b'k'; long_key], vec![0; long_key]);
    list.scene("refusals", [0; 4], F);
    let frame = list.frame();
    let long = |length: usize| Bytes { at: frame.at, length };
    let high = 1_u64 << 32;
    for (f, n) in [
        (F as u64, 8),
        (F as u64, 7),
        (F as u64, 9),
        (F as u64, 6),
        (F as u64, 238),
        (F as u64, 240),
        (F as u64, 0),
        (F as u64 + 8, 8),
        (0, 8),
        (F as u64, u64::MAX),
        (u64::MAX, 8),
        // Lengths have 64 bits where a pointer has 32.
        (F as u64 + high, 8),
        (F as u64, 8 + high),
        (high, high),
        (F as u64, 8 + (1 << 63)),
    ] {
        list.format_of(frame, f, n);
    }
    for length in [0, 8, 64, 1_016, 1_023, 1_025, 1_032, 32_767, 32_768, 65_535, LONGEST_FRAME] {
        list.format_of(long(length), length as u64, 8);
        list.format(8);
        list.keep();
        list.check_of(long(length));
        list.info_of(long(length), INFO_NUMBERS);
        list.look_up_of(long(length), b"", list.edition().look_up_numbers());
        let names = Names { prefix: &too_long, start: Some(b""), delimiter: NO_DELIMITER };
        list.list_of(long(length), names, 0, LIST_NUMBERS);
        list.put_of(long(length), b"", Value { length: LONGEST_VALUE + 1, seed: 5 });
        list.replace_of(long(length), b"", Value { length: LONGEST_VALUE + 1, seed: 5 });
        list.erase_of(long(length), b"a\0");
        let out = list.out(8);
        list.pack_of(long(length), out);
        list.pack_before_of(long(length), out);
    }
    list.format(8);
    list.put(b"a", Value { length: 3, seed: 7 });
    list.keep();
    let refused: [&[u8]; 6] = [b"", &too_long, &zeros, b"\0", b"a\0", b"\0a"];
    for key in refused {
        list.every_call(key, Value { length: LONGEST_VALUE + 1, seed: 9 });
    }
    for length in [LONGEST_VALUE + 1, LONGEST_VALUE, 32_768, 32_767, 1_000] {
        list.put(b"b", Value { length, seed: 11 });
        list.replace(b"a", Value { length, seed: 11 });
    }
    for numbers in [0, 1, 2, 3, 4, 5] {
        list.look_up_of(frame, b"a", numbers);
        list.look_up_of(frame, b"b", numbers);
    }
    for numbers in [0, 1, 2, 3] {
        for (start, buffer) in [(None, 2), (None, 3), (Some(&b"a"[..]), 0), (Some(b"a\0"), 9)] {
            list.list_of(frame, Names { prefix: b"", start, delimiter: 0 }, buffer, numbers);
        }
    }
    for numbers in [0, 1, INFO_NUMBERS - 1, INFO_NUMBERS, INFO_NUMBERS + 1] {
        list.info_of(frame, numbers);
    }
    for length in [0, 8, 1_023, 1_025, 1_032] {
        let out = list.out(length);
        list.pack_of(frame, out);
        list.pack_before_of(frame, out);
    }
    // Not good, with all that comes later in the order.
    list.flip(4, 1);
    list.keep();
    for key in refused {
        list.every_call(key, Value { length: LONGEST_VALUE + 1, seed: 13 });
    }
}

fn histories(list: &mut List) {
    let mut random = Random::new(1);
    for (name, keys, f, n, steps) in [
        ("history, two letters", Keys::Few { letters: b"ab", longest: 6 }, 4_096, 100, 1_500),
        ("history, three letters", Keys::Few { letters: b"abc", longest: 40 }, 8_192, 64, 400),
        ("history, long beginnings", Keys::LongBeginning(b'p'), 8_192, 100, 1_000),
        ("history, wide nodes", Keys::Wide, 16_384, 700, 3_000),
        (
            "history, low and high bytes",
            Keys::Few { letters: b"a\xff\x01", longest: 3 },
            1_024,
            20,
            600,
        ),
        ("history, settings", Keys::Text, 16_384, 600, 3_000),
        ("history, 65,536 bytes", Keys::Text, 65_536, 2_000, 200),
    ] {
        let odd = odd(&mut random);
        list.scene(name, odd, f);
        list.format(n);
        history(list, &mut random, &keys, steps);
    }
}

/// Frames in which slots or bytes run out, at every distance from a multiple of 8.
fn tight(list: &mut List) {
    for round in 0..32 {
        let mut random = Random::new(100 + round as u64);
        let n = [8, 10, 12, 16, 20, 40, 200, 230][round / 4];
        let keys = match round % 4 {
            0 => Keys::Few { letters: b"ab", longest: 4 },
            1 => Keys::LongBeginning(b'p'),
            2 => Keys::Few { letters: b"abcdefghijklmnopqrstuvwxyz", longest: 1 },
            _ => Keys::Few { letters: b"xyz", longest: 12 },
        };
        let at = round % 8;
        list.scene("tight", [at, (at + 3) % 8, (at + 5) % 8, (at + 7) % 8], SHORTEST_FRAME);
        list.format(n);
        history(list, &mut random, &keys, 110);
    }
}

/// One node through every kind, up and down, in both orders of bytes.
fn kinds(list: &mut List) {
    list.scene("kinds", [1, 2, 3, 4], 16_384);
    list.format(600);
    for byte in 1..=255_u8 {
        list.put(&[b'n', byte], NONE);
    }
    list.pack();
    for byte in (1..=255_u8).rev() {
        list.erase(&[b'n', byte]);
        if byte % 16 == 5 {
            list.check();
            list.info();
            list.look_up(&[b'n', byte - 1]);
        }
    }
}

/// Values of 32,767, 32,768 and 65,535 bytes and beside, in frames that hold several, one or none; the longest keys.
fn long_values(list: &mut List) {
    const LENGTHS: [usize; 7] = [32_766, 32_767, 32_768, 32_769, 65_534, 65_535, 65_536];
    let longest = list.edition().longest_key();
    for (f, at) in [(LONGEST_FRAME, 0), (32_896, 3), (65_664, 5)] {
        list.scene("long values", [at, at / 2, at + 1, at + 2], f);
        list.format(16);
        for (place, length) in LENGTHS.into_iter().enumerate() {
            let key = vec![b'k'; if place % 2 == 0 { 1 } else { longest }];
            list.put_or_replace(&key, Value { length, seed: 17 + length as u32 });
            list.look_up(&key);
        }
        list.check();
        list.pack();
        list.take_packed();
        list.put_or_replace(b"k", Value { length: 32_768, seed: 19 });
        list.erase(&vec![b'k'; longest]);
        list.put_or_replace(b"k", Value { length: 32_768, seed: 23 });
        list.look_up(b"k");
        list.erase(b"k");
    }
}

/// The longest frame with the most slots.
fn longest(list: &mut List) {
    let mut random = Random::new(3);
    list.scene("the longest frame", [0, 1, 2, 3], LONGEST_FRAME);
    list.format(MOST_SLOTS);
    history(list, &mut random, &Keys::Text, 24);
    list.format(MOST_SLOTS + 2);
    list.check();
}

/// A change of a batch: its kind, key and value.
struct Change {
    kind: u16,
    key: Vec<u8>,
    value: usize,
}

/// The changes as a batch of the list's edition, with a gap of so many bytes before each.
fn laid_out(list: &mut List, changes: &[Change], gap: usize) -> Vec<u8> {
    let mut batch = (changes.len() as u32).to_le_bytes().to_vec();
    batch.resize(4 + 4 * changes.len(), 0);
    for (place, change) in changes.iter().enumerate() {
        batch.resize(batch.len() + gap, 0xEE);
        let at = (batch.len() as u32).to_le_bytes();
        batch[4 + 4 * place..8 + 4 * place].copy_from_slice(&at);
        batch.extend(change.kind.to_le_bytes());
        batch.extend((change.key.len() as u16).to_le_bytes());
        batch.extend((change.value as u32).to_le_bytes());
        if list.edition() == Edition::Two {
            batch.extend(list.stamp().to_le_bytes());
        }
        batch.extend(&change.key);
        batch.extend((0..change.value).map(|byte| byte as u8));
    }
    batch
}

/// Batches in frames in which room runs out, with refused changes among them; batches with bytes changed, and cut.
fn batches(list: &mut List) {
    let mut random = Random::new(7);
    let keys = Keys::Few { letters: b"abc", longest: 3 };
    list.scene("batches", [1, 3, 5, 7], SHORTEST_FRAME);
    list.format(30);
    for round in 0..120 {
        let count = random.below(12);
        let changes: Vec<Change> = (0..count)
            .map(|_| {
                let key = match random.one_in(40) {
                    true => Vec::new(),
                    false => keys.key(list.edition(), &mut random),
                };
                let longest = if random.one_in(8) { 200 } else { 12 };
                Change { kind: random.between(1, 3) as u16, key, value: random.below(longest) }
            })
            .collect();
        let mut batch = laid_out(list, &changes, random.below(3));
        if round % 3 == 2 {
            let place = random.below(batch.len());
            batch[place] ^= 1 << random.below(8);
        }
        if round % 10 == 9 {
            batch.truncate(random.below(batch.len()));
        }
        list.batch(&batch, random.below(16));
        if round % 30 == 29 {
            list.pack();
            list.take_packed();
        }
    }
    let batch = laid_out(list, &[Change { kind: 1, key: b"one".to_vec(), value: 1 }], 0);
    let frame = list.frame();
    list.batch_of(frame, SHORTEST_FRAME + 8, &batch, 1);
    list.batch_of(frame, SHORTEST_FRAME, &[0xFF; 40], 1);
    list.batch_of(Bytes { at: frame.at, length: SHORTEST_FRAME - 8 }, 0, &[], 0);
    list.flip(20, 64);
    list.batch_of(frame, SHORTEST_FRAME, &batch, 1);
}

const SMALL: [&[u8]; 6] = [b"long", b"lose", b"loss", b"lost", b"l", b"m"];

/// Frames from before freed bytes were wiped: more and more of what nothing uses is not zero. What is packed of one takes changes.
fn before(list: &mut List) {
    list.scene("before", [3, 6, 1, 2], SHORTEST_FRAME);
    list.format(20);
    for key in SMALL {
        list.put(key, Value { length: 1, seed: 67 });
    }
    list.erase(b"loss");
    list.replace(b"long", Value { length: 9, seed: 71 });
    for place in [1_023, 1_016, 1_000, 800, 600] {
        list.flip(place, 0x80);
        list.check();
        list.pack();
        list.put(b"loss", Value { length: 1, seed: 73 });
        list.pack_before();
    }
    list.take_packed();
    list.check();
    list.put(b"loss", Value { length: 1, seed: 73 });
    list.pack_before();
}

/// A good frame with one byte changed, and each call on it.
fn damaged(list: &mut List) {
    list.scene("damaged, 1,024 bytes", [5, 1, 0, 0], SHORTEST_FRAME);
    list.format(20);
    for key in SMALL {
        list.put(key, Value { length: 1, seed: 29 });
    }
    list.erase(b"loss");
    list.erase(b"m");
    list.keep();
    let mut random = Random::new(4);
    for place in 0..440 {
        let masks: &[u8] = if place < 64 { &[1, 0x80] } else { &[1] };
        for mask in masks {
            list.flip(place, *mask);
            list.every_call(b"lost", Value { length: 2, seed: 31 });
        }
    }
    list.scene("damaged, every kind", [2, 0, 1, 1], 8_192);
    list.format(200);
    for byte in 1..=60_u8 {
        list.put(&[b'n', byte], Value { length: 2, seed: 37 });
        if byte <= 30 {
            list.put(&[b'o', b'o', byte], NONE);
        }
        if byte <= 10 {
            list.put(&[b'p', byte, byte], NONE);
        }
    }
    for byte in 1..=8_u8 {
        list.erase(&[b'n', byte]);
    }
    list.keep();
    for _ in 0..200 {
        for _ in 0..random.between(1, 3) {
            let place = if random.one_in(4) { random.below(864) } else { random.below(8_192) };
            list.flip(place, 1 << random.below(8));
        }
        list.every_call(&[b'n', 40], Value { length: 3, seed: 41 });
    }
}

/// Bytes of any kind.
fn any_bytes(list: &mut List) {
    let mut random = Random::new(5);
    for round in 0..24 {
        let length = if round % 3 == 0 { random.below(200) } else { random.between(128, 400) * 8 };
        list.scene("any bytes", odd(&mut random), length);
        if round % 3 == 2 {
            // A header that could be one: the edition and F.
            let at = list.frame().at;
            list.set(at, &(list.edition() as u32).to_le_bytes());
            list.set(at + 4, &(length as u32).to_le_bytes());
        }
        list.keep();
        list.every_call(b"key", Value { length: 5, seed: 43 });
    }
}

/// What the machines are compared by.
pub fn all(list: &mut List) {
    for edition in [Edition::One, Edition::Two] {
        list.begin(edition);
        refusals(list);
        histories(list);
        tight(list);
        kinds(list);
        long_values(list);
        longest(list);
        batches(list);
        damaged(list);
        any_bytes(list);
        match edition {
            Edition::One => before(list),
            Edition::Two => chains(list),
        }
    }
    list.scene("the end", [0; 4], 8);
}

/// Shared beginnings of edition 2 that take several Prefixes: of bytes 0, and of a letter; with room, and without. Then calls of edition 1 on what
/// they left.
fn chains(list: &mut List) {
    let mut random = Random::new(8);
    for (f, n, steps) in [(32_768, 300, 1_200), (4_096, 60, 300), (2_048, 24, 200)] {
        for byte in [0, b'q'] {
            let odd = odd(&mut random);
            list.scene("chains", odd, f);
            list.format(n);
            history(list, &mut random, &Keys::LongBeginning(byte), steps);
        }
    }
    list.keep();
    list.begin(Edition::One);
    list.every_call(b"q", NONE);
    list.pack_before();
    list.begin(Edition::Two);
}

/// Trees as deep as a key is long: other keys leave the longest one after each byte, so that there is a node at each of its bytes.
pub fn deepest(list: &mut List) {
    const LONGEST_KEY: usize = Edition::One.longest_key();
    const DOWN: u8 = b'z';
    list.begin(Edition::One);
    // Children of each node, how many bytes from one to the next, and how many nodes are so wide; all after them have two.
    for (children, distance, wide) in
        [(2, 1, 112), (2, 2, 56), (5, 1, 112), (17, 1, 112), (49, 1, 30)]
    {
        list.scene("deepest", [0; 4], LONGEST_FRAME);
        list.command("write answers");
        list.format(MOST_SLOTS);
        list.put(&[DOWN; LONGEST_KEY], NONE);
        for node in 0..LONGEST_KEY / distance {
            for byte in 1..if node < wide { children } else { 2 } {
                let mut key = vec![DOWN; (node + 1) * distance - 1];
                key.push(byte);
                list.put(&key, NONE);
            }
        }
        let mut aside = vec![DOWN; LONGEST_KEY - 1];
        aside.push(children);
        calls_on_the_deepest(list, &[DOWN; LONGEST_KEY], &aside);
    }
    deepest_of_edition_2(list);
}

/// In edition 2 the walked string of bytes 0 is twice as long: keys of bytes 0 leave it at every second byte, and others between them.
fn deepest_of_edition_2(list: &mut List) {
    const LONGEST_KEY: usize = Edition::Two.longest_key();
    list.begin(Edition::Two);
    list.scene("deepest, edition 2", [0; 4], LONGEST_FRAME);
    list.command("write answers");
    list.format(MOST_SLOTS);
    for length in 1..=LONGEST_KEY {
        list.put(&vec![0; length], NONE);
        let mut other = vec![0; length - 1];
        other.push(1);
        list.put(&other, NONE);
    }
    let mut aside = vec![0; LONGEST_KEY - 1];
    aside.push(2);
    calls_on_the_deepest(list, &[0; LONGEST_KEY], &aside);
}

fn calls_on_the_deepest(list: &mut List, key: &[u8], aside: &[u8]) {
    list.command("write stack");
    list.check();
    list.info();
    list.look_up(key);
    list.look_up(&key[1..]);
    list.list(Names { prefix: b"", start: None, delimiter: NO_DELIMITER }, 4_096);
    list.list(Names { prefix: &key[..1], start: Some(&key[..100]), delimiter: 1 }, 4_096);
    list.pack();
    list.pack_before();
    list.put(aside, NONE);
    list.replace(key, Value { length: 1, seed: 47 });
    list.erase(aside);
    list.erase(key);
    list.erase(key);
}

/// Each call many times over on one frame of settings, for its time.
pub fn times(list: &mut List) {
    for edition in [Edition::One, Edition::Two] {
        list.begin(edition);
        let mut random = Random::new(6);
        list.scene("times", [0; 4], 16_384);
        list.command("write answers");
        list.format(600);
        for _ in 0..200 {
            list.put(&Keys::Text.key(edition, &mut random), Value { length: 8, seed: 53 });
        }
        list.pack();
        list.take_packed();
        list.put(b"line.rate", Value { length: 8, seed: 59 });
        list.keep();
        list.command("write time");
        for _ in 0..200 {
            list.check();
            list.info();
            list.look_up(b"line.rate");
            list.list(Names { prefix: b"", start: None, delimiter: NO_DELIMITER }, 1_000);
            list.put(b"line.rates", Value { length: 8, seed: 61 });
            list.replace(b"line.rate", Value { length: 8, seed: 61 });
            list.erase(b"line.rate");
            list.restore();
            list.pack();
            list.pack_before();
        }
        for _ in 0..200 {
            list.format(600);
        }
    }
}
