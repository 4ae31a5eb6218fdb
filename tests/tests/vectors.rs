//! W1 to W11, the lengths and children that document 01 lists under "Run and
//! compared", and puts, replacements, listings, batches, wiped bytes, chains, bytes 0
//! and stamps of document 02, told step by step: the number given and U, B, R and X
//! after it, what is listed, or bytes of a packed image. The exported calls and the
//! second store are held to the stored lines, and these to the figures that document
//! 01 and docs/FORMAT.md print.

use second_store::batch::laid;
use second_store::compare::{Calls, Second};
use second_store::exported::Exported;
use second_store::layout::{
    get16, get32, get_entry, Edition, Kind, AT_B, AT_R, AT_ROOT, AT_U, AT_X, LISTS, UNIT,
};
use second_store::names::{Asked, Page};
use second_store::store::Found;
use second_store::trees::Change;
use second_store::value::{Given, Value};
use std::fmt::Write;

const STORED: &str = include_str!("../vectors.txt");

const SMALL: (usize, usize) = (1_024, 8);
const LARGE: (usize, usize) = (524_288, 10_240);
const WIDE: (usize, usize) = (16_384, 100);
const LONG: usize = 65_536;
const MOST_CHILDREN: u8 = 49;

/// The figures of "Worked frames": a step, and what its line begins with.
const PRINTED: [&str; 16] = [
    "W1 format: 0 U 1 B 104 ",
    "W2 put a=1: 0 U 2 B 128 ",
    "W3 put b=2: 0 U 4 B 176 ",
    "W4 put ab=3: 0 U 6 B 224 ",
    "W5 put ac=4: 0 U 7 B 248 ",
    "W6 pack W5: 0 U 6 B 240 ",
    "W6 entry 1: 524300",
    "W6 entry 3: 131090",
    "W7 W5, put ad=5: 0 U 8 B 272 ",
    "W8 put ae=6: 6 U 8 B 272 ",
    "W9 W5, erase ab: 0 U 7 B 248 R 3 X 8",
    "W9 put ad=5: 0 U 7 B 256 ",
    "W10 erase x: 0 U 7 B 352 R 2 X 8",
    "W11 put fw: 0 U 2 B 73824 ",
    "value of 65536: 5 ",
    "key of 113: 3 ",
];

/// What document 02 says of a put and a replacement: a step, and its number.
const TOLD_BY_Q5: [&str; 8] = [
    "Q-5 put a=2: 11 ",
    "Q-5 replace b=2: 8 ",
    "Q-5 replace a=2: 9 ",
    "Q-5 put a of 65536: 5 ",
    "Q-5 replace b of 65536: 5 ",
    "Q-5 replace a of 895: 6 ",
    "Q-5 put a of 895: 11 ",
    "Q-5 replace b of 895: 8 ",
];

/// And of what is freed: it is nowhere in the frame, and a frame in which
/// something is left is taken by one call alone.
const TOLD_BY_Q3: [&str; 6] = [
    "Q-3 replace pin=-: 9 ",
    "  of hunter2! 0, of nobody 1",
    "Q-3 erase user: 0 ",
    "  of hunter2! 0, of nobody 0",
    "Q-3 nothing left: check 0, pack 0, pack by the old rule 0",
    "Q-3 a byte left: check 2, pack 2, pack by the old rule 0",
];

/// And of chains, worked by hand.
const TOLD_BY_Q7: [&str; 13] = [
    "Q-7 put 199 k and 1: 0 U 2 B 360 R 1 X 0 ",
    "Q-7 put 199 k and 2: 0 U 6 B 864 R 2 X 0 freed Prefixes 0",
    "Q-7 erase 199 k and 1: 0 U 6 B 864 R 1 X 208 freed Prefixes 2",
    "Q-7 put 112 k and x: 0 U 8 B 1024 R 3 X 0 freed Prefixes 0",
    "Q-7 225 bytes, cut at 0: 0 ",
    // EmptyRoot, two Leaves, a Node4 and three Prefixes; a Leaf and a Node4 more
    "  put two: 0 U 7 ",
    "  cut: 0 U 9 ",
    "Q-7 put 255 bytes 0: 0 ",
    "Q-7 put 256 bytes 0: 3 ",
    "Q-1 list '\\x00' after none by \\x00 in 60: 0 ",
    "Q-7 put 2 bytes 0: 0 ",
    "Q-7 erase 255 bytes 0: 0 ",
    "Q-7 put 1 bytes 0: 0 U 2 ",
];

/// And of stamps: those of 1,700,000,000 are docs/FORMAT.md's.
const TOLD_BY_Q8: [&str; 14] = [
    "Q-8 put a=1, stamp 1234605616436508552: 0 U 2 B 128 R 1 X 0 told 1234605616436508552",
    "  at 96: 70 00 00 00 01 00 01 00",
    "  at 104: 88 77 66 55 44 33 22 11",
    "  at 112: 61 31 00 00 00 00 00 00",
    "Q-8 put a=2, stamp 1: 11 U 2 B 128 R 1 X 0 told 1234605616436508552",
    "Q-8 replace a=2, stamp 1: 9 U 2 B 128 R 1 X 0 told 1",
    "Q-8 replace a=2, stamp 0: 9 U 2 B 128 R 1 X 0 told 0",
    "Q-8 replace a=23, stamp 18446744073709551615: 9 U 2 B 136 R 1 X 8 told 18446744073709551615",
    "Q-8 replace a of 895, stamp 1: 6 U 2 B 136 R 1 X 8 told 18446744073709551615",
    "Q-8 replace b=2, stamp 1: 8 U 2 B 136 R 1 X 8 told 0",
    "  at 384: 00 f1 53 65 00 00 00 00",
    "  at 520: 01 00 00 00 00 00 00 00",
    "Q-8 batch of 47 bytes, put a=1, erase a: 0 U 1 B 104 R 0 X 0 place 0 answers [0, 0]",
    "  stamps of a 1700000000, of b 18446744073709551615",
];

/// Children and the kind they are kept in, on the way up and down.
const UP: [(u8, usize); 6] = [(4, 4), (5, 5), (16, 5), (17, 6), (48, 6), (49, 7)];
const DOWN: [(u8, usize); 6] = [(38, 7), (37, 6), (13, 6), (12, 5), (4, 5), (3, 4)];

struct Told<'a> {
    calls: &'a dyn Calls,
    text: String,
}

impl Told<'_> {
    fn counts(&mut self, given: u32, frame: &[u8]) {
        let [u, b, r, x] = [AT_U, AT_B, AT_R, AT_X].map(|at| get32(frame, at));
        write!(self.text, ": {given} U {u} B {b} R {r} X {x}").expect("a text takes more");
    }

    fn line(&mut self, step: &str, given: u32, frame: &[u8]) {
        self.text += step;
        self.counts(given, frame);
        self.text += "\n";
    }

    fn format(&mut self, step: &str, (f, n): (usize, usize)) -> Vec<u8> {
        let mut frame = vec![0; f];
        let given = self.calls.format(&mut frame, f, n);
        self.line(step, given, &frame);
        frame
    }

    fn put(&mut self, step: &str, frame: &mut [u8], key: &[u8], value: &[u8]) {
        let given = self.calls.put(frame, key, Value::plain(value));
        self.line(step, given, frame);
    }

    fn replace(&mut self, step: &str, frame: &mut [u8], key: &[u8], value: &[u8]) {
        let given = self.calls.replace(frame, key, Value::plain(value));
        self.line(step, given, frame);
    }

    fn erase(&mut self, step: &str, frame: &mut [u8], key: &[u8]) {
        let given = self.calls.erase(frame, key);
        self.line(step, given, frame);
    }

    fn look_up(&mut self, frame: &[u8], key: &[u8], expected: &[u8]) {
        let Found { number, place, length, slots, .. } = self.calls.look_up(frame, key);
        let value = &frame[place as usize..][..length as usize];
        let same = if value == expected { "the same" } else { "not the same" };
        let told = format!("{number} long {length} slots {slots} {same}");
        writeln!(self.text, "  looked up: {told}").expect("a text takes more");
    }

    fn children(&mut self, children: u8, given: u32, frame: &[u8]) {
        write!(self.text, "children {children}").expect("a text takes more");
        self.counts(given, frame);
        let kind = get_entry(frame, get16(frame, AT_ROOT)).1;
        writeln!(self.text, " kind {kind}").expect("a text takes more");
    }

    fn worked(&mut self) {
        let mut frame = self.format("W1 format", SMALL);
        self.put("W2 put a=1", &mut frame, b"a", b"1");
        self.put("W3 put b=2", &mut frame, b"b", b"2");
        self.put("W4 put ab=3", &mut frame, b"ab", b"3");
        self.put("W5 put ac=4", &mut frame, b"ac", b"4");
        let mut packed = vec![0; frame.len()];
        let given = self.calls.pack(&frame, &mut packed);
        self.line("W6 pack W5", given, &packed);
        for (slot, at) in [(1, 64), (3, 72)] {
            writeln!(self.text, "W6 entry {slot}: {}", get32(&packed, at)).expect("a text");
        }
        let mut other = frame.clone();
        self.put("W7 W5, put ad=5", &mut frame, b"ad", b"5");
        self.put("W8 put ae=6", &mut frame, b"ae", b"6");
        self.erase("W9 W5, erase ab", &mut other, b"ab");
        self.put("W9 put ad=5", &mut other, b"ad", b"5");
        let mut frame = self.format("W10 format", SMALL);
        self.put("W10 put x=1", &mut frame, b"x", b"1");
        self.put("W10 put ab=2", &mut frame, b"ab", b"2");
        self.put("W10 put ac=3", &mut frame, b"ac", b"3");
        self.erase("W10 erase x", &mut frame, b"x");
    }

    fn lengths(&mut self) {
        let value: Vec<u8> = (0..LONG).map(|i| (i % 251) as u8).collect();
        let mut frame = self.format("W11 format", LARGE);
        self.put("W11 put fw", &mut frame, b"fw", &value[..32_768]);
        for (key, length) in [(b"a", 32_767), (b"b", 32_768), (b"c", 65_535), (b"d", LONG)] {
            self.put(&format!("value of {length}"), &mut frame, key, &value[..length]);
            self.look_up(&frame, key, &value[..length]);
        }
        for length in [112, 113] {
            let key = vec![b'k'; length];
            self.put(&format!("key of {length}"), &mut frame, &key, b"v");
            self.look_up(&frame, &key, b"v");
        }
    }

    fn growth_and_shrinking(&mut self) {
        let mut frame = self.format("children 0", WIDE);
        for n in 1..=MOST_CHILDREN {
            let given = self.calls.put(&mut frame, &[n], Value::plain(b"v"));
            self.children(n, given, &frame);
        }
        for n in (1..=MOST_CHILDREN).rev() {
            let given = self.calls.erase(&mut frame, &[n]);
            self.children(n - 1, given, &frame);
        }
    }
}

///
impl Told<'_> {
    fn puts_and_replacements(&mut self) {
        let mut frame = self.format("Q-5 format", SMALL);
        self.put("Q-5 put a=1", &mut frame, b"a", b"1");
        self.put("Q-5 put a=2", &mut frame, b"a", b"2");
        self.replace("Q-5 replace b=2", &mut frame, b"b", b"2");
        self.replace("Q-5 replace a=2", &mut frame, b"a", b"2");
        self.look_up(&frame, b"a", b"2");
        self.replace("Q-5 replace a=23", &mut frame, b"a", b"23");
        self.look_up(&frame, b"a", b"23");
        self.put("Q-5 put a of 65536", &mut frame, b"a", &[b'v'; LONG]);
        self.replace("Q-5 replace b of 65536", &mut frame, b"b", &[b'v'; LONG]);
        self.replace("Q-5 replace a of 880", &mut frame, b"a", &[b'v'; 880]);
        self.replace("Q-5 replace a of 895", &mut frame, b"a", &[b'v'; 895]);
        self.put("Q-5 put a of 895", &mut frame, b"a", &[b'v'; 895]);
        self.replace("Q-5 replace b of 895", &mut frame, b"b", &[b'v'; 895]);
        self.put("Q-5 put b of 895", &mut frame, b"b", &[b'v'; 895]);
    }
}

/// A prefix, a start key, a delimiter, and the bytes of the buffer.
type Listing<'a> = (&'a [u8], Option<&'a [u8]>, Option<u8>, usize);

///
impl Told<'_> {
    fn list(&mut self, frame: &[u8], asked: Asked, room: usize) {
        let mut buffer = vec![0; room];
        let Page { number, count, more } = self.calls.list(frame, &asked, &mut buffer);
        let delimiter = asked.delimiter.map(|byte| vec![byte]);
        let [start, delimiter] = [asked.start, delimiter.as_deref()]
            .map(|text| text.map_or("none".to_string(), |text| text.escape_ascii().to_string()));
        let prefix = asked.prefix.escape_ascii();
        let step = format!("Q-1 list '{prefix}' after {start} by {delimiter} in {room}");
        write!(self.text, "{step}: {number} count {count} more {more}").expect("a text");
        let mut rest = &buffer[..];
        for _ in 0..count {
            let (entry, left) = rest[2..].split_at(get16(rest, 0));
            write!(self.text, " {}", entry.escape_ascii()).expect("a text takes more");
            rest = left;
        }
        self.text += "\n";
    }

    fn listings(&mut self) {
        let mut frame = self.format("Q-1 format", WIDE);
        for key in ["a", "a/b", "a/c", "ab", "b/x", "b/y", "c"] {
            self.put(&format!("Q-1 put {key}=v"), &mut frame, key.as_bytes(), b"v");
        }
        let asked: [Listing; 12] = [
            (b"", None, None, 12),
            (b"", Some(b"a/b"), None, 8),
            (b"", None, Some(b'/'), 18),
            (b"", Some(b"a/"), Some(b'/'), 18),
            (b"", Some(b"a/b"), Some(b'/'), 17),
            (b"a/", None, Some(b'/'), 18),
            (b"a", None, Some(b'/'), 18),
            (b"a", Some(b"b"), None, 18),
            (b"d", None, None, 0),
            (b"", None, None, 2),
            (b"", Some(b"a\0"), None, 18),
            (b"", Some(b""), None, 18),
        ];
        for (prefix, start, delimiter, room) in asked {
            self.list(&frame, Asked { prefix, start, delimiter }, room);
        }
    }
}

///
impl Told<'_> {
    /// On W2; told are the number and the place, the answers, and the counts of
    /// the first frame and of the second.
    fn batch(&mut self, step: &str, changes: &[Change]) {
        let mut first = vec![0; SMALL.0];
        let mut second = vec![0; SMALL.0];
        let mut answers = vec![0xEE; changes.len()];
        self.calls.format(&mut first, SMALL.0, SMALL.1);
        self.calls.put(&mut first, b"a", Value::plain(b"1"));
        let batch = laid(self.calls.edition(), changes, 0);
        let (given, place) = self.calls.batch(&mut first, &mut second, &batch, &mut answers);
        write!(self.text, "Q-6 batch of {} bytes, {step}", batch.len()).expect("a text");
        self.counts(given, &first);
        writeln!(self.text, " place {place} answers {answers:?}").expect("a text takes more");
        self.line("  second frame", given, &second);
    }

    fn batches(&mut self) {
        let value = |bytes: &[u8]| Value::plain(bytes.to_vec());
        let put = |key: &[u8], bytes: &[u8]| Change::Put { key: key.into(), value: value(bytes) };
        let replace =
            |key: &[u8], bytes: &[u8]| Change::Replace { key: key.into(), value: value(bytes) };
        let erase = |key: &[u8]| Change::Erase { key: key.into() };
        self.batch("none", &[]);
        self.batch("put a=2, put b=2", &[put(b"a", b"2"), put(b"b", b"2")]);
        self.batch("erase c, replace a=3", &[erase(b"c"), replace(b"a", b"3")]);
        self.batch("put b=2, erase nothing", &[put(b"b", b"2"), erase(b"")]);
        self.batch("put b of 65536", &[put(b"b", &[7; LONG])]);
    }
}

///
impl Told<'_> {
    /// How often the texts stand in the frame.
    fn texts(&mut self, frame: &[u8]) {
        let [pin, user] = [&b"hunter2!"[..], b"nobody"]
            .map(|text| frame.windows(text.len()).filter(|part| *part == text).count());
        writeln!(self.text, "  of hunter2! {pin}, of nobody {user}").expect("a text takes more");
    }

    /// What the check and both packings give; and the counts of what is packed.
    fn by_both_rules(&mut self, step: &str, frame: &[u8]) {
        let mut packed = [vec![0; frame.len()], vec![0; frame.len()]];
        let check = self.calls.check(frame);
        let pack = self.calls.pack(frame, &mut packed[0]);
        let before = self.calls.pack_before(frame, &mut packed[1]);
        let told = format!("check {check}, pack {pack}, pack by the old rule {before}");
        writeln!(self.text, "Q-3 {step}: {told}").expect("a text takes more");
        self.line("  packed by the old rule", before, &packed[1]);
    }

    fn wiped(&mut self) {
        let mut frame = self.format("Q-3 format", SMALL);
        self.put("Q-3 put pin=hunter2!", &mut frame, b"pin", b"hunter2!");
        self.put("Q-3 put user=nobody", &mut frame, b"user", b"nobody");
        self.texts(&frame);
        self.replace("Q-3 replace pin=-", &mut frame, b"pin", b"-");
        self.texts(&frame);
        self.erase("Q-3 erase user", &mut frame, b"user");
        self.texts(&frame);
        self.by_both_rules("nothing left", &frame);
        frame[SMALL.0 - 1] = 1;
        self.by_both_rules("a byte left", &frame);
        frame[AT_R] ^= 1;
        self.by_both_rules("a byte left, R wrong", &frame);
    }
}

///
impl Told<'_> {
    /// The number of a put in edition 2, the counts, and the freed Prefixes.
    fn chained(&mut self, step: &str, frame: &mut [u8], key: &[u8]) {
        let given = self.calls.put(frame, key, Value::plain(b"v"));
        self.text += step;
        self.counts(given, frame);
        self.prefixes(frame);
    }

    fn unchained(&mut self, step: &str, frame: &mut [u8], key: &[u8]) {
        let given = self.calls.erase(frame, key);
        self.text += step;
        self.counts(given, frame);
        self.prefixes(frame);
    }

    fn prefixes(&mut self, frame: &[u8]) {
        let (_, told) = self.calls.info(frame);
        let freed = told[told.len() - LISTS + Kind::Prefix.number() - 1];
        writeln!(self.text, " freed Prefixes {freed}").expect("a text takes more");
    }

    fn chains(&mut self) {
        let with = |shared: usize, last: &[u8]| [&[b'k'; 254][..shared], last].concat();
        let mut frame = self.format("Q-7 format", (4_096, 16));
        self.chained("Q-7 put 199 k and 1", &mut frame, &with(199, b"1"));
        self.chained("Q-7 put 199 k and 2", &mut frame, &with(199, b"2"));
        let mut other = frame.clone();
        self.unchained("Q-7 erase 199 k and 1", &mut other, &with(199, b"1"));
        self.chained("Q-7 put 112 k and x", &mut frame, &with(112, b"x"));
        let mut packed = vec![0; frame.len()];
        let given = self.calls.pack(&frame, &mut packed);
        self.line("Q-7 pack", given, &packed);
        for (shared, at) in [(225, 0), (225, 111), (225, 112), (224, 100), (113, 112)] {
            let mut frame = self.format(&format!("Q-7 {shared} bytes, cut at {at}"), (4_096, 16));
            self.chained("  put one", &mut frame, &with(shared, b"1"));
            self.chained("  put two", &mut frame, &with(shared, b"2"));
            self.chained("  cut", &mut frame, &with(at, b"-"));
            self.look_up(&frame, &with(shared, b"1"), b"v");
            self.unchained("  joined again", &mut frame, &with(at, b"-"));
        }
    }

    fn zeros(&mut self) {
        let zeros = [0; 256];
        let mut frame = self.format("Q-7 format for bytes 0", WIDE);
        for length in [1, 2, 255, 254, 256, 56, 57, 112, 113] {
            self.chained(&format!("Q-7 put {length} bytes 0"), &mut frame, &zeros[..length]);
            self.look_up(&frame, &zeros[..length], b"v");
        }
        let asked: [Listing; 4] = [
            (b"", None, None, 60),
            (&zeros[..2], Some(&zeros[..2]), None, 300),
            (b"\0", None, Some(0), 60),
            (&zeros, None, None, 60),
        ];
        for (prefix, start, delimiter, room) in asked {
            self.list(&frame, Asked { prefix, start, delimiter }, room);
        }
        for length in [2, 254, 56, 1, 255] {
            self.unchained(&format!("Q-7 erase {length} bytes 0"), &mut frame, &zeros[..length]);
        }
    }
}

///
impl Told<'_> {
    /// The number of a put or a replacement, the counts, and the stamp that a look-up
    /// of the key then tells.
    fn stamped(&mut self, step: &str, given: u32, frame: &[u8], (key, stamp): (&[u8], u64)) {
        write!(self.text, "Q-8 {step}, stamp {stamp}").expect("a text takes more");
        self.counts(given, frame);
        let told = self.calls.look_up(frame, key).stamp;
        writeln!(self.text, " told {told}").expect("a text takes more");
    }

    fn put_stamped(&mut self, step: &str, frame: &mut [u8], key: &[u8], value: Given) {
        let given = self.calls.put(frame, key, value);
        self.stamped(step, given, frame, (key, value.stamp));
    }

    fn replace_stamped(&mut self, step: &str, frame: &mut [u8], key: &[u8], value: Given) {
        let given = self.calls.replace(frame, key, value);
        self.stamped(step, given, frame, (key, value.stamp));
    }

    /// Of the packed image, the counts and the units at these places.
    fn packed_units(&mut self, frame: &[u8], places: impl IntoIterator<Item = usize>) {
        let mut packed = vec![0; frame.len()];
        let given = self.calls.pack(frame, &mut packed);
        self.line("Q-8 pack", given, &packed);
        for at in places {
            let unit = packed[at..at + UNIT].iter().map(|byte| format!(" {byte:02x}"));
            writeln!(self.text, "  at {at}:{}", unit.collect::<String>()).expect("a text");
        }
    }

    /// Records of docs/FORMAT.md have this stamp.
    const SINCE: u64 = 1_700_000_000;

    fn stamps(&mut self) {
        let value = |bytes: &'static [u8], stamp: u64| Value { bytes, stamp };
        let mut frame = self.format("Q-8 format", SMALL);
        let first = value(b"1", 0x1122_3344_5566_7788);
        self.put_stamped("put a=1", &mut frame, b"a", first);
        self.packed_units(&frame, (96..120).step_by(UNIT));
        self.put_stamped("put a=2", &mut frame, b"a", value(b"2", 1));
        self.replace_stamped("replace a=2", &mut frame, b"a", value(b"2", 1));
        self.replace_stamped("replace a=2", &mut frame, b"a", value(b"2", 0));
        self.replace_stamped("replace a=23", &mut frame, b"a", value(b"23", u64::MAX));
        self.replace_stamped("replace a of 895", &mut frame, b"a", value(&[b'v'; 895], 1));
        self.replace_stamped("replace b=2", &mut frame, b"b", value(b"2", 1));
        self.put_stamped("put b=2", &mut frame, b"b", value(b"2", first.stamp));
        self.packed_units(&frame, (96..168).step_by(UNIT));
        let mut frame = self.format("Q-8 format for a chain", SMALL);
        let key = |last: &[u8]| [&[b'a'; 113][..], last].concat();
        self.put_stamped("put 113 a and x", &mut frame, &key(b"x"), value(b"1", Self::SINCE));
        self.put_stamped("put 113 a and y", &mut frame, &key(b"y"), value(b"2", 1));
        self.packed_units(&frame, [376, 384, 504, 512, 520, 640]);
    }

    /// The batch of docs/FORMAT.md, and one on records that have stamps.
    fn stamped_batches(&mut self) {
        let since = Self::SINCE.to_le_bytes();
        let put = [&[1, 0, 1, 0, 1, 0, 0, 0][..], &since, b"a1"].concat();
        let erase = [&[3, 0, 1, 0, 0, 0, 0, 0][..], &[0; 8], b"a"].concat();
        let head = [2, 0, 0, 0, 12, 0, 0, 0, 30, 0, 0, 0];
        let mut frame = self.format("Q-8 format for a batch", SMALL);
        self.stamped_batch("put a=1, erase a", &mut frame, &[&head[..], &put, &erase].concat());
        for (key, stamp) in [(b"a", 1), (b"b", u64::MAX)] {
            let given = self.calls.put(&mut frame, key, Value { bytes: b"0", stamp });
            self.line("Q-8 put", given, &frame);
        }
        // The value is as long as the one that is there; b is there.
        let replace = [&[2][..], &put[1..]].concat();
        let present = [&put[..16], b"b1"].concat();
        let step = "replace a=1, put b=1";
        self.stamped_batch(step, &mut frame, &[&head[..], &replace, &present].concat());
    }

    fn stamped_batch(&mut self, step: &str, frame: &mut [u8], batch: &[u8]) {
        let (mut second, mut answers) = (vec![0; frame.len()], [0xEE; 2]);
        let (given, place) = self.calls.batch(frame, &mut second, batch, &mut answers);
        write!(self.text, "Q-8 batch of {} bytes, {step}", batch.len()).expect("a text");
        self.counts(given, frame);
        writeln!(self.text, " place {place} answers {answers:?}").expect("a text takes more");
        let [a, b] = [b"a", b"b"].map(|key| self.calls.look_up(frame, key).stamp);
        writeln!(self.text, "  stamps of a {a}, of b {b}").expect("a text takes more");
    }
}

/// The calls of edition 1, and those of edition 2.
fn told(calls: &dyn Calls, second: &dyn Calls) -> String {
    let mut of_two = Told { calls: second, text: String::new() };
    of_two.chains();
    of_two.zeros();
    of_two.stamps();
    of_two.stamped_batches();
    told_of_one(calls) + &of_two.text
}

fn told_of_one(calls: &dyn Calls) -> String {
    let mut told = Told { calls, text: String::new() };
    told.worked();
    told.lengths();
    told.growth_and_shrinking();
    told.puts_and_replacements();
    told.listings();
    told.batches();
    told.wiped();
    told.text
}

#[test]
fn the_stored_lines_have_the_printed_figures() {
    let lines: Vec<&str> = STORED.lines().collect();
    let of_document_02 =
        TOLD_BY_Q5.into_iter().chain(TOLD_BY_Q3).chain(TOLD_BY_Q7).chain(TOLD_BY_Q8);
    for printed in PRINTED.into_iter().chain(of_document_02) {
        assert!(lines.iter().any(|line| line.starts_with(printed)), "no line {printed}");
    }
    let top = lines.iter().position(|line| line.starts_with("children 49: "));
    let top = top.expect("a line for the most children");
    for (part, expected) in [(&lines[..=top], UP), (&lines[top..], DOWN)] {
        for (children, kind) in expected {
            let start = format!("children {children}: 0 ");
            let line = part.iter().find(|line| line.starts_with(&start)).expect("a line");
            assert!(line.ends_with(&format!(" kind {kind}")), "{line}");
        }
    }
    for accepted in ["value of 32767", "value of 32768", "value of 65535", "key of 112"] {
        let start = format!("{accepted}: 0 ");
        assert!(lines.iter().any(|line| line.starts_with(&start)), "no line {start}");
    }
}

#[test]
fn the_calls_give_the_stored_lines() {
    let (second, exported) = (Edition::ALL.map(Second), Edition::ALL.map(Exported));
    let stores: [(&str, [&dyn Calls; 2]); 2] = [
        ("the second store", [&second[0], &second[1]]),
        ("exported", [&exported[0], &exported[1]]),
    ];
    for (of, [one, two]) in stores {
        let told = told(one, two);
        for (at, (told, stored)) in told.lines().zip(STORED.lines()).enumerate() {
            assert_eq!(told, stored, "{of}: line {at}");
        }
        assert_eq!(told, STORED, "{of}");
    }
}
