//! The figures that README and docs/USING.md give: what the settings of a
//! device take, in which frame they can be kept, and what of damage the check
//! does not notice. Whoever changes a figure here changes it there.

use second_store::check::read;
use second_store::compare::Calls;
use second_store::decode;
use second_store::exported::Exported;
use second_store::layout::number::{DONE, NO_ROOM, REPLACED};
use second_store::layout::{data_start, get32, number, Edition, Kind, AT_B, AT_N, AT_U};
use second_store::random::Random;
use second_store::slotless::bodies;
use second_store::value::Value;

type Setting = (Vec<u8>, Vec<u8>);

/// The figures are those of edition 1.
const EDITION: Edition = Edition::One;
const EXPORTED: Exported = Exported(EDITION);
const SEED: u64 = 1;
const LONGEST_VALUE: usize = 16;
const NET: [&str; 10] = [
    "address",
    "mask",
    "gateway",
    "dns.first",
    "dns.second",
    "mtu",
    "dhcp.start",
    "dhcp.end",
    "dhcp.lease",
    "enabled",
];

/// 500 settings with dotted names, 24 bytes of key and value each, as a modem
/// for many lines has them; shuffled.
fn settings() -> Vec<Setting> {
    let groups: [(&str, usize, &[&str]); 5] = [
        ("line", 24, &["rate", "profile", "vlan", "mode", "margin", "state", "loop", "since"]),
        ("subscriber", 40, &["name", "plan", "credit", "since", "voice", "pin"]),
        ("net", 4, &NET),
        ("wifi", 2, &["ssid", "key", "channel", "width", "power", "hidden", "country", "mode"]),
        ("firmware", 3, &["version", "size", "sum", "part"]),
    ];
    let mut random = Random::new(SEED);
    let mut settings = Vec::new();
    for (group, members, fields) in groups {
        for member in 0..members {
            for field in fields {
                let key = format!("{group}.{member}.{field}").into_bytes();
                settings.push((key, value(&mut random)));
            }
        }
    }
    settings.sort();
    Random::new(SEED).shuffle(&mut settings);
    settings
}

fn value(random: &mut Random) -> Vec<u8> {
    let length = random.from_to(1, LONGEST_VALUE);
    (0..length).map(|_| *random.pick(b"0123456789.:abcdef")).collect()
}

fn frame_of(f: usize, n: usize, settings: &[Setting]) -> Vec<u8> {
    let mut frame = vec![0; f];
    assert_eq!(EXPORTED.format(&mut frame, f, n), DONE);
    for (key, value) in settings {
        assert_eq!(EXPORTED.put(&mut frame, key, Value::plain(value)), DONE);
    }
    frame
}

fn packed(frame: &[u8]) -> Vec<u8> {
    let mut image = vec![0; frame.len()];
    assert_eq!(EXPORTED.pack(frame, &mut image), DONE);
    image
}

/// Slots and bytes of a packed frame: U, and what is given out from D on.
fn taken(image: &[u8]) -> (usize, usize) {
    (get32(image, AT_U), get32(image, AT_B) - data_start(get32(image, AT_N)))
}

fn text_of(settings: &[Setting]) -> usize {
    settings.iter().map(|(key, value)| key.len() + value.len()).sum()
}

/// Settings; the slots and bytes they take when packed; a frame for them.
const TABLE: [(usize, usize, usize, usize, usize); 5] = [
    (25, 38, 1_912, 3_072, 50),
    (50, 83, 4_432, 6_144, 100),
    (100, 170, 9_552, 13_312, 200),
    (250, 424, 23_520, 32_768, 500),
    (500, 774, 41_864, 58_368, 1_000),
];

/// The frames of the table also stand many changes, if what is dead is packed
/// away when there is no room.
#[test]
fn frames_for_dotted_settings() {
    const CHANGES: usize = 4;
    let all = settings();
    for (count, slots, bytes, f, n) in TABLE {
        let mut frame = frame_of(f, n, &all[..count]);
        assert_eq!(taken(&packed(&frame)), (slots, bytes), "{count} settings");
        let given_out = data_start(n) + bytes;
        assert!(n == 2 * count && 4 * f >= 5 * given_out, "{count} settings");
        assert!(slots <= n && given_out <= text_of(&all[..count]) + 85 * count, "{count} settings");
        let mut random = Random::new(SEED);
        let mut packings = 0;
        for turn in 0..count * CHANGES {
            let (key, _) = &all[turn % count];
            let value = value(&mut random);
            let mut given = EXPORTED.replace(&mut frame, key, Value::plain(&value));
            if given == NO_ROOM {
                frame = packed(&frame);
                packings += 1;
                given = EXPORTED.replace(&mut frame, key, Value::plain(&value));
            }
            assert_eq!(given, REPLACED, "{count} settings, change {turn}");
        }
        assert!((2..=4).contains(&packings), "{count} settings: {packings} packings");
    }
}

/// What the bytes of 500 settings go to.
#[test]
fn bodies_of_500_settings() {
    let image = packed(&frame_of(65_536, 1_500, &settings()));
    let reading = read(EDITION, &image).expect("the lengths agree");
    let state = decode::state(EDITION, &image, &reading);
    let counts = bodies(&state.tree);
    let of = |kind: Kind| (counts[kind.number()], counts[kind.number()] * kind.body_bytes());
    assert_eq!(of(Kind::Leaf), (500, 8_000));
    assert_eq!(of(Kind::Prefix), (81, 10_368));
    assert_eq!(of(Kind::Node4), (115, 2_760));
    assert_eq!(of(Kind::Node16), (78, 6_864));
    assert_eq!(text_of(&settings()), 12_049);
}

/// What the order of a name's parts does.
#[test]
fn what_varies_most_comes_last() {
    let lines = settings().into_iter().filter(|(key, _)| key.starts_with(b"line."));
    let named: Vec<Setting> = lines.collect();
    let turned = named.iter().map(|(key, value)| {
        let parts: Vec<&[u8]> = key.split(|byte| *byte == b'.').collect();
        ([parts[0], parts[2], parts[1]].join(&b'.'), value.clone())
    });
    let turned: Vec<Setting> = turned.collect();
    assert_eq!(named.len(), 192);
    assert_eq!(taken(&packed(&frame_of(65_536, 1_500, &named))), (290, 14_280));
    assert_eq!(taken(&packed(&frame_of(65_536, 1_500, &turned))), (228, 11_208));
}

/// No records need more: each but the first brings a Leaf, a Node4 and a
/// Prefix.
#[test]
fn the_worst_case_is_three_slots_a_record() {
    const COUNT: usize = 50;
    let key = |turn: usize| [b"x", "aa".repeat(turn).as_bytes(), b"b"].concat();
    let worst: Vec<Setting> = (0..COUNT).map(|turn| (key(turn), Vec::new())).collect();
    let extents: usize = worst.iter().map(|(key, _)| key.len().next_multiple_of(8)).sum();
    let most = (3 * COUNT - 2, COUNT * 16 + extents + (COUNT - 1) * (24 + 128));
    assert_eq!(taken(&packed(&frame_of(65_536, 1_500, &worst))), most);
}

/// Each single bit of a packed frame changed: noticed by the check, without
/// effect on the records, or other records in a good frame.
#[test]
fn the_check_does_not_notice_every_damage() {
    let image = packed(&frame_of(65_536, 1_500, &settings()));
    let (mut noticed, mut without_effect, mut other_records) = (0, 0, 0);
    let mut damaged = image.clone();
    for at in 0..image.len() {
        for bit in 0..8 {
            damaged[at] ^= 1 << bit;
            // Two good frames of one F and N pack alike only with the same records.
            match EXPORTED.check(&damaged) {
                DONE if packed(&damaged) == image => without_effect += 1,
                DONE => other_records += 1,
                _ => noticed += 1,
            }
            damaged[at] = image[at];
        }
    }
    println!("single bits of a packed frame of {} bytes with 500 settings:", image.len());
    println!("{noticed} noticed, {without_effect} without effect, {other_records} other records");
    assert_eq!((noticed, without_effect, other_records), (459_505, 14_584, 50_199));
}

/// Blank bytes hold no F: 1 and not 2, like a frame whose F was damaged.
#[test]
fn blank_bytes_are_answered_1() {
    for blank in [0, 0xFF] {
        assert_eq!(EXPORTED.check(&[blank; 2_048]), number::LENGTHS);
    }
    let mut frame = frame_of(2_048, 64, &settings()[..5]);
    frame[5] ^= 1;
    assert_eq!(EXPORTED.check(&frame), number::LENGTHS);
}
