//! Every answer of every call, through the safe calls.
#![forbid(unsafe_code)]

use frame_store::{
    check, check2, Batch, Batch2, Edition, Edition1, Edition2, Entry, Erase, Frame, Frame2, Full,
    Info, Lack, Page, Put, Record, Refusal, Replace, Stopped, View, View2,
};

const F: usize = 1_024;
const N: usize = 8;

fn empty(bytes: &mut [u8]) -> Frame<&mut [u8]> {
    Frame::format(bytes, N).expect("F and N are within the limits")
}

#[test]
fn format_and_open() {
    let mut bytes = [7; F];
    assert_eq!(Frame::open(&mut bytes).err(), Some(Refusal::Length));
    assert_eq!(Frame::format(&mut bytes, N + 1).err(), Some(Refusal::Length));
    assert_eq!(Frame::format(&mut bytes[..F - 8], N).err(), Some(Refusal::Length));
    assert_eq!(bytes, [7; F], "a refused call changes nothing");
    empty(&mut bytes);
    assert_eq!(check(&bytes), Ok(()));
    assert_eq!(check(&bytes[..F - 8]), Err(Refusal::Length));
    assert!(Frame::open(&mut bytes).is_ok());
    assert_eq!(check(&no_good_frame()), Err(Refusal::Frame));
    assert_eq!(View::open(&no_good_frame()).err(), Some(Refusal::Frame));
    assert_eq!(check(&[0; F]), Err(Refusal::Length), "blank bytes hold no F");
    assert_eq!(check(&[0xFF; F]), Err(Refusal::Length), "blank flash holds no F");
}

#[test]
fn put_replace_look_up_and_erase() -> Result<(), Refusal> {
    let mut bytes = [0; F];
    let mut frame = empty(&mut bytes);
    assert_eq!(frame.put(b"a", b"1")?, Put::New);
    assert_eq!(frame.put(b"ab", b"")?, Put::New);
    let before = frame.bytes().to_vec();
    assert_eq!(frame.put(b"a", b"11")?, Put::Present);
    assert_eq!(frame.replace(b"b", b"2")?, Replace::Absent);
    assert_eq!(frame.bytes(), before, "neither changes a byte");
    assert_eq!(frame.replace(b"a", b"11")?, Replace::Done);
    assert_eq!(frame.look_up(b"a")?, Some(&b"11"[..]));
    assert_eq!(frame.look_up(b"ab")?, Some(&b""[..]));
    assert_eq!(frame.look_up(b"b")?, None);
    let place = frame.place(b"a")?.expect("the key is there");
    assert_eq!(&frame.bytes()[place], b"11");
    assert_eq!(frame.place(b"b")?, None);
    assert_eq!(frame.erase(b"b")?, Erase::Absent);
    assert_eq!(frame.erase(b"a")?, Erase::Done);
    assert_eq!(frame.look_up(b"a")?, None);
    assert_eq!(frame.erase(b"ab")?, Erase::Done);
    let mut fresh = [1; F];
    empty(&mut fresh);
    assert_eq!(frame.into_bytes(), &fresh[..], "the last erase leaves what format leaves");
    Ok(())
}

#[test]
fn visits_are_the_slots_on_the_way() -> Result<(), Refusal> {
    let mut frame = Frame::format([0; F], N)?;
    assert_eq!(frame.visits(b"a")?, 1, "the EmptyRoot");
    frame.put(b"a", b"1")?;
    assert_eq!((frame.visits(b"a")?, frame.visits(b"b")?), (1, 1), "the Leaf");
    frame.put(b"b", b"2")?;
    assert_eq!((frame.visits(b"a")?, frame.visits(b"c")?), (2, 1));
    frame.put(b"ab", b"3")?;
    assert_eq!(frame.visits(b"a")?, 3, "no look-up of one byte visits more");
    assert_eq!((frame.visits(b"ac")?, frame.visits(b"abc")?), (2, 3));
    assert_eq!(frame.visits(b""), Err(Refusal::KeyLength));
    assert_eq!(frame.view().visits(b"\0"), Err(Refusal::KeyZero));
    Ok(())
}

/// A frame beside its bytes, which a device keeps as long as it runs.
#[derive(Debug)]
struct Device {
    settings: Frame<Box<[u8]>>,
}

#[test]
fn a_frame_stands_in_whatever_lends_bytes() -> Result<(), Refusal> {
    let mut array = Frame::format([0; F], N)?;
    array.put(b"a", b"1")?;
    let copied = array;
    array.replace(b"a", b"2")?;
    let packed = copied.pack(vec![0; F])?;
    let mut moved = Device { settings: packed.pack(vec![0; F].into_boxed_slice())? };
    moved.settings.put(b"b", b"3")?;
    let device = moved;
    assert_eq!(array.look_up(b"a")?, Some(&b"2"[..]));
    assert_eq!(packed.look_up(b"a")?, Some(&b"1"[..]));
    assert_eq!(device.settings.look_up(b"b")?, Some(&b"3"[..]));
    let stored: Vec<u8> = packed.into_bytes();
    assert_eq!(Frame::open(stored)?.erase(b"a")?, Erase::Done);
    assert_eq!(format!("{device:?}"), "Device { settings: Frame of 1024 bytes }");
    assert_eq!(format!("{:?}", device.settings.view()), "View of 1024 bytes");
    Ok(())
}

#[test]
fn bytes_that_were_not_looked_at_are_refused_by_each_call() {
    for (bytes, refusal) in [([7; F], Refusal::Length), (no_good_frame(), Refusal::Frame)] {
        let mut frame = Frame::over(bytes);
        assert_eq!(frame.put(b"a", b"1"), Err(refusal));
        assert_eq!(frame.replace(b"a", b"1"), Err(refusal));
        assert_eq!(frame.erase(b"a"), Err(refusal));
        assert_eq!(frame.look_up(b"a"), Err(refusal));
        assert_eq!(View::over(&bytes).place(b"a"), Err(refusal));
        assert_eq!(frame.visits(b"a"), Err(refusal));
        assert_eq!(frame.view().list(b"", None, None, &mut [0; 114]), Err(refusal));
        assert_eq!(frame.names(b"", &mut [0; 114]).next_entry(), Err(refusal));
        assert_eq!(frame.pack([0; F]).err(), Some(refusal));
        assert_eq!(frame.pack_before([0; F]).err(), Some(refusal));
        assert_eq!(frame.info(), Err(refusal));
        assert_eq!(frame.into_bytes(), bytes);
    }
}

/// Document 02's words in small: names, groups and what shares their letters.
const NAMES: [&[u8]; 7] = [b"a", b"a/b", b"a/c", b"ab", b"b/x", b"b/y", b"c"];

fn named() -> Result<Frame<[u8; F]>, Refusal> {
    let mut frame = Frame::format([0; F], 32)?;
    for name in NAMES.iter().rev() {
        frame.put(name, b"1")?;
    }
    Ok(frame)
}

#[test]
fn a_page_of_names() -> Result<(), Refusal> {
    let frame = named()?;
    let listed = |prefix: &[u8], start: Option<&[u8]>, delimiter, room: usize| {
        let mut buffer = [0xEE; 32];
        let page = frame.view().list(prefix, start, delimiter, &mut buffer[..room])?;
        let texts: Vec<Vec<u8>> =
            page.entries(&buffer, prefix, delimiter).map(|entry| entry.text().to_vec()).collect();
        let written = texts.iter().map(|text| 2 + text.len()).sum::<usize>();
        assert!(buffer[written..].iter().all(|byte| *byte == 0xEE), "nothing behind the entries");
        Ok((page, texts.join(&b' ')))
    };
    let page = |count, more| Page { count, more };
    for (prefix, start, delimiter, room, expected) in [
        (&b""[..], None, None, 12, Ok((page(2, true), &b"a a/b"[..]))),
        (b"", Some(&b"a/b"[..]), None, 8, Ok((page(1, true), b"a/c"))),
        (b"", None, Some(b'/'), 18, Ok((page(5, false), b"a a/ ab b/ c"))),
        (b"", Some(b"a/"), Some(b'/'), 18, Ok((page(3, false), b"ab b/ c"))),
        (b"", Some(b"a/b"), Some(b'/'), 18, Ok((page(3, false), b"ab b/ c"))),
        (b"a/", None, Some(b'/'), 18, Ok((page(2, false), b"a/b a/c"))),
        (b"a", Some(b"b"), None, 18, Ok((page(0, false), b""))),
        (b"d", None, None, 0, Ok((page(0, false), b""))),
        (b"", None, None, 2, Err(Refusal::Buffer)),
        (b"\0", None, None, 18, Ok((page(0, false), b""))),
        (&[b'a'; 113], Some(b"\0"), None, 18, Err(Refusal::KeyLength)),
        (b"", Some(b"a\0"), None, 18, Err(Refusal::KeyZero)),
        (b"", Some(b""), None, 18, Err(Refusal::KeyLength)),
    ] {
        let expected = expected.map(|(page, texts)| (page, texts.to_vec()));
        assert_eq!(listed(prefix, start, delimiter, room), expected);
    }
    Ok(())
}

#[test]
fn names_page_by_themselves() -> Result<(), Refusal> {
    let frame = named()?;
    for room in [5, 6, 8, 11, 64] {
        let mut buffer = vec![0; room];
        let mut names = frame.names(b"", &mut buffer);
        for name in NAMES {
            assert_eq!(names.next_entry()?, Some(Entry::Name(name)), "in {room} bytes");
        }
        assert_eq!(names.next_entry()?, None);
        assert_eq!(names.next_entry()?, None, "and none after that");
        let mut groups = frame.names(b"", &mut buffer).grouped(b'/').after(b"a");
        assert_eq!(groups.next_entry()?, Some(Entry::Group(b"a/")));
        assert_eq!(groups.next_entry()?, Some(Entry::Name(b"ab")));
        assert_eq!(groups.next_entry()?, Some(Entry::Group(b"b/")));
        assert_eq!(groups.next_entry()?, Some(Entry::Name(b"c")));
        assert_eq!(groups.next_entry()?, None);
    }
    assert_eq!(frame.names(b"a/", &mut [0; 4]).next_entry(), Err(Refusal::Buffer));
    Ok(())
}

#[test]
fn a_batch_is_made_whole_or_not_at_all() -> Result<(), Refusal> {
    let mut frame = Frame::format([0; F], N)?;
    frame.put(b"a", b"1")?;
    let before = frame;
    let (mut lent, mut second, mut answers) = ([0; 256], [7; F], [7; 5]);
    let mut batch = Batch::new(&mut lent, 4).expect("there is room");
    batch.put(b"a", b"2").expect("there is room");
    batch.put(b"b", b"2").expect("there is room");
    batch.replace(b"a", b"3").expect("there is room");
    batch.erase(b"c").expect("there is room");
    assert_eq!(batch.erase(b"a"), Err(Full), "four were asked for");
    assert_eq!(batch.len(), 4);
    assert_eq!(frame.apply(&batch, &mut second, &mut answers), Ok(()));
    assert_eq!(answers, [11, 0, 9, 8, 7]);
    assert_eq!(frame.bytes(), second, "both frames are the same now");
    assert_eq!((frame.look_up(b"a")?, frame.look_up(b"b")?), (Some(&b"3"[..]), Some(&b"2"[..])));

    let mut frame = before;
    let mut lent = [0; 256];
    let mut batch = Batch::new(&mut lent, 2).expect("there is room");
    batch.put(b"b", b"2").expect("there is room");
    batch.erase(b"").expect("there is room");
    let (mut second, mut answers) = ([7; F], [7; 5]);
    let stopped = Stopped { change: 2, refusal: Refusal::KeyLength };
    assert_eq!(frame.apply(&batch, &mut second, &mut answers), Err(stopped));
    assert!(stopped.to_string().starts_with("change 2: "));
    assert_eq!((frame.bytes(), answers), (before.bytes(), [7; 5]));
    assert_eq!(View::open(&second)?.look_up(b"b")?, Some(&b"2"[..]), "made before the refusal");

    let (mut second, mut unknown) = ([7; F], batch.bytes().to_vec());
    unknown[12] = 4;
    let layout = Stopped { change: 0, refusal: Refusal::Layout };
    assert_eq!(frame.apply_bytes(&unknown, &mut second, &mut answers), Err(layout));
    let length = Stopped { change: 0, refusal: Refusal::Output };
    let longer = &mut [7; F + 8];
    assert_eq!(frame.apply_bytes(&unknown, longer, &mut answers), Err(length), "7 before 12");
    assert_eq!((frame.bytes(), second), (before.bytes(), [7; F]));
    assert_eq!(Batch::new(&mut [0; 11], 2).err(), Some(Full));
    assert_eq!(frame.apply_bytes(&[0; 4], &mut second, &mut []), Ok(()), "no change at all");
    Ok(())
}

fn no_good_frame() -> [u8; F] {
    let mut bytes = [0; F];
    empty(&mut bytes);
    bytes[20] = 2;
    bytes
}

#[test]
fn refusals_change_nothing() {
    let mut bytes = [0; F];
    let mut frame = empty(&mut bytes);
    assert_eq!(frame.put(b"k", &[5; F - 96 - 8 - 16 - 1]), Ok(Put::New), "no byte is left");
    let before = frame.bytes().to_vec();
    assert_eq!(frame.put(b"", b"v"), Err(Refusal::KeyLength));
    assert_eq!(frame.put(&[b'k'; 113], b"v"), Err(Refusal::KeyLength));
    assert_eq!(frame.put(b"k\0", b"v"), Err(Refusal::KeyZero));
    assert_eq!(frame.put(b"v", &[0; 65_536]), Err(Refusal::ValueLength));
    assert_eq!(frame.put(b"k", &[0; 65_536]), Err(Refusal::ValueLength), "5 before 11");
    assert_eq!(frame.put(b"v", b"v"), Err(Refusal::Room));
    assert_eq!(frame.put(b"k", b"v"), Ok(Put::Present), "11 needs no room");
    assert_eq!(frame.replace(b"", b"v"), Err(Refusal::KeyLength));
    assert_eq!(frame.replace(b"k\0", b"v"), Err(Refusal::KeyZero));
    assert_eq!(frame.replace(b"v", &[0; 65_536]), Err(Refusal::ValueLength), "5 before 8");
    assert_eq!(frame.replace(b"v", b"v"), Ok(Replace::Absent), "8 needs no room");
    assert_eq!(frame.replace(b"k", b"v"), Err(Refusal::Room));
    assert_eq!(frame.look_up(b""), Err(Refusal::KeyLength));
    assert_eq!(frame.place(b"\0"), Err(Refusal::KeyZero));
    assert_eq!(frame.erase(b""), Err(Refusal::KeyLength));
    assert_eq!(frame.erase(b"\0"), Err(Refusal::KeyZero));
    assert_eq!(frame.pack(&mut [0; F + 8]).err(), Some(Refusal::Output));
    assert_eq!(frame.pack_before(&mut [0; F + 8]).err(), Some(Refusal::Output));
    assert_eq!(frame.bytes(), before);
}

#[test]
fn what_is_freed_is_wiped() -> Result<(), Refusal> {
    let mut frame = Frame::format([0; F], N)?;
    frame.put(b"pin", b"hunter2!")?;
    frame.put(b"user", b"nobody")?;
    let stands = |frame: &Frame<[u8; F]>, text: &[u8]| {
        frame.bytes().windows(text.len()).any(|part| part == text)
    };
    assert!(stands(&frame, b"hunter2!") && stands(&frame, b"nobody"));
    frame.replace(b"pin", b"-")?;
    frame.erase(b"user")?;
    assert!(!stands(&frame, b"hunter2!") && !stands(&frame, b"nobody") && !stands(&frame, b"user"));
    assert_eq!(frame.look_up(b"pin")?, Some(&b"-"[..]));
    Ok(())
}

#[test]
fn a_frame_from_before_is_packed_once() -> Result<(), Refusal> {
    let mut good = Frame::format([0; F], N)?;
    good.put(b"a", b"1")?;
    let mut before = good.into_bytes();
    before[F - 1] = 7;
    let mut frame = Frame::over(before);
    assert_eq!(check(&before), Err(Refusal::Frame));
    assert_eq!(frame.put(b"b", b"2"), Err(Refusal::Frame));
    assert_eq!(frame.look_up(b"a"), Err(Refusal::Frame));
    assert_eq!(frame.pack([0; F]).err(), Some(Refusal::Frame));
    let mut packed = frame.pack_before([7; F])?;
    assert_eq!(frame.into_bytes(), before, "it is only read");
    assert_eq!(packed.bytes(), good.pack([0; F])?.bytes());
    assert_eq!(packed.bytes(), good.pack_before([1; F])?.bytes(), "a good frame packs so too");
    assert_eq!(packed.put(b"b", b"2")?, Put::New);
    Ok(())
}

#[test]
fn two_orders_pack_to_one_image() -> Result<(), Refusal> {
    let records = [(b"a", b"1"), (b"b", b"2"), (b"c", b"3")];
    let (mut one, mut other) = ([0; F], [0; F]);
    let (mut one, mut other) = (empty(&mut one), empty(&mut other));
    for (key, value) in records {
        one.put(key, value)?;
    }
    for (key, value) in records.into_iter().rev() {
        other.put(key, b"before")?;
        other.replace(key, value)?;
    }
    let (mut left, mut right) = ([1; F], [2; F]);
    let packed = one.pack(&mut left)?;
    assert_eq!(packed.bytes(), other.pack(&mut right)?.bytes());
    assert_eq!(packed.look_up(b"b")?, Some(&b"2"[..]));
    Ok(())
}

#[test]
fn info_tells_what_is_left_and_what_packing_gives_back() -> Result<(), Refusal> {
    let mut frame = Frame::format([0; F], N)?;
    let empty = Info {
        bytes: F,
        slots: N,
        slots_given: 1,
        bytes_given: 104,
        records: 0,
        dead_bytes: 0,
        freed: [0; 8],
    };
    assert_eq!(frame.info()?, empty);
    frame.put(b"a", b"1")?;
    frame.put(b"b", b"2")?;
    frame.replace(b"a", b"longer than eight")?;
    frame.erase(b"b")?;
    let info = frame.info()?;
    assert_eq!((info.records, info.dead_bytes), (1, 16));
    // The EmptyRoot, the Leaf of b and the Node4 that had both.
    assert_eq!(info.freed, [1, 0, 0, 1, 0, 0, 0, 1]);
    assert_eq!((info.slots_to_pack(), info.bytes_to_pack()), (3, 16 + 16 + 24 + 8));
    let packed = frame.pack([0; F])?.info()?;
    assert_eq!(packed.free_slots(), info.free_slots() + info.slots_to_pack());
    assert_eq!(packed.free_bytes(), info.free_bytes() + info.bytes_to_pack());
    assert_eq!((packed.slots_to_pack(), packed.bytes_to_pack()), (0, 0));
    // What a 6 lacked: the Leaf would need 16 bytes and the extent all that are left.
    let value = vec![7; packed.free_bytes() - 8];
    let mut packed = frame.pack([0; F])?;
    assert_eq!(packed.put(b"b", &value), Err(Refusal::Room));
    assert!(packed.info()?.free_bytes() < 16 + 24 + 1 + value.len());
    Ok(())
}

#[test]
fn info_tells_what_a_call_lacked() -> Result<(), Refusal> {
    // Eight slots and bytes for many more records.
    let mut few_slots = Frame::format([0; 8_192], 8)?;
    let full = (0..9u8).find(|name| few_slots.put(&[b'a' + name], b"1").is_err());
    let full = [b'a' + full.expect("eight slots hold no nine records")];
    assert_eq!(few_slots.put(&full, b"1"), Err(Refusal::Room));
    assert_eq!(few_slots.info()?.lacked(2), Lack::Slots);
    // Slots for many records, and few bytes.
    let mut few_bytes = Frame::format([0; 1_024], 100)?;
    few_bytes.put(b"a", &[7; 400])?;
    assert_eq!(few_bytes.put(b"b", &[7; 400]), Err(Refusal::Room));
    assert_eq!(few_bytes.info()?.lacked(401), Lack::Bytes);
    // Little of both.
    let mut little = Frame::format([0; 1_024], 8)?;
    for name in [b"a", b"b", b"c", b"d"] {
        little.put(name, &[7; 100])?;
    }
    assert_eq!(little.put(b"e", &[7; 500]), Err(Refusal::Room));
    assert_eq!(little.info()?.lacked(501), Lack::SlotsOrBytes);
    Ok(())
}

#[test]
fn lengths_are_unsigned() -> Result<(), Refusal> {
    let mut bytes = vec![0; 524_288];
    let mut frame = Frame::format(&mut bytes, 10_240)?;
    frame.put(b"fw", b"")?;
    for length in [32_767, 32_768, 65_535] {
        let value = vec![9; length];
        frame.replace(b"fw", &value)?;
        assert_eq!(frame.look_up(b"fw")?, Some(&value[..]));
    }
    Ok(())
}

#[test]
fn every_refusal_has_its_number_and_words() {
    let all = [
        (Refusal::Length, 1),
        (Refusal::Frame, 2),
        (Refusal::KeyLength, 3),
        (Refusal::KeyZero, 4),
        (Refusal::ValueLength, 5),
        (Refusal::Room, 6),
        (Refusal::Output, 7),
        (Refusal::Buffer, 10),
        (Refusal::Layout, 12),
    ];
    for (refusal, number) in all {
        assert_eq!(refusal.number(), number);
        assert!(!refusal.to_string().is_empty());
    }
}

/// A stamp whose eight bytes all differ.
const STAMP: u64 = 0x0102_0304_0506_0708;

/// Keys that edition 1 refuses: with bytes 0, and of more than 112 bytes.
const ADDRESSES: [&[u8]; 4] = [b"\0", b"\0\0", b"\0\xff", b"\0\x1a\x2b\0\0\x01"];

#[test]
fn keys_of_edition_2() -> Result<(), Refusal> {
    let mut frame = Frame2::format([0; 4 * F], 64)?;
    for key in ADDRESSES.iter().rev() {
        assert_eq!(frame.put(key, key, STAMP)?, Put::New);
        assert_eq!(frame.put(key, b"another", STAMP)?, Put::Present);
        assert_eq!(Frame::format([0; F], N)?.put(key, b""), Err(Refusal::KeyZero));
    }
    let long = [b'n'; Edition2::LONGEST_KEY + 1];
    for length in [Edition1::LONGEST_KEY + 1, Edition2::LONGEST_KEY] {
        assert_eq!(frame.put(&long[..length], b"long", STAMP)?, Put::New);
        assert_eq!(frame.look_up(&long[..length])?, Some(&b"long"[..]));
        assert_eq!(Frame::format([0; F], N)?.put(&long[..length], b""), Err(Refusal::KeyLength));
    }
    assert_eq!(frame.put(&long, b"", STAMP), Err(Refusal::KeyLength));
    assert_eq!(frame.put(b"", b"", STAMP), Err(Refusal::KeyLength));
    assert_eq!(frame.view().list(&long, None, None, &mut []), Err(Refusal::KeyLength));
    for key in ADDRESSES {
        assert_eq!(frame.look_up(key)?, Some(key));
    }
    assert_eq!(frame.look_up(b"\0\0\0")?, None);
    let mut buffer = [0; 2 + Edition2::LONGEST_KEY];
    let mut names = frame.names(b"\0", &mut buffer);
    for key in ADDRESSES {
        if key != b"\0\xff" {
            assert_eq!(names.next_entry()?, Some(Entry::Name(key)));
        }
    }
    assert_eq!(names.next_entry()?, Some(Entry::Name(b"\0\xff")), "255 sorts last");
    assert_eq!(names.next_entry()?, None);
    let mut groups = frame.names(b"", &mut buffer).grouped(0);
    assert_eq!(groups.next_entry()?, Some(Entry::Group(b"\0")));
    assert_eq!(groups.next_entry()?, Some(Entry::Name(&long[..113])));
    assert_eq!(groups.next_entry()?, Some(Entry::Name(&long[..255])), "over three pages");
    assert_eq!(groups.next_entry()?, None);
    for key in ADDRESSES {
        assert_eq!(frame.replace(key, b"", STAMP)?, Replace::Done);
        assert_eq!(frame.erase(key)?, Erase::Done);
        assert_eq!(frame.erase(key)?, Erase::Absent);
    }
    Ok(())
}

#[test]
fn a_frame_of_one_edition_is_none_of_the_other() -> Result<(), Refusal> {
    let one = Frame::format([0; F], N)?.into_bytes();
    let two = Frame2::format([0; F], N)?.into_bytes();
    assert_eq!((check(&one), check2(&two)), (Ok(()), Ok(())));
    assert_eq!((check2(&one), check(&two)), (Err(Refusal::Frame), Err(Refusal::Frame)));
    assert_eq!(View::open(&two).err(), Some(Refusal::Frame));
    assert_eq!(View2::open(&one).err(), Some(Refusal::Frame));
    assert_eq!(Frame2::open(one).err(), Some(Refusal::Frame));
    assert_eq!(Frame2::over(one).put(b"a", b"1", STAMP), Err(Refusal::Frame));
    assert_eq!(Frame2::over(one).replace(b"a", b"1", STAMP), Err(Refusal::Frame));
    assert_eq!(View2::over(&one).look_up(b"a"), Err(Refusal::Frame));
    assert_eq!(View2::over(&one).record(b"a"), Err(Refusal::Frame));
    assert_eq!(View2::over(&one).stamp(b"a"), Err(Refusal::Frame));
    assert_eq!(View::over(&two).pack_before([0; F]).err(), Some(Refusal::Frame));
    let frame = Frame2::open(two)?;
    assert_eq!(
        format!("{frame:?}, {:?}", frame.view()),
        "Frame2 of 1024 bytes, View2 of 1024 bytes"
    );
    Ok(())
}

#[test]
fn a_stamp_stands_with_its_record() -> Result<(), Refusal> {
    let mut frame = Frame2::format([0; F], N)?;
    assert_eq!(frame.put(b"a", b"1", STAMP)?, Put::New);
    assert_eq!(frame.put(b"b", b"", u64::MAX)?, Put::New);
    assert_eq!(frame.record(b"a")?, Some(Record { value: b"1", stamp: STAMP }));
    assert_eq!(frame.record(b"b")?, Some(Record { value: b"", stamp: u64::MAX }));
    assert_eq!(frame.put(b"a", b"2", 9)?, Put::Present);
    assert_eq!(frame.replace(b"c", b"2", 9)?, Replace::Absent);
    assert_eq!(frame.record(b"a")?, Some(Record { value: b"1", stamp: STAMP }), "it stays");
    assert_eq!((frame.record(b"c")?, frame.stamp(b"c")?), (None, None));
    assert_eq!(frame.record(b""), Err(Refusal::KeyLength));
    assert_eq!(frame.view().stamp(b""), Err(Refusal::KeyLength));
    let record = frame.view().record(b"a")?.expect("the key is there");
    let place = frame.place(b"a")?.expect("the key is there");
    assert_eq!(record.value.as_ptr_range(), frame.bytes()[place].as_ptr_range());
    Ok(())
}

#[test]
fn a_replacement_writes_the_stamp() -> Result<(), Refusal> {
    let mut frame = Frame2::format([0; F], N)?;
    frame.put(b"a", b"1", STAMP)?;
    frame.put(b"b", b"2", 7)?;
    let before = frame.info()?;
    assert_eq!(frame.replace(b"a", b"1", 9)?, Replace::Done);
    assert_eq!(frame.record(b"a")?, Some(Record { value: b"1", stamp: 9 }), "the same value");
    assert_eq!(frame.replace(b"a", b"2", u64::MAX)?, Replace::Done);
    assert_eq!(frame.record(b"a")?, Some(Record { value: b"2", stamp: u64::MAX }));
    assert_eq!(frame.info()?, before, "of equal length: nothing is needed");
    assert_eq!(frame.replace(b"a", b"longer than eight", 0)?, Replace::Done);
    assert_eq!(frame.record(b"a")?, Some(Record { value: b"longer than eight", stamp: 0 }));
    assert_ne!(frame.info()?, before);
    assert_eq!(frame.stamp(b"b")?, Some(7), "that of another record stays");
    let full = vec![0; F];
    assert_eq!(frame.replace(b"a", &full, STAMP), Err(Refusal::Room));
    assert_eq!(frame.stamp(b"a")?, Some(0), "a refused call leaves it");
    Ok(())
}

#[test]
fn a_stamp_is_packed_with_its_record() -> Result<(), Refusal> {
    let packed = |stamp, first: &[u8], second: &[u8]| {
        let mut frame = Frame2::format([0; F], N)?;
        frame.put(first, b"1", stamp)?;
        frame.put(second, b"1", stamp)?;
        frame.pack([0; F])
    };
    let one = packed(STAMP, b"a", b"b")?;
    assert_eq!((one.stamp(b"a")?, one.stamp(b"b")?), (Some(STAMP), Some(STAMP)));
    assert_eq!(one.bytes(), packed(STAMP, b"b", b"a")?.bytes(), "the same records");
    let other = packed(STAMP + 1, b"a", b"b")?;
    let differing = one.bytes().iter().zip(other.bytes()).filter(|(one, other)| one != other);
    assert_eq!(differing.count(), 2, "one byte in each of two stamps");
    // D is 96: there the packed image of one record has its Leaf, whose last eight bytes are the stamp.
    let mut alone = Frame2::format([0; F], N)?;
    alone.put(b"a", b"1", STAMP)?;
    assert_eq!(alone.pack([0; F])?.bytes()[96 + 8..96 + 16], STAMP.to_le_bytes());
    Ok(())
}

#[test]
fn a_batch_of_edition_2_has_stamps() -> Result<(), Full> {
    let (mut lent, mut second, mut answers) = ([0; 256], [0; F], [0xEE; 5]);
    let mut batch = Batch2::new(&mut lent, 5)?;
    batch.put(b"a", b"1", STAMP)?;
    batch.put(b"a\0", b"2", u64::MAX)?;
    batch.put(b"a", b"3", 5)?;
    batch.replace(b"a\0", b"4", 6)?;
    batch.erase(b"c")?;
    assert_eq!(batch.erase(b"c"), Err(Full), "five were asked for");
    let mut frame = Frame2::format([0; F], N).expect("F and N are within the limits");
    assert_eq!(frame.apply(&batch, &mut second, &mut answers), Ok(()));
    assert_eq!(answers, [0, 0, 11, 9, 8]);
    assert_eq!(frame.record(b"a"), Ok(Some(Record { value: b"1", stamp: STAMP })));
    assert_eq!(frame.record(b"a\0"), Ok(Some(Record { value: b"4", stamp: 6 })));
    assert_eq!(frame.bytes(), second, "both frames are the same now");

    let mut lent = [0; 64];
    let mut batch = Batch::new(&mut lent, 2)?;
    batch.put(b"a", b"1")?;
    batch.put(b"a\0", b"2")?;
    let mut frame = Frame::format([0; F], N).expect("F and N are within the limits");
    let refused = Stopped { change: 2, refusal: Refusal::KeyZero };
    assert_eq!(frame.apply(&batch, &mut second, &mut answers), Err(refused), "in edition 1");
    Ok(())
}

/// Put a=1 with a stamp and then erase a, byte by byte as docs/FORMAT.md lays out a batch of each edition.
#[test]
fn a_batch_is_laid_out_by_its_edition() -> Result<(), Full> {
    let mut lent = [0xEE; 64];
    let mut one = Batch::new(&mut lent, 2)?;
    one.put(b"a", b"1")?;
    one.erase(b"a")?;
    let head = [2, 0, 0, 0, 12, 0, 0, 0, 22, 0, 0, 0];
    let changes = b"\x01\0\x01\0\x01\0\0\0a1\x03\0\x01\0\0\0\0\0a";
    assert_eq!(one.bytes(), [&head[..], changes].concat());

    let mut lent = [0xEE; 64];
    let mut two = Batch2::new(&mut lent, 2)?;
    two.put(b"a", b"1", STAMP)?;
    two.erase(b"a")?;
    let head = [2, 0, 0, 0, 12, 0, 0, 0, 30, 0, 0, 0];
    let put = b"\x01\0\x01\0\x01\0\0\0\x08\x07\x06\x05\x04\x03\x02\x01a1";
    let erase = b"\x03\0\x01\0\0\0\0\0\0\0\0\0\0\0\0\0a";
    assert_eq!(two.bytes(), [&head[..], put, erase].concat());

    // A change of edition 2 has eight bytes more than one of edition 1.
    let mut lent = [0; 8 + 8 + 2];
    let mut short = Batch2::new(&mut lent, 1)?;
    assert_eq!(short.put(b"a", b"1", STAMP), Err(Full));
    assert!(short.is_empty());
    Batch::new(&mut lent, 1)?.put(b"a", b"1")
}

/// Two keys that share as many bytes as can be take seven slots at once.
#[test]
fn what_a_put_of_edition_2_lacks() -> Result<(), Refusal> {
    let zeros = [0; Edition2::LONGEST_KEY];
    // The EmptyRoot's slot is freed, and does not serve another kind.
    for (slots, lacks) in [(8, Some(Lack::Slots)), (10, None)] {
        let mut frame = Frame2::format([0; 4 * F], slots)?;
        frame.put(&zeros, b"", STAMP)?;
        let given = frame.put(&zeros[1..], b"", STAMP);
        let lacked = given.is_err().then_some(frame.info()?.lacked2(zeros.len()));
        assert_eq!((given.ok(), lacked), (lacks.is_none().then_some(Put::New), lacks));
    }
    Ok(())
}
