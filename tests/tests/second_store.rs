//! The second store held to the printed figures, to the slotless model and to
//! the image from the record set.

use second_store::compare::{Compared, Comparer, Held, Second};
use second_store::image::image;
use second_store::layout::{get32, Edition, AT_B};
use second_store::run::{all_stages, limits, worked_cases, Effort};
use second_store::store::{self, Records};
use second_store::value::Value;
use second_store::{chains, check, history, stamps, worked};

fn passes(compared: Compared<()>) {
    if let Err(difference) = compared {
        panic!("{difference}");
    }
}

/// In both editions.
fn holds(stage: fn(&mut Comparer) -> Compared<()>) {
    Edition::ALL
        .into_iter()
        .for_each(|edition| passes(stage(&mut Comparer::new(&Second(edition)))));
}

#[test]
fn worked_frames_hold() {
    holds(worked::worked_frames);
}

#[test]
fn lengths_at_the_limits_hold() {
    holds(worked::lengths_at_the_limits);
}

#[test]
fn growth_and_shrinking_hold() {
    holds(worked::growth_and_shrinking);
}

#[test]
fn puts_and_replacements_hold() {
    holds(worked::puts_and_replacements);
}

#[test]
fn worked_stamps_hold() {
    holds(stamps::worked_stamps);
}

#[test]
fn slots_visited_hold() {
    holds(worked::slots_visited);
    holds(worked::most_slots_visited);
}

#[test]
fn worked_listings_hold() {
    holds(worked::worked_listings);
}

#[test]
fn worked_batches_hold() {
    holds(worked::worked_batches);
}

#[test]
fn wiped_bytes_hold() {
    holds(worked::wiped_bytes);
}

#[test]
fn format_limits_hold() {
    holds(worked::format_limits);
}

#[test]
fn order_of_refusals_holds() {
    holds(worked::order_of_refusals);
}

#[test]
fn worked_chains_hold() {
    passes(chains::worked_chains(&mut Comparer::new(&Second(Edition::Two))));
}

fn agrees_and_reaches_every_case(edition: Edition) {
    let effort = Effort::from_environment();
    let tally = all_stages(&Second(edition), effort);
    let tally = tally.unwrap_or_else(|difference| panic!("{difference}"));
    for (entry, count) in tally.counts() {
        println!("{count:>8} {entry:?}");
    }
    let missed = tally.never_reached(edition);
    assert!(missed.is_empty(), "{effort:?} never reaches {missed:#?}");
}

#[test]
fn all_stages_agree_and_reach_every_case() {
    agrees_and_reaches_every_case(Edition::One);
}

#[test]
fn all_stages_of_edition_2_agree_and_reach_every_case() {
    agrees_and_reaches_every_case(Edition::Two);
}

#[test]
fn single_bytes_agree_with_themselves() {
    // Against the exported calls this is a comparison; here it shows that the
    // check stands any byte, and how many of the changes it takes note of.
    for edition in Edition::ALL {
        let frames = history::small_frames(edition);
        passes(history::single_bytes(&mut Comparer::new(&Second(edition)), &frames));
        for frame in frames {
            let b = get32(&frame, AT_B);
            let noted = (0..b).filter(|at| {
                let mut changed = frame.clone();
                changed[*at] ^= 0xFF;
                check::check(edition, &changed) != 0
            });
            assert!(noted.count() > b / 2);
        }
    }
}

#[test]
fn the_value_is_a_part_of_the_frame() {
    for edition in Edition::ALL {
        let frame = &history::small_frames(edition)[1];
        let part = store::value(edition, frame, b"ab");
        assert_eq!(part, b"v");
        let found = store::look_up(edition, frame, b"ab");
        assert_eq!((found.number, found.length, found.slots), (0, 1, 3));
        assert_eq!(part.as_ptr(), frame[found.place as usize..].as_ptr());
        for (frame, key) in [(&frame[..], &b"absent"[..]), (frame, b""), (&frame[..1_000], b"ab")] {
            let none = store::value(edition, frame, key);
            assert_eq!((none.len(), none.as_ptr()), (0, frame.as_ptr()));
        }
    }
}

#[test]
fn walked_strings_are_as_the_documents_say() {
    assert_eq!(Edition::One.walked(b"ab"), b"ab\0");
    let of_two: [(&[u8], &[u8]); 6] = [
        (b"ab", b"ab\0\0"),
        (b"\0", b"\0\xff\0\0"),
        (b"a\0", b"a\0\xff\0\0"),
        (b"\0a\0\0", b"\0\xffa\0\xff\0\xff\0\0"),
        (b"\xff", b"\xff\0\0"),
        (b"\0\xff", b"\0\xff\xff\0\0"),
    ];
    for (key, walked) in of_two {
        assert_eq!(Edition::Two.walked(key), walked, "{}", key.escape_ascii());
    }
    assert_eq!(Edition::Two.walked(&[0; 255]).len(), 512);
    for edition in Edition::ALL {
        let longest = vec![0; edition.longest_key()];
        assert!(edition.walked(&longest).len() <= edition.longest_walked());
    }
}

/// "So no walked string is the beginning of another", and their order is the keys'.
#[test]
fn walked_strings_part_and_sort_as_their_keys() {
    let letters = [0, 1, 254, 255];
    let mut keys: Vec<Vec<u8>> = letters.map(|byte| vec![byte]).to_vec();
    for length in 0..3 {
        let longer: Vec<Vec<u8>> = keys
            .iter()
            .filter(|key| key.len() > length)
            .flat_map(|key| letters.map(|byte| [&key[..], &[byte]].concat()))
            .collect();
        keys.extend(longer);
    }
    keys.sort();
    keys.dedup();
    let strings: Vec<Vec<u8>> = keys.iter().map(|key| Edition::Two.walked(key)).collect();
    for (at, one) in strings.iter().enumerate() {
        for (later, other) in strings.iter().enumerate().skip(at + 1) {
            let (key, next) = (keys[at].escape_ascii(), keys[later].escape_ascii());
            assert!(one < other, "{key} and {next}");
            assert!(!other.starts_with(one), "{key} and {next}");
        }
    }
}

#[test]
fn two_orders_pack_to_one_image() {
    for edition in Edition::ALL {
        let start = match edition {
            Edition::One => vec![],
            Edition::Two => vec![0; 120],
        };
        let key = |byte: u8| [&start[..], &[byte % 7 + 1, byte, byte % 3 + 1]].concat();
        let keys: Vec<Vec<u8>> = (1..=200).map(key).collect();
        let stamp = |key: &[u8]| u64::from(key[start.len() + 1]) << 56;
        let value = |key: &[u8]| Value::stamped(edition, key[start.len()..].repeat(3), stamp(key));
        let records: Records = keys.iter().map(|key| (key.clone(), value(key))).collect();
        let f = 65_536;
        let expected = image(edition, f, 600, &records);
        let orders: [Vec<&Vec<u8>>; 2] = [keys.iter().collect(), keys.iter().rev().collect()];
        for order in orders {
            let mut frame = vec![0; f];
            assert_eq!(store::format(edition, &mut frame, f, 600), 0);
            for key in order {
                let first = Value::stamped(edition, &b"first"[..], 1);
                assert_eq!(store::put(edition, &mut frame, key, first), 0);
                assert_eq!(store::replace(edition, &mut frame, key, value(key).given()), 9);
            }
            assert_eq!(store::records(&frame), records);
            let mut out = vec![1; f];
            assert_eq!(store::pack(edition, &frame, &mut out), 0);
            assert!(out == expected);
            assert_eq!(Held::new(edition, out).state().records(), records);
        }
    }
}

#[test]
fn every_cutting_of_a_slice_is_refused_with_1() {
    for edition in Edition::ALL {
        for length in 0..1_024 {
            let frame = &history::small_frames(edition)[1][..length];
            assert_eq!(check::check(edition, frame), 1, "{length} bytes");
        }
    }
}

/// The bytes of what edition 1 writes are those of before, and a frame of the other
/// edition is no good one.
#[test]
fn a_frame_of_the_other_edition_is_not_good() {
    for edition in Edition::ALL {
        for mut frame in history::small_frames(edition) {
            assert_eq!(check::check(edition, &frame), 0);
            let other = edition.other();
            assert_eq!(check::check(other, &frame), 2);
            assert_eq!(store::put(other, &mut frame, b"key", Value::plain(b"value")), 2);
        }
    }
}

#[test]
fn printed_figures_hold_in_one_run() {
    for edition in Edition::ALL {
        let second = Second(edition);
        let mut comparer = Comparer::new(&second);
        passes(worked_cases(&mut comparer));
        passes(limits(&mut comparer));
    }
}
