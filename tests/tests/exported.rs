//! The exported C functions, and the Rust bindings over them, held to
//! everything.

use frame_store::{Batch, Batch2, Frame, Frame2};
use second_store::batch;
use second_store::bindings::Bindings;
use second_store::compare::{Calls, Comparer};
use second_store::exported::Exported;
use second_store::history;
use second_store::layout::Edition;
use second_store::run::{all_stages, Effort};
use second_store::trees::Change;
use second_store::value::Value;

fn all_stages_agree(calls: &dyn Calls) {
    let effort = Effort::from_environment();
    let tally = all_stages(calls, effort).unwrap_or_else(|told| panic!("{told}"));
    let missed = tally.never_reached(calls.edition());
    assert!(missed.is_empty(), "{effort:?} never reaches {missed:#?}");
}

#[test]
fn exported_calls_agree() {
    all_stages_agree(&Exported(Edition::One));
}

#[test]
fn exported_calls_of_edition_2_agree() {
    all_stages_agree(&Exported(Edition::Two));
}

#[test]
fn bindings_agree() {
    all_stages_agree(&Bindings(Edition::One));
}

#[test]
fn bindings_of_edition_2_agree() {
    all_stages_agree(&Bindings(Edition::Two));
}

#[test]
fn exported_check_agrees_on_single_bytes() {
    for edition in Edition::ALL {
        let calls = Exported(edition);
        let mut comparer = Comparer::new(&calls);
        let frames = history::small_frames(edition);
        history::single_bytes(&mut comparer, &frames).unwrap_or_else(|told| panic!("{told}"));
    }
}

/// A put, a replacement and an erase.
fn three_changes(edition: Edition) -> [Change; 3] {
    let value = |bytes: &[u8], stamp| Value::stamped(edition, bytes.to_vec(), stamp);
    [
        Change::Put { key: b"line".to_vec(), value: value(b"open", 0x1122_3344_5566_7788) },
        Change::Replace { key: b"line".to_vec(), value: value(b"shut", u64::MAX) },
        Change::Erase { key: b"user".to_vec() },
    ]
}

/// What the bindings write as a batch is one to the second store, with the same
/// changes.
#[test]
fn batches_of_the_bindings_read_back() {
    const ROOM: usize = 128;
    let (mut second, mut answers) = ([0; 1_024], [0; 3]);

    let changes = three_changes(Edition::One);
    let (mut bytes, mut frame) = ([0; ROOM], Frame::format([0; 1_024], 8).expect("a frame"));
    let mut made = Batch::new(&mut bytes, changes.len()).expect("room for the offsets");
    for change in &changes {
        match change {
            Change::Put { key, value } => made.put(key, &value.bytes),
            Change::Replace { key, value } => made.replace(key, &value.bytes),
            Change::Erase { key } => made.erase(key),
        }
        .expect("room for the change");
    }
    assert_eq!(batch::changes(Edition::One, made.bytes()), Ok(changes.to_vec()));
    frame.apply(&made, &mut second, &mut answers).expect("no change is refused");
    assert_eq!(answers, [0, 9, 8]);

    let changes = three_changes(Edition::Two);
    let (mut bytes, mut frame) = ([0; ROOM], Frame2::format([0; 1_024], 8).expect("a frame"));
    let mut made = Batch2::new(&mut bytes, changes.len()).expect("room for the offsets");
    for change in &changes {
        match change {
            Change::Put { key, value } => made.put(key, &value.bytes, value.stamp),
            Change::Replace { key, value } => made.replace(key, &value.bytes, value.stamp),
            Change::Erase { key } => made.erase(key),
        }
        .expect("room for the change");
    }
    assert_eq!(batch::changes(Edition::Two, made.bytes()), Ok(changes.to_vec()));
    frame.apply(&made, &mut second, &mut answers).expect("no change is refused");
    assert_eq!(answers, [0, 9, 8]);
    assert_eq!(frame.stamp(b"line"), Ok(Some(u64::MAX)));
}
