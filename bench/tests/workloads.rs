//! What is measured is what the reader is told: good frames by the second
//! store's check, as full and as deep as they should be.

use second_store::check::{check, read};
use second_store::decode;
use second_store::layout::number::{DONE, NO_ROOM};
use second_store::layout::Edition;
use second_store::names::{list, Asked};
use second_store::slotless::Tree;
use second_store::store;
use second_store::value::{Value, NO_STAMP};
use std::collections::BTreeSet;
use store_bench::calls::{Call, PAGE_BYTES};
use store_bench::deepest::{deep_trees, deepest_of_edition_2};
use store_bench::plain::{self, One, Two};
use store_bench::workload::{wide, workload, Fill, Workload, ABSENT_OF_WIDE, FRAMES, WIDTHS};

/// Of the frames that are measured without another edition told.
const EDITION: Edition = Edition::One;

/// Slots on the longest way from the root.
fn slots_deep(tree: &Tree) -> usize {
    1 + match tree {
        Tree::Leaf { .. } => 0,
        Tree::Prefix { below, .. } => slots_deep(below),
        Tree::Inner { children, .. } => {
            children.values().map(|child| slots_deep(child)).max().unwrap_or(0)
        }
    }
}

#[test]
fn deep_trees_are_as_deep_as_allowed() {
    for tree in deep_trees() {
        let reading = read(EDITION, &tree.frame).expect("the lengths agree");
        let state = decode::state(EDITION, &tree.frame, &reading);
        let root = state.tree.expect("there are records");
        assert_eq!(slots_deep(&root), 113, "{}", tree.name);
        assert_eq!(
            store::look_up(EDITION, &tree.frame, &tree.present).number,
            DONE,
            "{}",
            tree.name
        );
        assert_eq!(
            store::put(EDITION, &mut tree.frame.clone(), &tree.absent, Value::plain(b"")),
            DONE,
            "{}",
            tree.name
        );
    }
}

/// Of the 512 walked bytes of 255 bytes 0 the last two, the key's end, part from no
/// other; a slot for each of the others and the Leaf. Behind the first byte 0 stands a
/// Prefix and no node, since no key is empty.
#[test]
fn the_deepest_tree_of_edition_2_is_as_deep_as_allowed() {
    let tree = deepest_of_edition_2();
    let reading = read(Edition::Two, &tree.frame).expect("the lengths agree");
    assert!(reading.good(), "{:?}", reading.broken);
    let found = store::look_up(Edition::Two, &tree.frame, &tree.present);
    assert_eq!((found.number, found.slots), (DONE, 511));
    let mut frame = tree.frame.clone();
    assert_eq!(store::put(Edition::Two, &mut frame, &tree.absent, Value::plain(b"")), DONE);
}

/// The measured frames are good ones of edition 2, too, and its calls give the same.
#[test]
fn workloads_are_those_of_edition_2_but_for_the_number() {
    for (f, n) in FRAMES {
        for fill in Fill::ALL {
            let workload = workload::<One>(f, n, fill);
            let second = workload.in_edition_2();
            assert_eq!(check(Edition::Two, &second.frame), DONE);
            assert_eq!(store::records(&second.frame), store::records(&workload.frame));
        }
    }
}

/// What is measured in edition 2 beside the plain store: the same records in the same
/// slots, each with a stamp of its own.
#[test]
fn workloads_of_edition_2_are_those_of_edition_1_with_stamps() {
    for (f, n) in FRAMES {
        for fill in Fill::ALL {
            let (one, two) = (workload::<One>(f, n, fill), workload::<Two>(f, n, fill));
            let mut records = store::records(&two.frame);
            let stamps: BTreeSet<u64> = records.values().map(|value| value.stamp).collect();
            assert_eq!(stamps.len(), records.len(), "{f} bytes, {}", fill.name());
            assert!(!stamps.contains(&NO_STAMP), "{f} bytes, {}", fill.name());
            records.values_mut().for_each(|value| value.stamp = NO_STAMP);
            assert_eq!(records, store::records(&one.frame), "{f} bytes, {}", fill.name());
            assert_eq!(two.slots(), one.slots(), "{f} bytes, {}", fill.name());
        }
    }
}

fn gives_the_numbers_it_tells(edition: Edition, workload: &Workload, what: &str) {
    let f = workload.frame.len();
    assert_eq!(check(edition, &workload.frame), DONE);
    for task in &workload.tasks {
        let input = &task.inputs[0];
        let value = Value::plain(&input.value[..]);
        let mut frame = workload.frame.clone();
        let number = match task.call {
            Call::Format => store::format(edition, &mut frame, f, workload.n),
            Call::Check => check(edition, &frame),
            Call::LookUp => store::look_up(edition, &frame, &input.key).number,
            Call::Put => store::put(edition, &mut frame, &input.key, value),
            Call::Replace => store::replace(edition, &mut frame, &input.key, value),
            Call::Erase => store::erase(edition, &mut frame, &input.key),
            Call::Pack => store::pack(edition, &frame, &mut vec![0; f]),
            Call::List => {
                let asked = Asked { prefix: b"", start: None, delimiter: None };
                list(edition, &frame, &asked, &mut vec![0; f.min(PAGE_BYTES)]).number
            }
        };
        assert_eq!(number, task.number, "{} of {f} bytes, {what}", task.name);
    }
}

fn all_give_the_numbers_they_tell<E: plain::Edition>(edition: Edition) {
    for (f, n) in FRAMES {
        for fill in Fill::ALL {
            gives_the_numbers_it_tells(edition, &workload::<E>(f, n, fill), fill.name());
        }
    }
    for width in WIDTHS {
        gives_the_numbers_it_tells(edition, &wide::<E>(width), &format!("width {width}"));
    }
}

#[test]
fn workloads_give_the_numbers_they_tell() {
    all_give_the_numbers_they_tell::<One>(Edition::One);
    all_give_the_numbers_they_tell::<Two>(Edition::Two);
}

/// The children of each inner node.
fn widths(tree: &Tree) -> Vec<usize> {
    match tree {
        Tree::Leaf { .. } => Vec::new(),
        Tree::Prefix { below, .. } => widths(below),
        Tree::Inner { children, .. } => {
            let below = children.values().flat_map(|child| widths(child));
            below.chain([children.len()]).collect()
        }
    }
}

#[test]
fn wide_trees_have_the_width_they_tell() {
    for width in WIDTHS {
        let frame = wide::<One>(width).frame;
        let reading = read(EDITION, &frame).expect("the lengths agree");
        let tree = decode::state(EDITION, &frame, &reading).tree.expect("there are records");
        let widths = widths(&tree);
        assert_eq!(widths.len(), width + 1, "the root's node and one below each byte");
        let narrower = widths.iter().map(|it| width - it).sum::<usize>();
        assert_eq!(narrower, ABSENT_OF_WIDE, "only the records to be put are missing");
    }
}

#[test]
fn full_frames_have_little_room_left() {
    for (f, n) in FRAMES {
        let workload = workload::<One>(f, n, Fill::Full);
        let value = vec![0; f / 16];
        let value = Value::plain(&value[..]);
        let number = store::put(EDITION, &mut workload.frame.clone(), b"one more", value);
        assert_eq!(number, NO_ROOM, "{f} bytes");
    }
}
