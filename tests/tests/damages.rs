//! Every named damage gives its number, and breaks the rule it is aimed at; one that
//! is aimed at a stamp breaks none.

use frame_rules::words::{told, told_lengths};
use second_store::check::{check, check_before, read, Rule};
use second_store::compare::Held;
use second_store::damage::{all, undamaged, Aim, Damage};
use second_store::layout::{
    get16, get32, get_entry, number, Edition, Kind, LEAF_EXTENT, LEAF_KEY_LENGTH, LEAF_STAMP,
};
use std::collections::BTreeSet;

#[test]
fn frames_before_damage_are_good() {
    for edition in Edition::ALL {
        for frame in undamaged(edition) {
            let reading = read(edition, &frame).expect("the lengths agree");
            assert!(reading.broken.is_empty(), "breaks {:?}", reading.broken);
        }
    }
}

#[test]
fn each_damage_breaks_its_rule() {
    let mut wrong = Vec::new();
    for (edition, damage) in damages() {
        assert_eq!(check(edition, &damage.bytes), damage.number(), "{}", damage.name);
        let reading = read(edition, &damage.bytes);
        let broken = reading.map(|reading| BTreeSet::from_iter(reading.broken.into_keys()));
        let as_aimed = match (damage.aim, &broken) {
            (Aim::Lengths, None) => true,
            (Aim::Alone(rule), Some(broken)) => *broken == BTreeSet::from([rule]),
            (Aim::Among(rule), Some(broken)) => broken.contains(&rule) && broken.len() > 1,
            (Aim::Stamp(_), Some(broken)) => broken.is_empty(),
            _ => false,
        };
        if !as_aimed {
            wrong.push(format!("{edition:?}, {}: {:?} but {broken:?}", damage.name, damage.aim));
        }
    }
    assert!(wrong.is_empty(), "{}", wrong.join("\n"));
}

fn damages() -> impl Iterator<Item = (Edition, &'static Damage)> {
    Edition::ALL.into_iter().flat_map(|edition| all(edition).iter().map(move |it| (edition, it)))
}

#[test]
fn each_broken_rule_is_told_with_its_place() {
    for (edition, damage) in damages() {
        let Some(reading) = read(edition, &damage.bytes) else {
            assert!(!told_lengths(&damage.bytes).is_empty());
            continue;
        };
        for (rule, place) in &reading.broken {
            let told = told(edition, &damage.bytes, *rule, place);
            let byte = place.bytes.start.to_string();
            assert!(told.starts_with(rule.sentence(edition)) && told.contains(&byte), "{told}");
            assert!(place.slot.is_none_or(|slot| told.contains(&format!("slot {slot}"))), "{told}");
        }
    }
}

#[test]
fn there_are_a_hundred_damages_with_distinct_names() {
    for edition in Edition::ALL {
        let damages = all(edition);
        let names: BTreeSet<&str> = damages.iter().map(|damage| damage.name.as_str()).collect();
        assert_eq!(names.len(), damages.len());
        assert!(names.len() >= 100, "{} damages", names.len());
    }
}

/// Two bytes of a freed body of each kind and a whole one; dead extents; what was
/// never given out, in a frame with records and in one without.
#[test]
fn what_is_left_is_damage_wherever_it_is_left() {
    for edition in Edition::ALL {
        let aimed = |rule: Rule| move |damage: &&Damage| damage.aim == Aim::Alone(rule);
        let alone = |rule: Rule| all(edition).iter().filter(aimed(rule)).count();
        assert_eq!(Rule::WIPED.map(alone), [2 * Kind::ALL.len() + 1, 5, 8]);
    }
    for (edition, damage) in damages() {
        let only_left = matches!(damage.aim, Aim::Alone(rule) if Rule::WIPED.contains(&rule));
        if only_left {
            assert_eq!(check_before(edition, &damage.bytes), number::DONE, "{}", damage.name);
        }
    }
}

/// Every bit of a Leaf's last eight bytes, of all Leaves: in edition 1 one is enough
/// for 2; in edition 2 the frame is good, and the record has another stamp and
/// nothing else.
#[test]
fn a_bit_at_the_end_of_a_leaf_is_damage_in_edition_1_and_a_stamp_in_edition_2() {
    for edition in Edition::ALL {
        let [frame, _] = undamaged(edition);
        let before = Held::new(edition, frame.clone());
        let reading = read(edition, &frame).expect("the lengths agree");
        let leaves = reading.live.iter().filter(|(_, kind)| **kind == Kind::Leaf);
        for (slot, _) in leaves {
            let (body, _) = get_entry(&frame, *slot);
            for bit in 0..8 * LEAF_STAMP.len() {
                let mut damaged = frame.clone();
                damaged[body + LEAF_STAMP.start + bit / 8] ^= 1 << (bit % 8);
                let held = Held::new(edition, damaged);
                if edition == Edition::One {
                    assert_eq!(held.refusal(), Some(number::NOT_GOOD), "slot {slot}, bit {bit}");
                    continue;
                }
                let (is, mut was) = (held.state().records(), before.state().records());
                let extent = get32(&frame, body + LEAF_EXTENT);
                let key = &frame[extent..][..get16(&frame, body + LEAF_KEY_LENGTH)];
                was.get_mut(key).expect("the Leaf's record").stamp ^= 1 << bit;
                assert_eq!(is, was, "slot {slot}, bit {bit}");
            }
        }
    }
}

#[test]
fn damages_of_stamps_change_the_stamp_alone() {
    let [frame, _] = undamaged(Edition::Two);
    let before = Held::new(Edition::Two, frame);
    let mut stamps = BTreeSet::new();
    for damage in all(Edition::Two) {
        let Aim::Stamp(key) = damage.aim else {
            continue;
        };
        let damaged = Held::new(Edition::Two, damage.bytes.clone());
        let (mut is, was) = (damaged.state().records(), before.state().records());
        let found = is.get_mut(key).expect("the record is there");
        assert!(stamps.insert(found.stamp), "{}", damage.name);
        assert_ne!(found.stamp, was[key].stamp, "{}", damage.name);
        found.stamp = was[key].stamp;
        assert_eq!(is, was, "{}", damage.name);
    }
    assert_eq!(stamps.len(), LEAF_STAMP.len() + 1);
}

#[test]
fn each_rule_is_broken_alone_by_some_damage() {
    for edition in Edition::ALL {
        let alone: BTreeSet<Rule> = all(edition)
            .iter()
            .filter_map(|damage| match damage.aim {
                Aim::Alone(rule) => Some(rule),
                _ => None,
            })
            .collect();
        let missing: Vec<Rule> = Rule::of(edition).filter(|rule| !alone.contains(rule)).collect();
        assert!(missing.is_empty(), "{edition:?}: {missing:?}");
    }
}
