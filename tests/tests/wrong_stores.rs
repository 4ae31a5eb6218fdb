//! The comparison catches every deliberately wrong store, and lets pass one
//! that differs only where the documents leave it free.

use second_store::compare::{Calls, Comparer};
use second_store::layout::Edition;
use second_store::orders;
use second_store::run::{all_stages, Effort};
use second_store::wrong::{self, Altered};
use second_store::{wrong_editions, wrong_stamps};

const FIXED: Effort = Effort { seed: 1, rounds: 1 };

/// The stores of both editions.
fn all_caught(stores: fn(Edition) -> Vec<Altered>, at_least: usize) {
    Edition::ALL.into_iter().for_each(|edition| caught(stores(edition), at_least));
}

fn caught(stores: Vec<Altered>, at_least: usize) {
    caught_for(stores, at_least, "");
}

/// Each for what it does wrong: the difference that is told has this text.
fn caught_for(stores: Vec<Altered>, at_least: usize, reason: &str) {
    assert!(stores.len() >= at_least, "only {} wrong stores", stores.len());
    let mut missed = Vec::new();
    for store in &stores {
        match all_stages(store, FIXED) {
            Ok(_) => missed.push((store.edition(), &store.name)),
            Err(difference) => {
                let told = difference.to_string();
                println!("{}: {}", store.name, told.lines().next().unwrap_or_default());
                assert!(told.contains(reason), "{}, but not for {reason}: {told}", store.name);
            }
        }
    }
    assert!(missed.is_empty(), "not caught: {missed:#?}");
}

#[test]
fn wrong_checks_are_caught() {
    all_caught(wrong::checks, 51);
}

#[test]
fn wrong_formats_are_caught() {
    all_caught(wrong::formats, 4);
}

#[test]
fn wrong_look_ups_are_caught() {
    all_caught(wrong::look_ups, 14);
}

#[test]
fn wrong_puts_are_caught() {
    all_caught(wrong::puts, 26);
}

#[test]
fn wrong_replacements_are_caught() {
    all_caught(wrong::replaces, 11);
}

#[test]
fn wrong_erases_are_caught() {
    all_caught(wrong::erases, 11);
}

#[test]
fn wrong_packs_are_caught() {
    all_caught(wrong::packs, 7);
}

#[test]
fn wrong_packs_before_are_caught() {
    caught(wrong::packs_before(), 10);
}

#[test]
fn what_is_not_wiped_as_it_should_be_is_caught() {
    all_caught(wrong::wipes, 19);
}

#[test]
fn calls_by_the_old_rule_are_caught() {
    all_caught(wrong::by_the_old_rule, 8);
}

#[test]
fn wrong_listings_are_caught() {
    all_caught(wrong::lists, 28);
}

#[test]
fn wrong_batches_are_caught() {
    all_caught(wrong::batches, 25);
}

#[test]
fn wrong_infos_are_caught() {
    all_caught(wrong::infos, 9);
}

#[test]
fn calls_by_the_other_edition_are_caught() {
    all_caught(wrong_editions::by_the_other_edition, 12);
}

#[test]
fn keys_of_edition_1_in_edition_2_are_caught() {
    caught(wrong_editions::keys(), 11);
}

#[test]
fn wrong_chains_are_caught() {
    caught(wrong_editions::chains(), 14);
}

#[test]
fn wrong_listings_of_edition_2_are_caught() {
    caught(wrong_editions::lists(), 10);
}

#[test]
fn stores_with_other_stamps_are_caught() {
    caught_for(wrong_stamps::records(), 20, "the stamp of");
}

#[test]
fn stamps_that_are_written_where_nothing_should_be_are_caught() {
    caught_for(wrong_stamps::left_alone(), 3, "of the frame left alone");
}

#[test]
fn look_ups_that_tell_other_stamps_are_caught() {
    caught_for(wrong_stamps::look_ups(), 7, "told the stamp");
}

#[test]
fn batches_with_the_stamp_in_another_layout_are_caught() {
    caught_for(wrong_stamps::layouts(), 3, "batch of");
}

#[test]
fn checks_that_refuse_stamps_are_caught() {
    caught_for(wrong_stamps::checks(), 4, "gave 2, not 0");
}

#[test]
fn stamps_in_edition_1_are_caught() {
    caught_for(wrong_stamps::checks_of_edition_1(), 1, "gave 0, not 2");
    caught_for(wrong_stamps::of_edition_1(), 2, "ZeroField");
}

/// Without any prediction, by two orders of the same calls.
#[test]
fn stores_bound_to_an_order_are_caught() {
    for edition in Edition::ALL {
        let mut stores = wrong::bound_to_an_order(edition);
        assert!(stores.len() >= 4, "only {} wrong stores", stores.len());
        if edition == Edition::Two {
            stores.extend(wrong_stamps::bound_to_an_order());
        }
        for store in &stores {
            let caught = orders::any_order(&mut Comparer::new(store), FIXED.seed, 0..400).is_err();
            assert!(caught, "not caught: {}", store.name);
        }
    }
}

fn passes_with_every_freedom(edition: Edition) {
    let effort = Effort::from_environment();
    if let Err(difference) = all_stages(&wrong::right_in_batches(edition), effort) {
        panic!("{difference}");
    }
}

#[test]
fn a_store_that_uses_every_freedom_passes() {
    passes_with_every_freedom(Edition::One);
}

#[test]
fn a_store_of_edition_2_that_uses_every_freedom_passes() {
    passes_with_every_freedom(Edition::Two);
}
