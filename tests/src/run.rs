//! The whole comparison, as the gate runs it.
//!
//! Believed here: that these stages together reach every case. The quick ones come
//! first: most wrong stores go no further. Seeds are fixed unless the environment names others.

use crate::compare::{Calls, Compared, Comparer};
use crate::layout::Edition;
use crate::tally::Tally;
use crate::{batches, chains, damage, history, listings, orders, stamps, worked};
use std::env;
use std::ops::Range;

/// Which random calls are made, and how many.
#[derive(Clone, Copy, Debug)]
pub struct Effort {
    pub seed: u64,
    /// Every number of rounds is multiplied by this.
    pub rounds: u64,
}

pub const SEED_VARIABLE: &str = "SECOND_STORE_SEED";
pub const ROUNDS_VARIABLE: &str = "SECOND_STORE_ROUNDS";
const FIXED: Effort = Effort { seed: 1, rounds: 1 };

impl Effort {
    pub fn from_environment() -> Effort {
        let number = |name: &str, fixed: u64| match env::var(name) {
            Err(_) => fixed,
            Ok(text) => text.parse().unwrap_or_else(|_| panic!("{name} is no number: {text}")),
        };
        Effort {
            seed: number(SEED_VARIABLE, FIXED.seed),
            rounds: number(ROUNDS_VARIABLE, FIXED.rounds),
        }
    }
}

/// Which rounds of a stage.
pub type Rounds = Range<u64>;

/// Stops at the first difference; gives the cases that were reached. Of the stages of
/// many rounds each has its first ones before any has the rest.
pub fn all_stages(calls: &dyn Calls, effort: Effort) -> Compared<Tally> {
    const FIRST: u64 = 16;
    let mut comparer = Comparer::new(calls);
    worked_cases(&mut comparer)?;
    checks_of_damages(&mut comparer)?;
    random_calls(&mut comparer, effort, |rounds| 0..rounds.div_ceil(FIRST))?;
    damages(&mut comparer)?;
    limits(&mut comparer)?;
    random_calls(&mut comparer, effort, |rounds| rounds.div_ceil(FIRST)..rounds)?;
    long_stages(&mut comparer, effort)?;
    Ok(std::mem::take(&mut comparer.tally))
}

/// What is told beforehand of small cases.
pub fn worked_cases(comparer: &mut Comparer) -> Compared<()> {
    worked::worked_frames(comparer)?;
    worked::puts_and_replacements(comparer)?;
    stamps::worked_stamps(comparer)?;
    worked::slots_visited(comparer)?;
    worked::worked_listings(comparer)?;
    worked::worked_batches(comparer)?;
    worked::wiped_bytes(comparer)?;
    worked::order_of_refusals(comparer)?;
    batches::damaged_batches(comparer)
}

pub fn limits(comparer: &mut Comparer) -> Compared<()> {
    worked::format_limits(comparer)?;
    worked::lengths_at_the_limits(comparer)?;
    worked::growth_and_shrinking(comparer)?;
    if comparer.edition() == Edition::Two {
        chains::worked_chains(comparer)?;
    }
    worked::most_slots_visited(comparer)
}

/// Every call.
pub fn damages(comparer: &mut Comparer) -> Compared<()> {
    for frame in damage::undamaged(comparer.edition()) {
        history::every_call(comparer, "the frame before any damage".to_string(), frame)?;
    }
    for damage in damage::all(comparer.edition()) {
        let stage = format!("damage: {}", damage.name);
        history::every_call(comparer, stage, damage.bytes.clone())?;
    }
    Ok(())
}

/// The check alone, which most wrong checks show in.
fn checks_of_damages(comparer: &mut Comparer) -> Compared<()> {
    for damage in damage::all(comparer.edition()) {
        comparer.begin(format!("check of damage: {}", damage.name));
        let held = comparer.held(damage.bytes.clone());
        comparer.check(&held)?;
    }
    Ok(())
}

/// Stages of many short rounds, and of each of them this part.
fn random_calls(
    comparer: &mut Comparer,
    Effort { seed, rounds }: Effort,
    part: fn(u64) -> Rounds,
) -> Compared<()> {
    let some = |of: u64| part(rounds * of);
    history::other_edition(comparer, seed, some(100))?;
    listings::listings(comparer, seed, some(250))?;
    batches::batches(comparer, seed, some(250))?;
    history::frames_before(comparer, seed, some(100))?;
    history::arbitrary_bytes(comparer, seed, some(500))?;
    history::scratched_frames(comparer, seed, some(100))?;
    history::crafted_frames(comparer, seed, some(2_000))?;
    history::histories(comparer, seed, some(12))
}

fn long_stages(comparer: &mut Comparer, Effort { seed, rounds }: Effort) -> Compared<()> {
    if comparer.edition() == Edition::Two {
        chains::chains(comparer, seed, 0..rounds)?;
    }
    history::large_frames(comparer, seed, 0..rounds * 2)?;
    orders::same_records(comparer, seed, 0..rounds * 4)?;
    orders::any_order(comparer, seed, 0..rounds * 400)
}
