//! `frame put`, `frame replace`, `frame erase`: changes of single records.

use super::change;
use crate::answers::{Change, Done};
use crate::args::Given;
use crate::ended::Ended;
use crate::image;
use crate::lines::{shown_key, Record};
use frame_rules::layout::LONGEST_VALUE;

pub fn put(given: &Given) -> Result<(), Ended> {
    make(given, &[Change::Put(record(given)?)])
}

pub fn replace(given: &Given) -> Result<(), Ended> {
    make(given, &[Change::Replace(record(given)?)])
}

pub fn erase(given: &Given) -> Result<(), Ended> {
    let changes: Vec<Change> = given.bytes_operands(1)?.into_iter().map(Change::Erase).collect();
    make(given, &changes)
}

/// The key, and the value as it is given or as a file has it.
fn record(given: &Given) -> Result<Record, Ended> {
    let key = given.bytes_operand(1)?.unwrap_or_default();
    let value = match (given.bytes_operand(2)?, given.path_option("--from")) {
        (Some(value), None) => value,
        // One byte too many is left for the call to refuse.
        (None, Some(from)) => image::read_all(&from, LONGEST_VALUE + 1)?,
        _ => return Err(given.wrong("either VALUE or --from FILE is needed")),
    };
    Ok(Record { key, value })
}

/// All of them, or none.
fn make(given: &Given, changes: &[Change]) -> Result<(), Ended> {
    let path = given.path(0);
    let place = |at: usize| format!("{}: ", shown_key(changes[at].key()));
    change(path, changes, place, |at, done| match done.without_effect() {
        None => Ok(()),
        Some(why) => {
            let hint = match done {
                Done::Present => "; `frame replace` gives it another value",
                _ => "",
            };
            Err(Ended::at(path, format!("{}{why}{hint}", place(at))))
        }
    })
}
