//! `frame batch`: many changes, all or none.

use super::change;
use crate::answers::{Change, Done};
use crate::args::Given;
use crate::ended::Ended;
use crate::lines::{self, shown_key};
use crate::output;
use crate::text;

pub fn run(given: &Given) -> Result<(), Ended> {
    let changes = lines::read(given.path(1), change_of)?;
    let mut answers = Vec::with_capacity(changes.len());
    change(
        given.path(0),
        &changes,
        |at| format!("line {}: ", at + 1),
        |_, done| {
            answers.push(done);
            Ok(())
        },
    )?;
    output::write(told(&changes, &answers).as_bytes())
}

/// `put KEY=VALUE`, `replace KEY=VALUE` or `erase KEY`.
fn change_of(line: &[u8]) -> Result<Change, String> {
    let middle = line.iter().position(|byte| *byte == b' ');
    let (name, rest) = line.split_at(
        middle.ok_or("a change is put, replace or erase, a space, and what it is about")?,
    );
    let rest = &rest[1..];
    match name {
        b"put" => lines::record(rest).map(Change::Put),
        b"replace" => lines::record(rest).map(Change::Replace),
        b"erase" => text::read(rest).map(Change::Erase),
        _ => Err(format!("no change is named {}", text::shown(name, b""))),
    }
}

/// The changes that did nothing, and how many did what.
fn told(changes: &[Change], answers: &[Done]) -> String {
    let mut text = String::new();
    for (at, (change, done)) in changes.iter().zip(answers).enumerate() {
        if let Some(why) = done.without_effect() {
            let (line, name, key) = (at + 1, change.name(), shown_key(change.key()));
            text.push_str(&format!("line {line}: {name} {key}: {why}\n"));
        }
    }
    let of = |wanted: Done| answers.iter().filter(|done| **done == wanted).count();
    let idle = of(Done::Present) + of(Done::Absent);
    let (new, replaced, erased) = (of(Done::New), of(Done::Replaced), of(Done::Erased));
    text.push_str(&format!(
        "{new} new, {replaced} replaced, {erased} erased, {idle} without effect\n"
    ));
    text
}
