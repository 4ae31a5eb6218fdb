//! The commands, and what several of them do.

pub mod batch;
pub mod change;
pub mod check;
pub mod diff;
pub mod draw;
pub mod get;
pub mod info;
pub mod list;
pub mod new;
pub mod pack;
pub mod records;

use crate::answers::{self, Change, Done, Stopped};
use crate::args::Call;
use crate::ended::Ended;
use crate::help;
use crate::image::{self, Replacing};
use crate::output;
use std::path::Path;

pub fn run(call: Call) -> Result<(), Ended> {
    match call {
        Call::Help(None) => output::write(format!("frame: {}", help::overview()).as_bytes()),
        Call::Help(Some(command)) => output::write(help::whole(command).as_bytes()),
        Call::Run(given) => (given.command.run)(&given),
    }
}

/// Makes the changes in memory, all or none, and replaces the image if none stops by what is said of its answer. `place` names a
/// change by its number, from 0.
fn change(
    path: &Path,
    changes: &[Change],
    place: impl Fn(usize) -> String,
    mut on: impl FnMut(usize, Done) -> Result<(), Ended>,
) -> Result<(), Ended> {
    let replacing = Replacing::begin_there(path)?;
    let mut frame = image::open(path)?;
    let answers = answers::make(changes, &mut frame);
    let answers =
        answers.map_err(|Stopped { at, why }| Ended::at(path, format!("{}{why}", place(at))))?;
    for (at, done) in answers.into_iter().enumerate() {
        on(at, done)?;
    }
    replacing.replace(frame.bytes())
}
