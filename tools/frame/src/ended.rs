//! How a command ends that does not end well.

use std::fmt::Display;
use std::path::Path;

pub enum Ended {
    /// The words were wrong: status 2.
    Usage(String),
    /// What was asked cannot be done: status 1, and why.
    Stopped(String),
    /// It is not so: status 1, and the output says what there is to say.
    Told,
}

impl Ended {
    /// Something about a file.
    pub fn at(path: &Path, why: impl Display) -> Ended {
        Ended::Stopped(format!("{}: {why}", path.display()))
    }
}
