//! What goes to the output.

use crate::ended::Ended;
use std::io::{self, ErrorKind, Write};

/// Writes all of it. A reader that has gone away ends the program, and is told nothing.
pub fn write(bytes: &[u8]) -> Result<(), Ended> {
    let mut output = io::stdout().lock();
    let written = output.write_all(bytes).and_then(|()| output.flush());
    written.map_err(|error| match error.kind() {
        ErrorKind::BrokenPipe => Ended::Told,
        _ => Ended::Stopped(format!("the output: {error}")),
    })
}
