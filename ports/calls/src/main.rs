//! Writes the list of calls that every machine runs, the same bytes each time.
//!
//! `calls` has what the machines are compared by; `calls stack` the same and the deepest trees, for the stack of each call; `calls time`
//! each call many times, for the ratios of their times.

mod list;
mod random;
mod scenes;

use list::List;
use std::io::Write;

fn main() {
    let mut list = List::new();
    let wanted = std::env::args().nth(1);
    match wanted.as_deref() {
        None => scenes::all(&mut list),
        Some("stack") => {
            list.command("write stack");
            scenes::all(&mut list);
            scenes::deepest(&mut list);
        }
        Some("time") => scenes::times(&mut list),
        Some(other) => panic!("no list is called {other}; there are: stack, time"),
    }
    let written = std::io::stdout().write_all(list.text().as_bytes());
    written.expect("standard output takes the list");
}
