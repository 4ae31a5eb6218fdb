//! How far long work is, on a terminal and nowhere else.

use std::io::{self, IsTerminal, Write};
use std::time::{Duration, Instant};

/// Work that is done sooner shows nothing; after that, so often.
const PAUSE: Duration = Duration::from_millis(200);

pub struct Progress {
    of: usize,
    done: usize,
    told: Instant,
    shows: bool,
    shown: bool,
}

impl Progress {
    pub fn of(steps: usize) -> Progress {
        let shows = io::stderr().is_terminal();
        Progress { of: steps, done: 0, told: Instant::now(), shows, shown: false }
    }

    /// One step more is done.
    pub fn step(&mut self) {
        self.done += 1;
        if self.shows && self.told.elapsed() >= PAUSE {
            self.told = Instant::now();
            self.shown = true;
            self.say(&format!("{} of {}", self.done, self.of));
        }
    }

    /// Writes over the line that stands. That a terminal cannot be written to stops nothing.
    fn say(&self, line: &str) {
        let _ = write!(io::stderr(), "\r\x1b[K{line}");
    }
}

impl Drop for Progress {
    fn drop(&mut self) {
        if self.shown {
            self.say("");
        }
    }
}
