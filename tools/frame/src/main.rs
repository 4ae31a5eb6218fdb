//! `frame`: a tool for frame images.
//!
//! Everything that judges or changes bytes goes through the proved calls of the bindings. What is read without them is said only
//! of frames that these calls have judged: why one is not good, and what stands where in a good one. An image is replaced only as
//! a whole (`image`). It ends with 0; 1: what was asked was not done, or is not so; 2: wrong usage.
#![forbid(unsafe_code)]

mod answers;
mod args;
mod commands;
mod draw;
mod ended;
mod help;
mod image;
mod lines;
mod map;
mod names;
mod output;
mod progress;
mod svg;
mod text;
mod tree;

use ended::Ended;
use std::process::ExitCode;

fn main() -> ExitCode {
    let words: Vec<_> = std::env::args_os().skip(1).collect();
    match args::parse(&words).and_then(commands::run) {
        Ok(()) => ExitCode::SUCCESS,
        Err(Ended::Told) => ExitCode::from(1),
        Err(Ended::Stopped(why)) => {
            eprintln!("frame: {why}");
            ExitCode::from(1)
        }
        Err(Ended::Usage(why)) => {
            eprintln!("frame: {why}");
            ExitCode::from(2)
        }
    }
}
