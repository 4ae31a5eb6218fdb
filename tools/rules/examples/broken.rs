//! What the rules say of frames of edition 1, a line for each: for the page's tests, whose
//! own reader is held to it.
//!
//! `broken FILE LENGTH`: the file is frames of that length, one after another.
//! A line has `length` for a frame whose length is refused, else the rules that
//! are broken, each as `Rule:slot:from:to` with the slot 0 where none is meant,
//! then `|` and the live slots with their kinds.

use frame_rules::check::read;
use frame_rules::layout::Edition;
use std::io::Write;

fn main() -> std::io::Result<()> {
    let words: Vec<String> = std::env::args().collect();
    let [_, file, length] = words.as_slice() else {
        panic!("usage: broken FILE LENGTH");
    };
    let bytes = std::fs::read(file)?;
    let mut out = std::io::BufWriter::new(std::io::stdout().lock());
    for frame in bytes.chunks(length.parse().expect("a length in bytes")) {
        let Some(reading) = read(Edition::One, frame) else {
            writeln!(out, "length")?;
            continue;
        };
        for (rule, place) in &reading.broken {
            let slot = place.slot.unwrap_or(0);
            write!(out, "{rule:?}:{slot}:{}:{} ", place.bytes.start, place.bytes.end)?;
        }
        write!(out, "|")?;
        for (slot, kind) in &reading.live {
            write!(out, " {slot}:{}", kind.number())?;
        }
        writeln!(out)?;
    }
    out.flush()
}
