//! The map of a frame as text: one character a stretch of bytes, and a legend.

use crate::map::{Stretch, What};
use frame_rules::layout::UNIT;
use std::fmt::Write;

const COLUMNS: usize = 64;
const MOST_CHARACTERS: usize = 16 * COLUMNS;

pub fn map(frame_bytes: usize, stretches: &[Stretch]) -> String {
    let a_character = frame_bytes.div_ceil(MOST_CHARACTERS).next_multiple_of(UNIT);
    let letters: Vec<char> = (0..frame_bytes)
        .step_by(a_character)
        .map(|from| largest(stretches, from, from + a_character).letter())
        .collect();
    let mut text = format!("{frame_bytes} bytes, {a_character} a character\n\n");
    for (row, letters) in letters.chunks(COLUMNS).enumerate() {
        let at = row * COLUMNS * a_character;
        writeln!(text, "{at:6}  {}", letters.iter().collect::<String>())
            .expect("a string takes it");
    }
    text.push('\n');
    for what in What::all() {
        let of_it = || stretches.iter().filter(|stretch| stretch.what == what);
        let bytes: usize = of_it().map(|stretch| stretch.bytes.len()).sum();
        let count = match what {
            What::Body(_) | What::Freed(_) | What::Extent => of_it().count().to_string(),
            _ => String::new(),
        };
        if bytes > 0 {
            let (letter, name) = (what.letter(), what.name());
            writeln!(text, "{letter}  {name:26} {count:>6} {bytes:>7}").expect("a string takes it");
        }
    }
    text
}

/// What most of the bytes are; of equals the first.
fn largest(stretches: &[Stretch], from: usize, to: usize) -> What {
    let first = stretches.partition_point(|stretch| stretch.bytes.end <= from);
    let within = stretches[first..].iter().take_while(|stretch| stretch.bytes.start < to);
    let mut sums: Vec<(What, usize)> = Vec::new();
    for Stretch { what, bytes, .. } in within {
        let length = bytes.end.min(to) - bytes.start.max(from);
        match sums.iter_mut().find(|(other, _)| other == what) {
            Some((_, sum)) => *sum += length,
            None => sums.push((*what, length)),
        }
    }
    let most = sums.iter().map(|(_, sum)| *sum).max().expect("every byte is in a stretch");
    sums.into_iter().find(|(_, sum)| *sum == most).expect("the most is among them").0
}
