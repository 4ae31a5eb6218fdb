//! The look-up proper, which is what a look-up does after the check of the whole
//! frame, with both searches in a Node16: the linear one and halving.
//!
//! The exported calls do not reach it without the check, which outweighs it. So
//! the script `search` beside this package takes the module that was proved and
//! opens `descent::lookup::find`, once as it is and once with every Node16
//! searched as a Node4 is, one byte after the other, as it was before request Q-2.
//!
//! Trusted here: how the module passes a slice and gives a result.

use std::hint::black_box;
use std::time::Instant;
use store_bench::measure::alternate;
use store_bench::random::Random;
use store_bench::workload::{sought, sought_text, Record, SOUGHT};

/// What a look-up gives: the slots, whether there is a value, and its place, length
/// and stamp.
#[repr(C)]
struct Held {
    slots: usize,
    found: u8,
    value: [usize; 3],
}

/// The module passes a slice as an address and a length: the frame, the key, the edition.
type Find = unsafe extern "C" fn(*mut Held, *const u8, usize, *const u8, usize, u8);

extern "C" {
    fn linear_find(
        held: *mut Held,
        frame: *const u8,
        frame_length: usize,
        key: *const u8,
        key_length: usize,
        edition: u8,
    );
    fn halving_find(
        held: *mut Held,
        frame: *const u8,
        frame_length: usize,
        key: *const u8,
        key_length: usize,
        edition: u8,
    );
}

/// Of the frames that are searched: the first of the editions, counted from 0.
const EDITION: u8 = 0;

/// Look-ups in a sample: keys of the frame, drawn at random for each sample, so
/// that no row of jumps is met again.
const LOOK_UPS: usize = 4_096;

/// Nanoseconds a look-up.
fn look_ups(find: Find, frame: &[u8], records: &[Record], random: &mut Random) -> f64 {
    let keys: Vec<&[u8]> =
        (0..LOOK_UPS).map(|_| &records[random.below(records.len())].key[..]).collect();
    let mut held = Held { slots: 0, found: 0, value: [0; 3] };
    let mut found = 0;
    let start = Instant::now();
    for key in &keys {
        // SAFETY: the frame is a good one, and both slices live through the call.
        unsafe { find(&mut held, frame.as_ptr(), frame.len(), key.as_ptr(), key.len(), EDITION) };
        found += usize::from(black_box(&held).found);
    }
    let time = start.elapsed();
    assert_eq!(found, LOOK_UPS, "every key is there");
    time.as_nanos() as f64 / LOOK_UPS as f64
}

fn row(what: &str, (frame, records): &(Vec<u8>, Vec<Record>)) {
    let (mut one, mut other) = (Random::new(1), Random::new(2));
    let [linear, halving, ratio] = alternate(
        || look_ups(linear_find, frame, records, &mut one),
        || look_ups(halving_find, frame, records, &mut other),
    );
    println!("{what:<24} {linear:>10.1} {halving:>10.1} {ratio:>6.2}");
}

fn main() {
    println!("{:<24} {:>10} {:>10} {:>6}", "look-up proper", "ns linear", "ns halving", "ratio");
    for children in SOUGHT {
        row(&format!("nodes of {children} children"), &sought(children));
    }
    row("text keys, a full frame", &sought_text());
}
