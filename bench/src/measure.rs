//! Both stores timed in alternation, on the same inputs.
//!
//! A sample is a batch of calls. Each round takes one sample of each store,
//! right after one another and in changing order, so that both meet the same
//! disturbances. Frames are restored before a sample, outside its time.

use crate::calls::{
    plain, proved, proved2, proved_batch, Call, Found, Function, Lent, Stores, NOTHING_FOUND,
    PAGE_BYTES,
};
use crate::plain::layout::number::DONE;
use crate::plain::layout::{get16, NAME_LENGTH_BYTES};
use crate::plain::{list, Asked, One};
use crate::workload::{batch, Record, Task, Workload, PAGE_NAMES};
use std::hint::black_box;
use std::time::{Duration, Instant};

/// Medians, in nanoseconds a call.
pub struct Measured {
    pub plain: f64,
    pub proved: f64,
    /// The median of the rounds' own ratios, proved to plain.
    pub ratio: f64,
}

const ROUNDS: usize = 301;
const UNCOUNTED_ROUNDS: usize = 10;
/// A batch of calls that leave the frame as it is takes about this long.
const BATCH_TIME: Duration = Duration::from_micros(25);
const LARGEST_BATCH: u32 = 1_000;
/// Restored copies of the frame for one batch together have about this size.
const COPIES_BYTES: usize = 16_384;

pub fn measure(stores: &Stores, workload: &Workload, task: &Task) -> Measured {
    let (plain, proved) = ((stores.plain)(task.call), (stores.proved)(task.call));
    let mut sampler = Sampler::new(workload, task, plain);
    let (mut plain_times, mut proved_times, mut ratios) = (Vec::new(), Vec::new(), Vec::new());
    for round in 0..UNCOUNTED_ROUNDS + ROUNDS {
        let (plain_time, proved_time);
        if round % 2 == 1 {
            proved_time = sampler.sample(proved, round);
            plain_time = sampler.sample(plain, round);
        } else {
            plain_time = sampler.sample(plain, round);
            proved_time = sampler.sample(proved, round);
        }
        if round >= UNCOUNTED_ROUNDS {
            plain_times.push(plain_time);
            proved_times.push(proved_time);
            ratios.push(proved_time / plain_time);
        }
    }
    Measured { plain: median(plain_times), proved: median(proved_times), ratio: median(ratios) }
}

/// A call of edition 1 on a frame, and that of edition 2 on the same frame in edition
/// 2: nanoseconds of both, and the ratio of the second to the first.
pub fn edition_times(workload: &Workload, task: &Task) -> [f64; 3] {
    let (in_one, in_two) = (proved(task.call), proved2(task.call));
    let second = workload.in_edition_2();
    let mut one = Sampler::new(workload, task, in_one);
    let mut two = Sampler::new(&second, task, in_two);
    two.batch = one.batch;
    let (mut first, mut second) = (0, 0);
    alternate(
        || {
            first += 1;
            one.sample(in_one, first)
        },
        || {
            second += 1;
            two.sample(in_two, second)
        },
    )
}

/// Two ways to do the same in rounds: each round measures both, in changing
/// order. Gives the medians of both, and of the rounds' own ratios, the second
/// to the first.
pub fn alternate(mut first: impl FnMut() -> f64, mut second: impl FnMut() -> f64) -> [f64; 3] {
    let (mut firsts, mut seconds, mut ratios) = (Vec::new(), Vec::new(), Vec::new());
    for round in 0..UNCOUNTED_ROUNDS + ROUNDS {
        let (first_time, second_time);
        if round % 2 == 1 {
            second_time = second();
            first_time = first();
        } else {
            first_time = first();
            second_time = second();
        }
        if round >= UNCOUNTED_ROUNDS {
            firsts.push(first_time);
            seconds.push(second_time);
            ratios.push(second_time / first_time);
        }
    }
    [firsts, seconds, ratios].map(median)
}

/// A page after the start key (no byte: from the beginning) with both stores:
/// how many names it has, and the times of the plain and of the proved store
/// with the ratio of the second to the first.
pub fn page_times(frame: &[u8], start: &[u8]) -> (u64, [f64; 3]) {
    let room = page_room(frame, start);
    let (mut one, mut other) = (Paged::new(frame, start, room), Paged::new(frame, start, room));
    let times =
        alternate(|| one.sample(plain::<One>(Call::List)), || other.sample(proved(Call::List)));
    assert_eq!(one.found, other.found, "both stores list the same");
    (one.found[0], times)
}

/// The same page beside a check, both of the proved store.
pub fn page_to_check(frame: &[u8], start: &[u8]) -> [f64; 3] {
    let room = page_room(frame, start);
    let (mut check, mut page) = (Paged::new(frame, start, room), Paged::new(frame, start, room));
    alternate(|| check.sample(proved(Call::Check)), || page.sample(proved(Call::List)))
}

/// Two pages of the proved store.
pub fn page_to_page(frame: &[u8], first: &[u8], second: &[u8]) -> [f64; 3] {
    let paged = |start| Paged::new(frame, start, page_room(frame, start));
    let (mut one, mut other) = (paged(first), paged(second));
    alternate(|| one.sample(proved(Call::List)), || other.sample(proved(Call::List)))
}

/// A buffer for just so many names as a measured page has.
fn page_room(frame: &[u8], start: &[u8]) -> usize {
    let mut buffer = [0; PAGE_BYTES];
    let asked = Asked { prefix: b"", start: (!start.is_empty()).then_some(start), delimiter: None };
    let (_, [count, _]) = list::<One>(frame, &asked, &mut buffer);
    assert!(count as usize >= PAGE_NAMES, "there are as many names");
    (0..PAGE_NAMES).fold(0, |at, _| at + NAME_LENGTH_BYTES + get16(&buffer, at))
}

struct Paged<'a> {
    frame: Vec<u8>,
    buffer: Vec<u8>,
    start: &'a [u8],
    found: Found,
}

impl Paged<'_> {
    fn new<'a>(frame: &[u8], start: &'a [u8], room: usize) -> Paged<'a> {
        Paged { frame: frame.to_vec(), buffer: vec![0; room], start, found: NOTHING_FOUND }
    }

    /// Nanoseconds of one call.
    fn sample(&mut self, function: Function) -> f64 {
        let mut lent = Lent {
            frame: &mut self.frame,
            out: &mut self.buffer,
            key: self.start,
            value: b"",
            n: 0,
            found: NOTHING_FOUND,
        };
        let start = Instant::now();
        let number = function(black_box(&mut lent));
        let time = start.elapsed();
        assert_eq!(number, DONE, "the call is done");
        self.found = black_box(lent.found);
        time.as_nanos() as f64
    }
}

/// A visit's changes one by one, and in one batch: nanoseconds of each, and the
/// ratio of the batch to the single calls. Frames are restored before each.
pub fn visit_times(frame: &[u8], changes: &[(Call, Record)]) -> [f64; 3] {
    let batch = batch(changes);
    let (mut singly, mut at_once) = (frame.to_vec(), frame.to_vec());
    let (mut second, mut answers) = (vec![0; frame.len()], vec![0; changes.len()]);
    let mut one_by_one = Vec::new();
    let times = alternate(
        || {
            singly.copy_from_slice(frame);
            one_by_one.clear();
            let start = Instant::now();
            for (call, Record { key, value }) in changes {
                let mut lent = Lent {
                    frame: &mut singly,
                    out: &mut [],
                    key,
                    value,
                    n: 0,
                    found: NOTHING_FOUND,
                };
                one_by_one.push(proved(*call)(black_box(&mut lent)) as u8);
            }
            start.elapsed().as_nanos() as f64
        },
        || {
            at_once.copy_from_slice(frame);
            let start = Instant::now();
            let given = proved_batch(&mut at_once, &mut second, &batch, &mut answers);
            let time = start.elapsed();
            assert_eq!(given, (DONE, 0), "no change is refused");
            time.as_nanos() as f64
        },
    );
    assert_eq!((singly, one_by_one), (at_once, answers), "both make the same changes");
    times
}

/// The same batch beside a check, both of the proved store.
pub fn visit_to_check(frame: &[u8], changes: &[(Call, Record)]) -> [f64; 3] {
    let batch = batch(changes);
    let mut checked = Paged::new(frame, b"", 0);
    let (mut at_once, mut second) = (frame.to_vec(), vec![0; frame.len()]);
    let mut answers = vec![0; changes.len()];
    alternate(
        || checked.sample(proved(Call::Check)),
        || {
            at_once.copy_from_slice(frame);
            let start = Instant::now();
            proved_batch(&mut at_once, &mut second, &batch, &mut answers);
            start.elapsed().as_nanos() as f64
        },
    )
}

fn median(mut values: Vec<f64>) -> f64 {
    values.sort_by(f64::total_cmp);
    values[values.len() / 2]
}

struct Sampler<'a> {
    workload: &'a Workload,
    task: &'a Task,
    /// One frame for each call of a batch that changes it, else one for all.
    frames: Vec<Vec<u8>>,
    out: Vec<u8>,
    batch: usize,
}

impl<'a> Sampler<'a> {
    /// As many calls in a batch as the time of this function asks for.
    fn new(workload: &'a Workload, task: &'a Task, function: Function) -> Sampler<'a> {
        let f = workload.frame.len();
        let copies = if task.call.changes_frame() { (COPIES_BYTES / f).max(1) } else { 1 };
        let frames = vec![workload.frame.clone(); copies];
        let mut sampler = Sampler { workload, task, frames, out: vec![0; f], batch: copies };
        if !task.call.changes_frame() {
            let one_call = sampler.sample(function, 0).max(1.0);
            let calls = BATCH_TIME.as_nanos() as f64 / one_call;
            sampler.batch = calls.clamp(1.0, f64::from(LARGEST_BATCH)) as usize;
        }
        sampler
    }

    /// Nanoseconds a call, over one batch.
    fn sample(&mut self, function: Function, round: usize) -> f64 {
        if self.task.call.changes_frame() {
            for frame in &mut self.frames {
                frame.copy_from_slice(&self.workload.frame);
            }
        }
        let Task { name, number, inputs, .. } = self.task;
        let mut as_expected = true;
        let mut inputs_left = &inputs[round * self.batch % inputs.len()..];
        let mut frame = 0;
        let start = Instant::now();
        for _ in 0..self.batch {
            let [input, left @ ..] = inputs_left else { unreachable!("never left empty") };
            inputs_left = if left.is_empty() { inputs } else { left };
            let mut lent = Lent {
                frame: &mut self.frames[frame],
                out: &mut self.out,
                key: &input.key,
                value: &input.value,
                n: self.workload.n,
                found: NOTHING_FOUND,
            };
            as_expected &= function(black_box(&mut lent)) == *number;
            black_box(&mut lent);
            frame = if frame + 1 == self.frames.len() { 0 } else { frame + 1 };
        }
        let time = start.elapsed();
        assert!(as_expected, "{name} gives another number than {number}");
        time.as_nanos() as f64 / self.batch as f64
    }
}
