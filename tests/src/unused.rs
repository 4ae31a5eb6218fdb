//! What nothing live has, from D to the frame's end.
//!
//! Believed here: of a frame that was good before Q-3, which parts Q-3 says are
//! zero in a good one: freed bodies, dead extents and the bytes from B on. Also
//! frames from before, which are made by soiling these parts.

use crate::check::{Reading, Rule};
use crate::layout::*;
use crate::random::Random;
use crate::store::body_at;
use std::ops::Range;

/// A part, and the rule that it is zero by.
#[derive(Clone, Debug)]
pub struct Unused {
    pub rule: Rule,
    pub bytes: Range<usize>,
}

/// All parts in the order of their places.
pub fn parts(frame: &[u8], reading: &Reading) -> Vec<Unused> {
    let body = |slot: usize, kind: Kind| {
        let at = body_at(frame, slot);
        at..at + kind.body_bytes()
    };
    let live = reading.live.iter().map(|(slot, kind)| body(*slot, *kind));
    let live = live.chain(reading.extents.values().cloned()).map(|bytes| (None, bytes));
    let listed = |kind: Kind| reading.lists[kind.number()].iter().map(move |slot| (*slot, kind));
    let freed = Kind::ALL.into_iter().flat_map(listed);
    let freed = freed.map(|(slot, kind)| (Some(Rule::FreedBody), body(slot, kind)));
    let mut taken: Vec<(Option<Rule>, Range<usize>)> = live.chain(freed).collect();
    taken.sort_by_key(|(_, bytes)| bytes.start);
    let (mut at, b) = (get32(frame, AT_D), get32(frame, AT_B));
    let mut all = Vec::new();
    for (rule, bytes) in taken {
        all.push(Unused { rule: Rule::DeadExtent, bytes: at..bytes.start });
        at = bytes.end;
        all.extend(rule.map(|rule| Unused { rule, bytes }));
    }
    all.push(Unused { rule: Rule::DeadExtent, bytes: at..b });
    all.push(Unused { rule: Rule::NeverGiven, bytes: b..frame.len() });
    all.retain(|part| !part.bytes.is_empty());
    all
}

/// A frame from before, as a good frame: what nothing live has is zero.
pub fn wiped(frame: &[u8], reading: &Reading) -> Vec<u8> {
    let mut wiped = frame.to_vec();
    parts(frame, reading).into_iter().for_each(|part| wiped[part.bytes].fill(0));
    wiped
}

/// A frame from before: any bytes in all parts that are zero by one of these
/// rules, and the first of them not 0.
pub fn soiled(random: &mut Random, frame: &[u8], reading: &Reading, rules: &[Rule]) -> Vec<u8> {
    let mut soiled = frame.to_vec();
    for Unused { bytes, .. } in
        parts(frame, reading).into_iter().filter(|part| rules.contains(&part.rule))
    {
        soiled[bytes.clone()].copy_from_slice(&random.bytes(bytes.len()));
        soiled[bytes.start] = random.byte_not_0();
    }
    soiled
}

/// A frame from before with one byte that is not zero, often the first or the
/// last of its part; none of a frame that is full to the byte.
pub fn speckled(random: &mut Random, frame: &[u8], reading: &Reading) -> Option<Vec<u8>> {
    let parts = parts(frame, reading);
    if parts.is_empty() {
        return None;
    }
    let Unused { bytes, .. } = random.pick(&parts).clone();
    let at = match random.below(4) {
        0 => bytes.start,
        1 => bytes.end - 1,
        _ => random.from_to(bytes.start, bytes.end - 1),
    };
    let mut speckled = frame.to_vec();
    speckled[at] = random.byte_not_0();
    Some(speckled)
}
