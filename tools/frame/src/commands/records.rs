//! `frame export`, `frame import`, `frame size`: records as lines.

use super::change;
use crate::answers::{self, Change, Done, Stopped};
use crate::args::Given;
use crate::ended::Ended;
use crate::image::{self, STANDARD};
use crate::lines::{self, shown_key, Record};
use crate::names;
use crate::output;
use crate::progress::Progress;
use frame_rules::layout::{
    data_start, FEWEST_SLOTS, LONGEST_FRAME, MOST_SLOTS, SHORTEST_FRAME, UNIT,
};
use frame_store::{Frame, Refusal};
use std::ffi::OsStr;
use std::path::Path;

/// Every record of an image, in the order of keys.
pub fn all(path: &Path) -> Result<Vec<Record>, Ended> {
    let frame = image::open(path)?;
    let refused = |refusal: Refusal| Ended::at(path, refusal);
    let names = names::all(&frame).map_err(refused)?;
    let mut progress = Progress::of(names.len());
    let mut records = Vec::with_capacity(names.len());
    for key in names {
        let value = frame.look_up(&key).map_err(refused)?;
        let value = value.expect("a name that was listed is there").to_vec();
        records.push(Record { key, value });
        progress.step();
    }
    Ok(records)
}

pub fn export(given: &Given) -> Result<(), Ended> {
    let records = all(given.path(0))?;
    let lines = records.iter().map(|record| lines::line(&record.key, &record.value));
    output::write(lines.collect::<String>().as_bytes())
}

pub fn import(given: &Given) -> Result<(), Ended> {
    let path = given.path(0);
    let records = lines::read(from(given, 1), lines::record)?;
    let replace = given.flag("--replace");
    // A put and then a replacement leave the line's value, whether the key was there or not.
    let a_line = if replace { 2 } else { 1 };
    let mut changes = Vec::with_capacity(a_line * records.len());
    for Record { key, value } in records {
        let again =
            replace.then(|| Change::Replace(Record { key: key.clone(), value: value.clone() }));
        changes.push(Change::Put(Record { key, value }));
        changes.extend(again);
    }
    let place = |at: usize| format!("line {}: ", at / a_line + 1);
    change(path, &changes, place, |at, done| match done.without_effect() {
        Some(why) if done == Done::Present && !replace => {
            let key = shown_key(changes[at].key());
            Err(Ended::at(
                path,
                format!("{}{key}: {why}; --replace gives it the line's value", place(at)),
            ))
        }
        _ => Ok(()),
    })
}

/// The file that an operand names, or the input.
fn from(given: &Given, at: usize) -> &Path {
    Path::new(given.operand(at).unwrap_or(OsStr::new(STANDARD)))
}

pub fn size(given: &Given) -> Result<(), Ended> {
    let path = from(given, 0);
    let records = lines::read(path, lines::record)?;
    // So many slots are enough for any names (docs/USING.md).
    let slots = (3 * records.len()).next_multiple_of(2).clamp(FEWEST_SLOTS, MOST_SLOTS);
    let mut frame =
        Frame::format(vec![0; LONGEST_FRAME], slots).map_err(|refusal| Ended::at(path, refusal))?;
    let puts: Vec<Change> = records.into_iter().map(Change::Put).collect();
    let answers = answers::make(&puts, &mut frame).map_err(|Stopped { at, why }| {
        Ended::at(path, format!("line {}: in the largest frame: {why}", at + 1))
    })?;
    for (at, done) in answers.into_iter().enumerate() {
        if let Some(why) = done.without_effect() {
            return Err(Ended::at(path, format!("line {}: {why}", at + 1)));
        }
    }
    let refused = |refusal: Refusal| Ended::at(path, refusal);
    let put = frame.info().map_err(refused)?;
    let packed = frame.pack(vec![0; LONGEST_FRAME]).and_then(|packed| packed.info());
    let packed = packed.map_err(refused)?;
    let (slots, bytes) = (packed.slots_given, packed.bytes_given - data_start(packed.slots));
    let (f, n) = frame_for(slots, bytes);
    let slots_more = put.slots_given.max(slots + slots.div_ceil(4));
    let bytes_more = (put.bytes_given - data_start(put.slots)).max(bytes + bytes.div_ceil(4));
    let (f_more, n_more) = frame_for(slots_more, bytes_more);
    let records = packed.records;
    let told = format!(
        "{records} records, packed: {slots} slots and {bytes} bytes from D on\n\
         packed     --bytes {f} --slots {n}\n\
         to change  --bytes {f_more} --slots {n_more}\n"
    );
    output::write(told.as_bytes())
}

/// F and N of the smallest frame with so many slots and bytes from D on; the largest frame, if that is less.
fn frame_for(slots: usize, bytes: usize) -> (usize, usize) {
    let n = slots.next_multiple_of(2).clamp(FEWEST_SLOTS, MOST_SLOTS);
    let f = (data_start(n) + bytes).next_multiple_of(UNIT).clamp(SHORTEST_FRAME, LONGEST_FRAME);
    (f, n)
}
