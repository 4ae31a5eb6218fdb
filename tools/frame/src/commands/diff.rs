//! `frame diff`: the records of two images.

use super::records::all;
use crate::args::Given;
use crate::ended::Ended;
use crate::lines::line;
use crate::output;
use std::cmp::Ordering;

pub fn run(given: &Given) -> Result<(), Ended> {
    let (first, second) = (all(given.path(0))?, all(given.path(1))?);
    let (mut old, mut new) = (first.iter().peekable(), second.iter().peekable());
    let mut told = String::new();
    loop {
        let order = match (old.peek(), new.peek()) {
            (None, None) => break,
            (Some(_), None) => Ordering::Less,
            (None, Some(_)) => Ordering::Greater,
            (Some(was), Some(is)) => was.key.cmp(&is.key),
        };
        let was = old.next_if(|_| order.is_le());
        let is = new.next_if(|_| order.is_ge());
        if was.map(|record| &record.value) == is.map(|record| &record.value) {
            continue;
        }
        for (sign, record) in [('-', was), ('+', is)] {
            if let Some(record) = record {
                told.push_str(&format!("{sign} {}", line(&record.key, &record.value)));
            }
        }
    }
    output::write(told.as_bytes())?;
    match told.is_empty() {
        true => Ok(()),
        false => Err(Ended::Told),
    }
}
