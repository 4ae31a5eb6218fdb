//! `frame list`: names in byte order.

use crate::args::Given;
use crate::ended::Ended;
use crate::image;
use crate::names::{self, Asked};
use crate::output;
use crate::text;
use frame_store::Entry;

/// Ends a raw name: no key holds it.
const END: u8 = 0;

pub fn run(given: &Given) -> Result<(), Ended> {
    let path = given.path(0);
    let delimiter = match given.bytes_option("--delimiter")?.as_deref() {
        None => None,
        Some([byte]) => Some(*byte),
        Some(_) => return Err(given.wrong("--delimiter is one byte")),
    };
    let prefix = given.bytes_operand(1)?.unwrap_or_default();
    let asked = Asked { prefix, delimiter, after: given.bytes_option("--after")? };
    let frame = image::open(path)?;
    let mut listed = Vec::new();
    let done = names::each(&frame, &asked, |entry| {
        if given.flag("--long") {
            let columns = match entry {
                Entry::Name(key) => {
                    let place = frame.place(key)?.unwrap_or_default();
                    let slots = frame.visits(key)?;
                    format!("{:>5} {:>6} {slots:>3}  ", place.len(), place.start)
                }
                Entry::Group(_) => format!("{:>5} {:>6} {:>3}  ", "-", "-", "-"),
            };
            listed.extend(columns.bytes());
        }
        if given.flag("--raw") {
            listed.extend(entry.text());
            listed.push(END);
        } else {
            listed.extend(text::shown(entry.text(), b"").bytes());
            listed.push(b'\n');
        }
        Ok(())
    });
    done.map_err(|refusal| {
        Ended::at(path, format!("list refused (answer {}): {refusal}", refusal.number()))
    })?;
    output::write(&listed)
}
