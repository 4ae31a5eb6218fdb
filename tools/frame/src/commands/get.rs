//! `frame get`: the value of a key.

use crate::answers::Done;
use crate::args::Given;
use crate::ended::Ended;
use crate::image;
use crate::output;
use crate::text;
use std::path::Path;

pub fn run(given: &Given) -> Result<(), Ended> {
    let path = given.path(0);
    let key = given.bytes_operand(1)?.unwrap_or_default();
    let frame = image::open(path)?;
    let found = frame.look_up(&key).map_err(|refusal| {
        Ended::at(path, format!("get refused (answer {}): {refusal}", refusal.number()))
    })?;
    let absent = || Ended::at(path, Done::Absent.without_effect().unwrap_or_default());
    let value = found.ok_or_else(absent)?;
    match given.path_option("--to") {
        Some(to) if to != Path::new(image::STANDARD) => image::write(&to, value),
        None if !given.flag("--raw") => {
            output::write(format!("{}\n", text::shown(value, b"")).as_bytes())
        }
        _ => output::write(value),
    }
}
