//! `frame draw`: a map of a frame, as text or as a drawing with the tree.

use crate::args::Given;
use crate::draw;
use crate::ended::Ended;
use crate::image;
use crate::map::stretches;
use crate::output;
use crate::svg;
use crate::tree::nodes;
use std::path::Path;

pub fn run(given: &Given) -> Result<(), Ended> {
    let path = given.path(0);
    let frame = image::open(path)?;
    let info = frame.info().map_err(|refusal| Ended::at(path, refusal))?;
    let stretches = stretches(frame.bytes());
    let Some(out) = given.path_option("--svg") else {
        return output::write(draw::map(info.bytes, &stretches).as_bytes());
    };
    let heading = format!(
        "a frame of {} bytes and {} slots with {} records",
        info.bytes, info.slots, info.records
    );
    let drawing = svg::drawing(&heading, info.bytes, &stretches, &nodes(frame.bytes()));
    match out == Path::new(image::STANDARD) {
        true => output::write(drawing.as_bytes()),
        false => image::write(&out, drawing.as_bytes()),
    }
}
