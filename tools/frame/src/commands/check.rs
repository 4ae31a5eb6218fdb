//! `frame check`: the proved check's verdict, and why.

use crate::args::Given;
use crate::ended::Ended;
use crate::image;
use crate::output;

pub fn run(given: &Given) -> Result<(), Ended> {
    let path = given.path(0);
    let bytes = image::read(path)?;
    match frame_store::check(&bytes) {
        Ok(()) => output::write(format!("{}: a good frame\n", path.display()).as_bytes()),
        Err(refusal) => {
            let mut told = format!("{}: {}\n", path.display(), image::verdict(refusal));
            for why in image::why_not(&bytes, refusal) {
                told.push_str(&format!("  {why}\n"));
            }
            if let Some(hint) = image::from_before(path, &bytes) {
                told.push_str(&format!("{hint}\n"));
            }
            output::write(told.as_bytes())?;
            Err(Ended::Told)
        }
    }
}
