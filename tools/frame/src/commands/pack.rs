//! `frame pack`: the packed image, of an image from before freed bytes were wiped too.

use crate::args::Given;
use crate::ended::Ended;
use crate::image::{self, Replacing};
use frame_store::View;

pub fn run(given: &Given) -> Result<(), Ended> {
    let (path, out) = (given.path(0), given.path(1));
    let replacing = Replacing::begin(out)?;
    let bytes = image::read(path)?;
    let (frame, lent) = (View::over(&bytes), vec![0; bytes.len()]);
    let packed = if given.flag("--before") { frame.pack_before(lent) } else { frame.pack(lent) };
    let packed = packed.map_err(|refusal| image::refused(path, &bytes, refusal))?;
    replacing.replace(packed.bytes())
}
