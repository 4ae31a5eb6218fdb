//! `frame new`: an image of an empty frame.

use crate::args::Given;
use crate::ended::Ended;
use crate::image::Replacing;
use frame_rules::layout::LONGEST_FRAME;
use frame_store::{Frame, Refusal};

pub fn run(given: &Given) -> Result<(), Ended> {
    let path = given.path(0);
    let (bytes, slots) = (given.number("--bytes")?, given.number("--slots")?);
    // More are refused as well, and not asked for.
    let lent = vec![0; bytes.min(LONGEST_FRAME + 1)];
    let frame = Frame::format(lent, slots).map_err(|refusal| refused(given, refusal))?;
    let replacing = Replacing::begin(path)?;
    if replacing.is_there() {
        return Err(Ended::at(path, "it is there already, and is left as it is"));
    }
    replacing.replace(frame.bytes())
}

fn refused(given: &Given, refusal: Refusal) -> Ended {
    Ended::at(given.path(0), format!("new refused (answer {}): {refusal}", refusal.number()))
}
