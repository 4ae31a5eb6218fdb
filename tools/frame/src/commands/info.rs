//! `frame info`: how full a frame is.

use crate::args::Given;
use crate::ended::Ended;
use crate::image;
use crate::output;
use frame_rules::layout::{data_start, Kind};
use frame_store::{Info, Refusal};

pub fn run(given: &Given) -> Result<(), Ended> {
    let path = given.path(0);
    let frame = image::open(path)?;
    let refused = |refusal: Refusal| Ended::at(path, refusal);
    let info = frame.info().map_err(refused)?;
    let packed =
        frame.pack(vec![0; info.bytes]).and_then(|packed| packed.info()).map_err(refused)?;
    output::write(told(&info, &packed).as_bytes())
}

fn told(info: &Info, packed: &Info) -> String {
    let line = |name: &str, number: usize, what: &str| format!("{name:14} {number:>6}  {what}\n");
    let mut text = String::new();
    for (name, number, what) in [
        ("F", info.bytes, "bytes of the frame"),
        ("N", info.slots, "slots"),
        ("D", data_start(info.slots), "where bodies and extents begin"),
        ("B", info.bytes_given, "first byte never given out"),
        ("U", info.slots_given, "slots given out"),
        ("R", info.records, "records"),
        ("X", info.dead_bytes, "bytes of dead extents"),
    ] {
        text.push_str(&line(name, number, what));
    }
    for kind in Kind::ALL {
        let freed = info.freed[kind.number() - 1];
        text.push_str(&line(&format!("list {}", kind.number()), freed, &format!("freed {kind:?}")));
    }
    for (name, number, what) in [
        ("slots left", info.free_slots(), "never given out"),
        ("bytes left", info.free_bytes(), "never given out"),
        ("slots full", info.slots_given * 100 / info.slots, "per cent of N given out"),
        ("bytes full", info.bytes_given * 100 / info.bytes, "per cent of F given out"),
        ("slots to pack", info.slots_given - packed.slots_given, "given back by packing"),
        ("bytes to pack", info.bytes_given - packed.bytes_given, "given back by packing"),
    ] {
        text.push_str(&line(name, number, what));
    }
    text
}
