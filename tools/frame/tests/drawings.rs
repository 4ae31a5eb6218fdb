//! The drawings of packed frames, which document 01 settles to the byte, and of a frame with every kind, live and freed, are the
//! stored ones. `FRAME_DRAW_ANEW=1` stores them anew, to be looked at.

mod support;

use second_store::damage::undamaged;
use second_store::layout::Edition;
use std::fs;
use support::Folder;

const SETTINGS: &str =
    "line.1.mode=vdsl\nline.1.rate=100\nline.2.rate=250\nline.2.name=<main> & \\xff\nwan=up\n";

#[track_caller]
fn drawn(folder: &Folder, name: &str) {
    let text = folder.frame(&["draw", "i"]);
    let svg = folder.frame(&["draw", "i", "--svg", "-"]);
    folder.frame(&["draw", "i", "--svg", "out"]).done("");
    assert_eq!(folder.read("out"), svg.out);
    for (ran, ending) in [(&text, "txt"), (&svg, "svg")] {
        assert_eq!((ran.status, ran.err.as_str()), (Some(0), ""));
        let stored = format!("{}/tests/drawings/{name}.{ending}", env!("CARGO_MANIFEST_DIR"));
        if std::env::var_os("FRAME_DRAW_ANEW").is_some() {
            fs::write(&stored, &ran.out).expect("a drawing is stored");
        }
        let is = fs::read_to_string(&stored).expect("a stored drawing");
        assert_eq!(ran.text(), is, "{stored}");
    }
}

#[test]
fn a_fresh_frame() {
    let folder = Folder::new("draw_fresh");
    folder.image("i", 1024, 8, "");
    drawn(&folder, "fresh");
}

#[test]
fn a_packed_frame() {
    let folder = Folder::new("draw_packed");
    folder.image("i", 2048, 32, SETTINGS);
    folder.frame(&["pack", "i", "i"]).done("");
    drawn(&folder, "packed");
}

#[test]
fn a_frame_with_every_kind() {
    let folder = Folder::new("draw_kinds");
    let frames = undamaged(Edition::One);
    folder.write("i", frames.iter().max_by_key(|frame| frame.len()).expect("some frame"));
    drawn(&folder, "kinds");
}
