//! The session that README shows is what a shell shows.

mod support;

use std::fs;
use support::Folder;

/// The indented lines under README's heading, from the first `$` on; empty ones are not indented there.
fn session() -> Vec<String> {
    let readme = fs::read_to_string(concat!(env!("CARGO_MANIFEST_DIR"), "/../../README.md"));
    let readme = readme.expect("README is there");
    let section = readme.split("\n## ").find(|section| section.starts_with("The tool\n"));
    let lines = section.expect("README has the section").lines();
    let lines = lines.filter_map(|line| line.strip_prefix("    ")).map(str::to_string);
    lines.skip_while(|line| !line.starts_with("$ ")).collect()
}

#[test]
fn the_session_of_readme_can_be_repeated() {
    let folder = Folder::new("readme");
    let mut shown = Vec::new();
    for line in session().iter().filter_map(|line| line.strip_prefix("$ ")) {
        let ran = folder.shell(line);
        shown.push(format!("$ {line}"));
        let lines = ran.text().lines().chain(ran.err.lines());
        shown.extend(lines.filter(|line| !line.is_empty()).map(str::to_string));
    }
    assert_eq!(shown, session());
    assert!(shown.len() > 20, "a session with an image opened, listed, changed, checked and drawn");
}
