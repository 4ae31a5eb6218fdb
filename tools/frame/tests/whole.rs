//! An image is replaced as a whole or not at all: a disk that is full, an interrupt at every step, two changes at once.

mod support;

use std::fs;
use std::os::unix::fs::{symlink, PermissionsExt};
use std::path::PathBuf;
use std::process::Command;
use support::{Folder, Ran, BESIDE, FRAME};

const LINES: &str = "a=1\nb=2\n";

fn with_image(name: &str) -> Folder {
    let folder = Folder::new(name);
    folder.image("i", 4096, 32, LINES);
    folder
}

/// Compiles what lets a call of the program go wrong.
fn interrupter(folder: &Folder) -> PathBuf {
    let source = concat!(env!("CARGO_MANIFEST_DIR"), "/tests/interrupt.c");
    let library = folder.at("interrupt.so");
    let compiler = std::env::var("CC").unwrap_or("cc".into());
    let mut command = Command::new(compiler);
    command.args(["-shared", "-fPIC", "-O1", source, "-ldl", "-o"]).arg(&library);
    let ran = folder.run(&mut command, b"");
    assert_eq!(ran.status, Some(0), "{}", ran.err);
    library
}

fn frame_at(folder: &Folder, library: &PathBuf, at: &str, signal: &str, words: &[&str]) -> Ran {
    let mut command = Command::new(FRAME);
    command.env("LD_PRELOAD", library).env("FRAME_TEST_AT", at).env("FRAME_TEST_SIGNAL", signal);
    folder.run(command.args(words), b"")
}

const INTERRUPT: &str = "2";
const KILL: &str = "9";
const TERMINATE: &str = "15";

/// Each command that replaces a file.
const CHANGES: [&[&str]; 8] = [
    &["put", "i", "c", "3"],
    &["replace", "i", "a", "22"],
    &["erase", "i", "a"],
    &["batch", "i", "batch"],
    &["pack", "i", "i"],
    &["pack", "--before", "i", "i"],
    &["import", "i", "lines"],
    &["get", "i", "a", "--to", "i"],
];

fn with_files(name: &str) -> Folder {
    let folder = with_image(name);
    folder.write("batch", "put c=3\nerase b\n");
    folder.write("lines", "c=3\n");
    folder
}

#[test]
fn an_interrupt_leaves_the_old_image() {
    let folder = with_files("interrupt");
    let library = interrupter(&folder);
    let old = folder.read("i");
    let interrupted = |at: &str, signal: &str, words: &[&str]| {
        let ran = frame_at(&folder, &library, at, signal, words);
        assert_eq!(ran.status, None, "{at} {signal} {words:?}");
        assert_eq!(folder.read("i"), old, "{at} {signal} {words:?}");
        let beside = folder.at(&format!("i{BESIDE}"));
        assert!(beside.exists(), "it was interrupted before the renaming");
    };
    for at in ["write", "fsync", "rename"] {
        for words in CHANGES {
            interrupted(at, KILL, words);
        }
    }
    for signal in [INTERRUPT, TERMINATE] {
        interrupted("rename", signal, CHANGES[0]);
    }
    // What is left of the interrupted ones is in nobody's way.
    folder.frame(&["put", "i", "c", "3"]).done("");
    folder.frame(&["export", "i"]).done("a=1\nb=2\nc=3\n");
    assert!(!folder.at(&format!("i{BESIDE}")).exists());
    let ran = frame_at(
        &folder,
        &library,
        "rename",
        KILL,
        &["new", "j", "--bytes", "1024", "--slots", "8"],
    );
    assert_eq!(ran.status, None);
    assert!(!folder.at("j").exists());
}

#[test]
fn a_full_disk_leaves_the_old_image() {
    let folder = with_files("full");
    let library = interrupter(&folder);
    let (old, names) = (folder.read("i"), folder.names());
    for words in CHANGES {
        let ran = frame_at(&folder, &library, "full", "", words);
        ran.stopped("No space left on device");
        assert_eq!((folder.read("i"), folder.names()), (old.clone(), names.clone()), "{words:?}");
    }
    // A limit on the length of files, as an error and as a signal.
    folder.shell("trap '' XFSZ; ulimit -f 1; exec frame put i c 3").stopped("File too large");
    assert_eq!((folder.read("i"), folder.names()), (old.clone(), names));
    let ran = folder.shell("ulimit -f 1; exec frame put i c 3");
    assert_eq!((ran.status, folder.read("i")), (None, old));
}

#[test]
fn an_output_that_is_full_or_gone_is_noticed() {
    let folder = with_image("output");
    for words in
        ["list i", "get i a", "get i a --to -", "export i", "draw i", "info i", "check i", "--help"]
    {
        folder.shell(&format!("frame {words} > /dev/full")).stopped("No space left on device");
    }
    folder.shell("frame get i a --to /dev/full").stopped("No space left on device");
    folder.shell("frame draw i --svg /dev/full").stopped("No space left on device");
    let lines: String = (0..500).map(|n| format!("line.{n}={n}\n")).collect();
    folder.image("many", 65_536, 1000, &lines);
    let ran = folder.shell("frame draw many --svg - | head -c 10");
    assert_eq!((ran.status, ran.text(), ran.err.as_str()), (Some(0), "<svg xmlns", ""));
}

#[test]
fn changes_at_once_wait_for_each_other() {
    let folder = with_image("at_once");
    let jobs: String = (0..12).map(|n| format!("frame put i k{n} v & ")).collect();
    let ran = folder.shell(&format!("{jobs} wait"));
    assert_eq!((ran.status, ran.err.as_str()), (Some(0), ""));
    assert_eq!(folder.frame(&["list", "i", "k"]).text().lines().count(), 12);
    assert_eq!(folder.names(), ["i"]);
}

#[test]
fn a_replaced_image_keeps_its_links_and_rights() {
    let folder = with_image("links");
    symlink("i", folder.at("link")).expect("a link");
    fs::set_permissions(folder.at("i"), PermissionsExt::from_mode(0o640)).expect("its own file");
    folder.frame(&["put", "link", "c", "3"]).done("");
    folder.frame(&["list", "i"]).done("a\nb\nc\n");
    let file = |name: &str| fs::symlink_metadata(folder.at(name)).expect("it is there");
    assert!(file("link").is_symlink());
    assert_eq!(file("i").permissions().mode() & 0o777, 0o640);
}
