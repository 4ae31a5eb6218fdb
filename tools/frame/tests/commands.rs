//! Every command, on good images: what it writes, and that images hold what the bindings' calls leave.

mod support;

use frame_store::Frame;
use std::process::Command;
use support::{Folder, FRAME};

const LINES: &str = "line.1.mode=vdsl\nline.1.rate=100\nline.2.rate=\nwan=a=b \\\\ \\x00\\x20\n";

fn with_lines(name: &str) -> Folder {
    let folder = Folder::new(name);
    folder.image("i", 2048, 32, LINES);
    folder
}

#[test]
fn an_image_is_what_the_calls_leave() {
    let folder = Folder::new("calls");
    folder.frame(&["new", "i", "--bytes", "1024", "--slots", "8"]).done("");
    let mut frame = Frame::format(vec![0; 1024], 8).expect("a frame");
    assert_eq!(folder.read("i"), frame.bytes());
    for (key, value) in [("a", "1"), ("b", "2"), ("ab", "3")] {
        folder.frame(&["put", "i", key, value]).done("");
        frame.put(key.as_bytes(), value.as_bytes()).expect("room");
        assert_eq!(folder.read("i"), frame.bytes());
    }
    folder.frame(&["get", "i", "ab"]).done("3\n");
    folder.frame(&["check", "i"]).done("i: a good frame\n");
    folder.frame(&["erase", "i", "a", "ab"]).done("");
    folder.frame(&["list", "i"]).done("b\n");
    folder.frame(&["pack", "i", "p"]).done("");
    let packed = Frame::over(folder.read("i")).pack(vec![0; 1024]).expect("a good frame");
    assert_eq!(folder.read("p"), packed.bytes());
    folder.frame(&["pack", "i", "i"]).done("");
    assert_eq!(folder.read("i"), packed.bytes());
    assert_eq!(folder.names(), ["i", "p"]);
}

#[test]
fn replace_gives_another_value() {
    let folder = with_lines("replace");
    folder.frame(&["replace", "i", "line.1.rate", "25"]).done("");
    folder.frame(&["get", "i", "line.1.rate"]).done("25\n");
    folder.frame(&["replace", "i", "wan", "--from", "-"]).done("");
    folder.frame(&["get", "i", "wan"]).done("\n");
}

#[test]
fn info_tells_the_numbers() {
    let folder = with_lines("info");
    folder.frame(&["erase", "i", "wan"]).done("");
    let ran = folder.frame(&["info", "i"]);
    let numbers: Vec<(String, usize)> = ran
        .text()
        .lines()
        .map(|line| (line[..14].trim().to_string(), line[14..21].trim().parse().expect("a number")))
        .collect();
    let told = |name: &str| {
        let found = numbers.iter().find(|(is, _)| is == name);
        found.unwrap_or_else(|| panic!("{name} in {}", ran.text())).1
    };
    let frame = Frame::over(folder.read("i"));
    let info = frame.info().expect("a good frame");
    assert_eq!((told("F"), told("N"), told("D"), told("R")), (2048, 32, 192, 3));
    assert_eq!(
        (told("B"), told("U"), told("X")),
        (info.bytes_given, info.slots_given, info.dead_bytes)
    );
    assert_eq!((told("list 1"), told("list 8")), (info.freed[0], info.freed[7]));
    assert_eq!((told("slots left"), told("bytes left")), (info.free_slots(), info.free_bytes()));
    assert_eq!(told("bytes full"), info.bytes_given * 100 / 2048);
    let packed = frame.pack(vec![0; 2048]).and_then(|packed| packed.info()).expect("a good frame");
    assert_eq!(told("slots to pack"), info.slots_given - packed.slots_given);
    assert_eq!(told("bytes to pack"), info.bytes_given - packed.bytes_given);
}

#[test]
fn list_takes_prefix_delimiter_and_start() {
    let folder = with_lines("list");
    let all = "line.1.mode\nline.1.rate\nline.2.rate\nwan\n";
    folder.frame(&["list", "i"]).done(all);
    folder.frame(&["list", "i", ""]).done(all);
    folder.frame(&["list", "i", "line.1."]).done("line.1.mode\nline.1.rate\n");
    folder.frame(&["list", "i", "x"]).done("");
    folder.frame(&["list", "i", "--delimiter", "."]).done("line.\nwan\n");
    folder.frame(&["list", "i", "line.", "--delimiter", "."]).done("line.1.\nline.2.\n");
    folder.frame(&["list", "i", "--after", "line.1.mode"]).done("line.1.rate\nline.2.rate\nwan\n");
    folder.frame(&["list", "i", "--after", "line.5", "--delimiter", "\\x2e"]).done("wan\n");
    let long = folder.frame(&["list", "i", "line.", "--delimiter", ".", "--long"]);
    long.done("    -      -   -  line.1.\n    -      -   -  line.2.\n");
    let long = folder.frame(&["list", "i", "line.1.", "--long"]);
    let frame = Frame::over(folder.read("i"));
    let place = frame.place(b"line.1.mode").expect("good").expect("there").start;
    let slots = frame.visits(b"line.1.mode").expect("good");
    assert!(long.text().starts_with(&format!("    4 {place:>6} {slots:>3}  line.1.mode\n")));
    let raw = folder.frame(&["list", "i", "line.1.", "--raw"]);
    assert_eq!(raw.out, b"line.1.mode\0line.1.rate\0");
}

#[test]
fn any_bytes_are_put_and_got() {
    let folder = Folder::new("bytes");
    folder.image("i", 2048, 32, "");
    let value: Vec<u8> = (0..=u8::MAX).collect();
    folder.write("value", &value);
    folder.frame(&["put", "i", "\\xff\\\\", "--from", "value"]).done("");
    folder.frame_with(&["put", "i", "k", "--from", "-"], &value).done("");
    folder.frame(&["put", "i", "--raw", "\\x41", "\\"]).done("");
    folder.frame(&["put", "i", "--", "-k", "--raw"]).done("");
    folder.frame(&["put", "i", "ключ", "да"]).done("");
    assert_eq!(folder.frame(&["get", "i", "\\xff\\x5c", "--to", "-"]).out, value);
    assert_eq!(folder.frame(&["get", "i", "k", "--raw"]).out, value);
    folder.frame(&["get", "i", "k", "--to", "out"]).done("");
    assert_eq!(folder.read("out"), value);
    folder.frame(&["get", "i", "\\\\x41"]).done("\\\\\n");
    folder.frame(&["get", "i", "--", "-k"]).done("--raw\n");
    let names = "-k\n\\\\x41\nk\n\\xd0\\xba\\xd0\\xbb\\xd1\\x8e\\xd1\\x87\n\\xff\\\\\n";
    folder.frame(&["list", "i"]).done(names);
}

#[test]
fn a_batch_makes_its_changes_and_tells_what_did_nothing() {
    let folder = with_lines("batch");
    let changes =
        "put a=1\nput wan=2\nreplace line.1.rate=7\nreplace b=1\nerase line.1.mode\nerase c\n";
    let told = "line 2: put wan: the key is there (answer 11)\n\
                line 4: replace b: no such key (answer 8)\n\
                line 6: erase c: no such key (answer 8)\n\
                1 new, 1 replaced, 1 erased, 3 without effect\n";
    folder.frame_with(&["batch", "i", "-"], changes.as_bytes()).done(told);
    let left = "a=1\nline.1.rate=7\nline.2.rate=\nwan=a=b \\\\ \\x00\\x20\n";
    folder.frame(&["export", "i"]).done(left);
    folder.write("none", "");
    folder.frame(&["batch", "i", "none"]).done("0 new, 0 replaced, 0 erased, 0 without effect\n");
}

#[test]
fn what_is_exported_is_imported() {
    let folder = with_lines("export");
    folder.frame(&["export", "i"]).done(LINES);
    folder.image("j", 2048, 32, LINES);
    folder.frame(&["pack", "i", "i"]).done("");
    folder.frame(&["pack", "j", "j"]).done("");
    assert_eq!(folder.read("i"), folder.read("j"));
    folder.write("more", "line.1.rate=200\nnew=1");
    folder.frame(&["import", "i", "more", "--replace"]).done("");
    let ran = folder.frame(&["diff", "j", "i"]);
    assert_eq!(ran.status, Some(1));
    assert_eq!(ran.text(), "- line.1.rate=100\n+ line.1.rate=200\n+ new=1\n");
    let ran = folder.frame(&["diff", "i", "j"]);
    assert_eq!(ran.text(), "- line.1.rate=200\n+ line.1.rate=100\n- new=1\n");
    folder.frame(&["diff", "i", "i"]).done("");
}

#[test]
fn size_tells_a_frame_that_takes_the_records() {
    let folder = Folder::new("size");
    folder.frame_with(&["size"], b"").done(
        "0 records, packed: 1 slots and 8 bytes from D on\n\
         packed     --bytes 1024 --slots 8\n\
         to change  --bytes 1024 --slots 8\n",
    );
    // One node grows through all kinds, and leaves a freed body of each.
    let lines: String = (1..=200).map(|byte| format!("k\\x{byte:02x}=\n")).collect();
    folder.write("lines", lines);
    let told = folder.frame(&["size", "lines"]);
    let to_change = told.text().lines().last().expect("three lines");
    let words = to_change.split_whitespace().skip(2).collect::<Vec<_>>().join(" ");
    folder.shell(&format!("frame new i {words} && frame import i lines")).done("");
    let packed = told.text().lines().nth(1).expect("three lines");
    let words = packed.split_whitespace().skip(1).collect::<Vec<_>>().join(" ");
    let frame = Frame::over(folder.read("i"));
    let info = frame.pack(vec![0; frame.bytes().len()]).and_then(|packed| packed.info());
    let info = info.expect("a good frame");
    let n = info.slots_given.next_multiple_of(2);
    let f = 64 + 4 * n + info.bytes_given - (64 + 4 * info.slots);
    assert_eq!(words, format!("--bytes {f} --slots {n}"));
}

#[test]
fn every_command_has_help() {
    let folder = Folder::new("help");
    let overview = folder.frame(&["--help"]);
    assert_eq!(overview.status, Some(0));
    let commands =
        "new check info list get put replace erase batch pack diff draw export import size";
    for command in commands.split(' ') {
        let ran = folder.frame(&[command, "--help"]);
        assert_eq!((ran.status, ran.err.as_str()), (Some(0), ""));
        assert!(ran.text().starts_with(&format!("frame {command}")), "{}", ran.text());
        assert!(overview.text().contains(&format!("\n  {command}")), "{command}");
    }
}

#[test]
fn progress_is_shown_on_a_terminal_alone() {
    let folder = Folder::new("progress");
    let lines: String = (0..4000).map(|n| format!("line.{n}={n}\n")).collect();
    folder.write("lines", lines);
    folder.frame(&["new", "i", "--bytes", "524288", "--slots", "10240"]).done("");
    folder.frame(&["import", "i", "lines"]).done("");
    let exported = folder.frame(&["export", "i"]);
    assert_eq!((exported.status, exported.err.as_str()), (Some(0), ""));
    let line = format!("{FRAME} export i > out");
    let mut script = Command::new("script");
    let ran = folder.run(script.args(["-qec", &line, "/dev/null"]), b"");
    assert_eq!(ran.status, Some(0), "{}", ran.text());
    assert!(ran.text().contains(" of 4000"), "{}", ran.text());
    assert_eq!(folder.read("out"), exported.out);
}
