//! Every refusal, wrong words and files of any kind: a message, the status, and every image as it was.

mod support;

use support::Folder;

/// Five records, and no slot left: not even for the Prefix that an erase of b needs.
const FULL: &str = "a=1\nb=2\nab=3\nac=4\nad=5\n";

fn with_full(name: &str) -> Folder {
    let folder = Folder::new(name);
    folder.image("i", 1024, 8, FULL);
    folder
}

/// Runs it, looks at what it says, and at the image, which stays as it was.
#[track_caller]
fn refused(folder: &Folder, words: &[&str], said: &str) {
    let (names, image) = (folder.names(), folder.read("i"));
    folder.frame(words).stopped(said);
    assert_eq!((folder.names(), folder.read("i")), (names, image));
}

#[test]
fn every_refusal_is_told_and_changes_nothing() {
    let folder = with_full("refusals");
    for (f, n) in [("1000", "8"), ("1024", "7"), ("1024", "10240"), ("600000", "8"), ("0", "0")] {
        refused(&folder, &["new", "j", "--bytes", f, "--slots", n], "new refused (answer 1)");
    }
    let long = "k".repeat(113);
    for key in ["", long.as_str()] {
        refused(&folder, &["put", "i", key, "v"], "put refused (answer 3)");
        refused(&folder, &["replace", "i", key, "v"], "replace refused (answer 3)");
        refused(&folder, &["erase", "i", key], "erase refused (answer 3)");
        refused(&folder, &["get", "i", key], "get refused (answer 3)");
        refused(&folder, &["list", "i", "--after", key], "list refused (answer 3)");
    }
    refused(&folder, &["list", "i", &long], "list refused (answer 3)");
    refused(&folder, &["put", "i", "a\\x00", "v"], "put refused (answer 4)");
    refused(&folder, &["get", "i", "\\x00"], "get refused (answer 4)");
    refused(&folder, &["list", "i", "--after", "\\x00"], "list refused (answer 4)");
    folder.write("long", vec![b'v'; 65_536]);
    refused(&folder, &["put", "i", "c", "--from", "long"], "put refused (answer 5)");
    refused(&folder, &["replace", "i", "a", "--from", "long"], "replace refused (answer 5)");
    refused(&folder, &["put", "i", "ae", "6"], "put refused (answer 6): too few slots");
    let wide = "v".repeat(1000);
    refused(&folder, &["replace", "i", "a", &wide], "replace refused (answer 6): too few bytes");
    refused(&folder, &["erase", "i", "b"], "erase refused (answer 6): too few slots");
    refused(&folder, &["put", "i", "a", "2"], "the key is there (answer 11)");
    refused(&folder, &["replace", "i", "x", "2"], "x: no such key (answer 8)");
    refused(&folder, &["erase", "i", "a", "x"], "x: no such key (answer 8)");
    refused(&folder, &["get", "i", "x"], "no such key (answer 8)");
    refused(&folder, &["new", "i", "--bytes", "1024", "--slots", "8"], "it is there already");
}

#[test]
fn a_refused_line_leaves_the_image() {
    let folder = with_full("lines");
    folder.write("batch", "erase ac\nput =1\n");
    refused(&folder, &["batch", "i", "batch"], "line 2: put refused (answer 3)");
    folder.write("batch", "erase ac\nturn a=1\n");
    refused(&folder, &["batch", "i", "batch"], "line 2: no change is named turn");
    folder.write("batch", "erase ac\nerase\n");
    refused(&folder, &["batch", "i", "batch"], "line 2: a change is put, replace or erase");
    folder.write("batch", "put b\n");
    refused(&folder, &["batch", "i", "batch"], "line 1: no = stands between");
    folder.write("lines", "b=3\n");
    refused(&folder, &["import", "i", "lines"], "line 1: b: the key is there (answer 11)");
    folder.write("lines", "b=3\nae=6\n");
    refused(&folder, &["import", "i", "lines", "--replace"], "line 2: put refused (answer 6)");
    folder.write("lines", "b=\\x\n");
    refused(&folder, &["import", "i", "lines"], "line 1: the backslash at place 1");
    folder.write("lines", "a=1\n=\n");
    refused(&folder, &["size", "lines"], "line 2: in the largest frame: put refused (answer 3)");
    folder.write("lines", "a=1\na=2\n");
    refused(&folder, &["size", "lines"], "line 2: the key is there (answer 11)");
    refused(&folder, &["size", "nothing"], "nothing: ");
    refused(&folder, &["size", "/dev/zero"], "/dev/zero: it has more than");
}

#[test]
fn files_of_any_kind_get_a_message() {
    let folder = with_full("files");
    folder.write("empty", "");
    folder.write("text", "not a frame".repeat(200));
    folder.write("long", vec![0; 524_296]);
    folder.write("blank", vec![0; 1024]);
    folder.write("flash", vec![255; 4096]);
    let whole = folder.read("i");
    folder.write("cut", &whole[..1016]);
    const EDITION: usize = 0;
    let mut edition_2 = whole.clone();
    edition_2[EDITION] = 2;
    folder.write("edition", edition_2);
    let ours = ["empty", "text", "long", "blank", "flash", "cut", "edition", "none"];
    for file in ours.into_iter().chain(["/dev/null", "/dev/zero", "."]) {
        for words in [
            &["info", file][..],
            &["list", file],
            &["get", file, "a"],
            &["put", file, "a", "1"],
            &["replace", file, "a", "1"],
            &["erase", file, "a"],
            &["batch", file, "/dev/null"],
            &["pack", file, "out"],
            &["pack", "--before", file, "out"],
            &["diff", file, "i"],
            &["diff", "i", file],
            &["draw", file],
            &["draw", file, "--svg", "out"],
            &["export", file],
            &["import", file, "/dev/null"],
        ] {
            refused(&folder, words, &format!("{file}: "));
        }
        let ran = folder.frame(&["check", file]);
        let told = [ran.text(), &ran.err].concat();
        assert!(ran.status == Some(1) && told.contains(&format!("{file}: ")), "{told}");
    }
    refused(&folder, &["put", "i", "c", "--from", "none"], "none: ");
    refused(&folder, &["put", "i", "c", "--from", "."], ".: ");
    refused(&folder, &["get", "i", "a", "--to", "."], ".: ");
    refused(&folder, &["get", "i", "a", "--to", "none/file"], "none/file");
    refused(&folder, &["pack", "i", "/dev/null"], "is no plain file");
    refused(&folder, &["pack", "i", ".."], "is no plain file");
}

#[test]
fn wrong_words_end_with_2() {
    let folder = with_full("usage");
    let before = folder.read("i");
    for words in [
        &[][..],
        &["turn"],
        &["turn", "i"],
        &["new"],
        &["new", "i"],
        &["new", "j", "--bytes", "1024"],
        &["new", "j", "--bytes", "x", "--slots", "8"],
        &["new", "j", "--bytes"],
        &["new", "j", "--bytes", "-8", "--slots", "8"],
        &["check"],
        &["check", "i", "i"],
        &["check", "--fast", "i"],
        &["info"],
        &["list"],
        &["list", "i", "a", "b"],
        &["list", "i", "--delimiter", "//"],
        &["list", "i", "--delimiter", ""],
        &["list", "i", "--after"],
        &["get", "i"],
        &["get", "i", "\\x4"],
        &["put", "i", "a"],
        &["put", "i", "a", "1", "--from", "i"],
        &["put", "i", "a", "\\n"],
        &["replace", "i", "a"],
        &["erase", "i"],
        &["batch", "i"],
        &["pack", "i"],
        &["pack", "i", "--before"],
        &["pack", "i", "i", "--after"],
        &["diff", "i"],
        &["draw", "i", "--svg"],
        &["export"],
        &["import"],
        &["size", "a", "b"],
    ] {
        let ran = folder.frame(words);
        assert_eq!((ran.status, ran.text()), (Some(2), ""), "{words:?}");
        assert!(ran.err.starts_with("frame: "), "{words:?}");
    }
    assert_eq!((folder.names(), folder.read("i")), (vec!["i".to_string()], before));
}
