//! The C header and the examples in C and Rust, compiled and run against the
//! archive; the settings files of both through torn and damaged saves.

use second_store::check::{check, check_before, read, Rule};
use second_store::layout::{number, Edition, AT_R};
use second_store::random::Random;
use second_store::unused::soiled;
use std::fs;
use std::path::{Path, PathBuf};
use std::process::{Command, Output};
use std::sync::LazyLock;

/// The edition of the examples' frames.
const EDITION: Edition = Edition::One;
/// Where the bindings found the archive.
const ARCHIVE: &str = env!("FRAME_ARCHIVE");
/// Names the compiler, if it is not `cc`.
const COMPILER_VARIABLE: &str = "CC";

fn root() -> PathBuf {
    PathBuf::from(env!("CARGO_MANIFEST_DIR")).join("..")
}

fn compiler() -> String {
    std::env::var(COMPILER_VARIABLE).unwrap_or_else(|_| "cc".to_string())
}

fn compile(words: &[&str], from: &Path) -> Output {
    let compiler = compiler();
    let include = root().join("include");
    let strict = ["-std=c99", "-Wall", "-Wextra", "-Werror", "-pedantic"];
    let mut command = Command::new(&compiler);
    command.args(strict).arg("-I").arg(include).arg(from).args(words);
    command.output().unwrap_or_else(|error| {
        panic!("no C compiler: `{compiler}`: {error}; let {COMPILER_VARIABLE} name one")
    })
}

fn told(output: &Output) -> String {
    String::from_utf8_lossy(&output.stderr).into_owned()
}

#[test]
fn the_header_is_plain_c() {
    let header = root().join("include/frame_store.h");
    let compiled = compile(&["-fsyntax-only", "-x", "c"], &header);
    assert!(compiled.status.success(), "{}", told(&compiled));
}

fn built(example: &str) -> PathBuf {
    let source = root().join("examples/c").join(example).with_extension("c");
    let program = scratch(example);
    let words = [ARCHIVE, "-o", program.to_str().expect("a path")];
    let compiled = compile(&words, &source);
    assert!(compiled.status.success(), "{}", told(&compiled));
    program
}

fn scratch(name: &str) -> PathBuf {
    Path::new(env!("CARGO_TARGET_TMPDIR")).join(name)
}

/// An example, and the file beside it that has what it writes.
fn writes_what_is_stored(example: &str, stored: &str) {
    let ran = Command::new(built(example)).output().expect("the example starts");
    assert!(ran.status.success(), "{}", told(&ran));
    let stored = root().join("examples/c").join(stored);
    let stored = fs::read_to_string(stored).expect("what it writes is stored");
    assert_eq!(String::from_utf8_lossy(&ran.stdout), stored);
}

#[test]
fn the_example_writes_what_is_stored() {
    writes_what_is_stored("example", "stdout");
}

#[test]
fn the_example_of_edition_2_writes_what_is_stored() {
    writes_what_is_stored("bridge", "bridge.stdout");
}

/// The words of a line of a pkg-config file, with the variables of the file
/// put in.
fn words_of(file: &str, line: &str) -> Vec<String> {
    let start = format!("{line}: ");
    let found = file.lines().find_map(|it| it.strip_prefix(&start));
    let mut text = found.expect("the line is there").to_string();
    for (name, value) in file.lines().rev().filter_map(|it| it.split_once('=')) {
        text = text.replace(&format!("${{{name}}}"), value);
    }
    text.split(' ').map(str::to_string).collect()
}

#[test]
fn an_installed_archive_is_linked_by_its_pkg_config_file() {
    let prefix = scratch("installed");
    let installed = Command::new(root().join("install")).arg(&prefix).arg(ARCHIVE).output();
    let installed = installed.expect("install starts");
    assert!(installed.status.success(), "{}", told(&installed));
    let file = fs::read_to_string(prefix.join("lib/pkgconfig/frame_store.pc"));
    let file = file.expect("there is a pkg-config file");
    let program = prefix.join("example");
    let compiled = Command::new(compiler())
        .args(words_of(&file, "Cflags"))
        .arg(root().join("examples/c/example.c"))
        .args(words_of(&file, "Libs"))
        .arg("-o")
        .arg(&program)
        .output()
        .expect("the compiler starts");
    assert!(compiled.status.success(), "{}", told(&compiled));
    assert!(Command::new(&program).status().expect("the example starts").success());
    let missing = Command::new(root().join("install")).arg(&prefix).arg("nowhere.a").status();
    assert!(!missing.expect("install starts").success(), "installed without an archive");
}

/// How the settings programs end.
const DONE: i32 = 0;
const ABSENT: i32 = 1;
const REFUSED: i32 = 2;
const NONE_STANDS: i32 = 3;
const BAD_FILE: i32 = 4;

/// A counter, a frame and a checksum.
const COUNTER: usize = 8;
const SUMMED: usize = COUNTER + 1_024;
const GENERATION: usize = SUMMED + 4;

/// The checksum of a generation made right again.
fn sum_up(generation: &mut [u8]) {
    let sum = !generation[..SUMMED].iter().fold(!0, |sum: u32, byte| {
        (0..8).fold(sum ^ u32::from(*byte), |sum, _| (sum >> 1) ^ (0xEDB8_8320 * (sum & 1)))
    });
    generation[SUMMED..].copy_from_slice(&sum.to_le_bytes());
}

/// A settings program and the file that it keeps.
struct Settings {
    program: PathBuf,
    file: PathBuf,
}

impl Settings {
    fn new(program: PathBuf, test: &str) -> Settings {
        let file = program.file_name().expect("a program has a name").to_string_lossy();
        let file = scratch(&format!("{file}.{test}"));
        let _ = fs::remove_file(&file);
        Settings { program, file }
    }

    fn both(test: &str) -> [Settings; 2] {
        static IN_C: LazyLock<PathBuf> = LazyLock::new(|| built("settings"));
        [IN_C.clone(), PathBuf::from(env!("CARGO_BIN_EXE_settings_file"))]
            .map(|program| Settings::new(program, test))
    }

    fn run(&self, words: &[&str]) -> (i32, String) {
        let ran = Command::new(&self.program).arg(&self.file).args(words).output();
        let ran = ran.expect("the program starts");
        let ended = ran.status.code().expect("the program ends by itself");
        (ended, String::from_utf8_lossy(&ran.stdout).into_owned())
    }

    fn does(&self, words: &[&str]) {
        assert_eq!(self.run(words), (DONE, String::new()), "{words:?}");
    }

    fn get(&self, key: &str) -> (i32, String) {
        self.run(&["get", key])
    }

    fn bytes(&self) -> Vec<u8> {
        fs::read(&self.file).expect("the file can be read")
    }

    fn holding(&self, bytes: &[u8]) -> &Settings {
        fs::write(&self.file, bytes).expect("the file can be written");
        self
    }

    /// A file with `old` in its first generation and `new` in its second, and
    /// the file before `new` was saved.
    fn saved_over(&self) -> (Vec<u8>, Vec<u8>) {
        self.does(&["init"]);
        self.does(&["set", "rate", "oldest"]);
        self.does(&["set", "rate", "old"]);
        let before = self.bytes();
        self.does(&["set", "rate", "new"]);
        (before, self.bytes())
    }
}

fn value(text: &str) -> (i32, String) {
    (DONE, format!("{text}\n"))
}

#[test]
fn settings_are_set_deleted_and_compacted() {
    let files = Settings::both("changes").map(|settings| {
        assert_eq!(settings.get("a"), (BAD_FILE, String::new()));
        assert!(!settings.file.exists(), "only init makes the file");
        settings.does(&["init"]);
        assert_eq!(settings.run(&["init"]).0, REFUSED, "never over settings that stand");
        settings.does(&["set", "line.rate", "100"]);
        settings.does(&["set", "line.mode", "vdsl"]);
        settings.does(&["set", "line.rate", "50000"]);
        assert_eq!(settings.get("line.rate"), value("50000"));
        settings.does(&["delete", "line.mode"]);
        assert_eq!(settings.get("line.mode"), (ABSENT, String::new()));
        assert_eq!(settings.run(&["delete", "line.mode"]).0, ABSENT);
        assert_eq!(settings.run(&["set", "", "1"]).0, REFUSED);
        settings.does(&["compact"]);
        assert_eq!(settings.get("line.rate"), value("50000"));
        settings.bytes()
    });
    assert_eq!(files[0].len(), 2 * GENERATION);
    assert!(files[0] == files[1], "both programs keep the same file");
}

#[test]
fn a_full_frame_is_packed_and_the_change_tried_again() {
    for settings in Settings::both("full") {
        settings.does(&["init"]);
        for round in 0..200 {
            // Every value is longer or shorter than the last, and leaves it dead.
            let text = "v".repeat(1 + round % 90);
            settings.does(&["set", "rate", &text]);
            assert_eq!(settings.get("rate"), value(&text), "round {round}");
        }
        let before = settings.bytes();
        assert_eq!(settings.run(&["set", "rate", &"v".repeat(2_000)]).0, REFUSED);
        assert!(settings.bytes() == before, "what is refused is not saved");
    }
}

#[test]
fn a_torn_save_leaves_the_settings_before_it() {
    for settings in Settings::both("torn") {
        let (before, after) = settings.saved_over();
        assert!(before[..GENERATION] == after[..GENERATION], "the second one is written");
        for written in 0..=GENERATION {
            let cut = GENERATION + written;
            let torn = [&after[..cut], &before[cut..]].concat();
            let expected = if torn == after { "new" } else { "old" };
            assert_eq!(settings.holding(&torn).get("rate"), value(expected), "{written} bytes");
        }
        let cut = GENERATION + 500;
        settings.holding(&[&after[..cut], &before[cut..]].concat());
        settings.does(&["set", "rate", "newer"]);
        assert_eq!(settings.get("rate"), value("newer"));
        assert!(settings.bytes()[..GENERATION] == after[..GENERATION], "what stood still stands");
    }
}

#[test]
fn a_file_cut_at_any_length_gives_what_stands_or_nothing() {
    for settings in Settings::both("cut") {
        let (_, after) = settings.saved_over();
        for length in 0..=after.len() {
            let expected = match length / GENERATION {
                0 => (NONE_STANDS, String::new()),
                1 => value("old"),
                _ => value("new"),
            };
            assert_eq!(settings.holding(&after[..length]).get("rate"), expected, "{length} bytes");
        }
        settings.holding(&after[..100]);
        assert_eq!(settings.run(&["set", "rate", "1"]).0, NONE_STANDS);
        assert!(settings.bytes() == after[..100], "nothing is made anew unasked");
    }
}

#[test]
fn a_damaged_generation_is_left_for_the_other() {
    for settings in Settings::both("damaged") {
        let (_, after) = settings.saved_over();
        for at in 0..after.len() {
            let mut damaged = after.clone();
            damaged[at] ^= 1 << (at % 8);
            let expected = if at < GENERATION { "new" } else { "old" };
            assert_eq!(settings.holding(&damaged).get("rate"), value(expected), "byte {at}");
        }
    }
}

/// The frames of a file, as bytes.
fn frames(file: &[u8]) -> Vec<&[u8]> {
    file.chunks(GENERATION).map(|generation| &generation[COUNTER..SUMMED]).collect()
}

#[test]
fn a_file_from_before_is_moved_over() {
    for settings in Settings::both("before") {
        settings.saved_over();
        let mut before = settings.bytes();
        for generation in before.chunks_mut(GENERATION) {
            let frame = &mut generation[COUNTER..SUMMED];
            let reading = read(EDITION, frame).expect("the lengths agree");
            let old = soiled(&mut Random::new(1), frame, &reading, &Rule::WIPED);
            frame.copy_from_slice(&old);
            assert_eq!(
                (check(EDITION, frame), check_before(EDITION, frame)),
                (number::NOT_GOOD, number::DONE)
            );
            sum_up(generation);
        }
        assert_eq!(settings.holding(&before).get("rate"), value("new"));
        assert!(settings.bytes() == before, "only a change is saved");
        assert_eq!(settings.run(&["init"]).0, REFUSED, "never over settings that stand");
        settings.does(&["set", "mode", "vdsl"]);
        let after = settings.bytes();
        assert_eq!(
            check(EDITION, frames(&after)[0]),
            number::DONE,
            "the generation that was saved"
        );
        assert!(after[GENERATION..] == before[GENERATION..], "what stood still stands");
        settings.does(&["compact"]);
        for frame in frames(&settings.bytes()) {
            assert_eq!(check(EDITION, frame), number::DONE);
        }
        assert_eq!((settings.get("rate"), settings.get("mode")), (value("new"), value("vdsl")));

        // Good by neither rule, though the checksum is right.
        let mut wrong = before.clone();
        for generation in wrong.chunks_mut(GENERATION) {
            generation[COUNTER + AT_R] += 1;
            sum_up(generation);
        }
        assert_eq!(settings.holding(&wrong).get("rate"), (NONE_STANDS, String::new()));
    }
}
