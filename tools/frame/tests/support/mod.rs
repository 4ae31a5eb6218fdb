//! The built program, run in a folder of the test's own.
#![allow(dead_code)]

use std::fs;
use std::io::Write;
use std::path::{Path, PathBuf};
use std::process::{Command, Output, Stdio};

pub const FRAME: &str = env!("CARGO_BIN_EXE_frame");

/// What the program left of the file beside an image.
pub const BESIDE: &str = ".frame-new";

pub struct Folder {
    pub path: PathBuf,
}

pub struct Ran {
    /// None if a signal ended it.
    pub status: Option<i32>,
    pub out: Vec<u8>,
    pub err: String,
}

impl Folder {
    pub fn new(name: &str) -> Folder {
        let path = Path::new(env!("CARGO_TARGET_TMPDIR")).join(name);
        let _ = fs::remove_dir_all(&path);
        fs::create_dir_all(&path).expect("a folder for the test");
        Folder { path }
    }

    pub fn at(&self, name: &str) -> PathBuf {
        self.path.join(name)
    }

    pub fn write(&self, name: &str, bytes: impl AsRef<[u8]>) {
        fs::write(self.at(name), bytes).expect("a file in the test's folder");
    }

    pub fn read(&self, name: &str) -> Vec<u8> {
        fs::read(self.at(name)).expect("a file in the test's folder")
    }

    /// The names of all files.
    pub fn names(&self) -> Vec<String> {
        let files = fs::read_dir(&self.path).expect("the test's folder");
        let mut names: Vec<String> = files
            .map(|file| file.expect("a file").file_name().to_string_lossy().into_owned())
            .collect();
        names.sort();
        names
    }

    pub fn frame(&self, words: &[&str]) -> Ran {
        self.frame_with(words, b"")
    }

    pub fn frame_with(&self, words: &[&str], input: &[u8]) -> Ran {
        let mut command = Command::new(FRAME);
        self.run(command.args(words), input)
    }

    /// A line of a shell, in which `frame` is the built program.
    pub fn shell(&self, line: &str) -> Ran {
        let folder = Path::new(FRAME).parent().expect("the program has a folder");
        let before = std::env::var("PATH").unwrap_or_default();
        let path = format!("{}:{before}", folder.display());
        self.run(Command::new("sh").args(["-c", line]).env("PATH", path), b"")
    }

    pub fn run(&self, command: &mut Command, input: &[u8]) -> Ran {
        let piped = command.stdin(Stdio::piped()).stdout(Stdio::piped()).stderr(Stdio::piped());
        let mut child = piped.current_dir(&self.path).spawn().expect("the program starts");
        // A program that does not read its input may be gone already.
        let _ = child.stdin.take().expect("its input").write_all(input);
        let Output { status, stdout, stderr } = child.wait_with_output().expect("it ends");
        let err = String::from_utf8(stderr).expect("messages are text");
        Ran { status: status.code(), out: stdout, err }
    }

    /// An image with records, by one import.
    pub fn image(&self, name: &str, bytes: usize, slots: usize, lines: &str) {
        let (bytes, slots) = (bytes.to_string(), slots.to_string());
        self.frame(&["new", name, "--bytes", &bytes, "--slots", &slots]).done("");
        self.frame_with(&["import", name], lines.as_bytes()).done("");
    }
}

impl Drop for Folder {
    fn drop(&mut self) {
        let _ = fs::remove_dir_all(&self.path);
    }
}

impl Ran {
    pub fn text(&self) -> &str {
        std::str::from_utf8(&self.out).expect("the output is text")
    }

    /// It ended well, with just this output.
    #[track_caller]
    pub fn done(&self, out: &str) {
        assert_eq!((self.status, self.err.as_str()), (Some(0), ""));
        assert_eq!(self.text(), out);
    }

    /// It ended with 1, wrote nothing, and said these words.
    #[track_caller]
    pub fn stopped(&self, words: &str) {
        assert_eq!((self.status, self.text()), (Some(1), ""), "{}", self.err);
        assert!(self.err.starts_with("frame: ") && self.err.contains(words), "{}", self.err);
    }
}
