//! The session program held to a second reading of its paragraph, over the
//! second store and over the exported calls.

use second_store::compare::{Calls, Second};
use second_store::exported::Exported;
use second_store::layout::Edition;
use second_store::random::Random;
use second_store::run::Effort;
use second_store::session::{output, script};
use std::io::Write;
use std::path::PathBuf;
use std::process::{Command, Stdio};

/// Inputs and the outputs stored for them: document 01's example, and a script
/// with every command, every refusal that a line can bring about, lines of no
/// command, and lines at the limit of their length.
const STORED: [(&str, &str); 2] = [
    ("crates/session/stdin", "crates/session/stdout"),
    ("tests/scripts/long.stdin", "tests/scripts/long.stdout"),
];
/// Names the built program, if it stands elsewhere.
const PROGRAM_VARIABLE: &str = "FRAME_SESSION";
/// The program is one of edition 1.
const SECOND: Second = Second(Edition::One);
const EXPORTED: Exported = Exported(Edition::One);
const SCRIPTS: u64 = 60;

fn root() -> PathBuf {
    PathBuf::from(env!("CARGO_MANIFEST_DIR")).join("..")
}

fn stored(file: &str) -> Vec<u8> {
    std::fs::read(root().join(file)).unwrap_or_else(|error| panic!("{file}: {error}"))
}

fn built_program() -> PathBuf {
    let built = root().join("crates/session/out/session");
    let program = std::env::var(PROGRAM_VARIABLE).map_or(built, PathBuf::from);
    assert!(
        program.is_file(),
        "{} is missing: `rt run` in crates/session makes it",
        program.display()
    );
    program
}

/// The first line in which two outputs differ.
fn assert_same(found: &[u8], expected: &[u8], of: &str) {
    let lines = |bytes: &[u8]| -> Vec<String> {
        bytes.split(|byte| *byte == b'\n').map(|l| l.escape_ascii().to_string()).collect()
    };
    let (found_lines, expected_lines) = (lines(found), lines(expected));
    for (at, (one, other)) in found_lines.iter().zip(&expected_lines).enumerate() {
        assert_eq!(one, other, "{of}: line {at}");
    }
    assert_eq!(found_lines.len(), expected_lines.len(), "{of}: number of lines");
}

#[test]
fn the_printed_example_is_answered_as_printed() {
    let input = b"f 1024 8\np a 1\np b 2\ng a\ne c\nk\n";
    let printed = b"frame session 1\n0\n0\n0\n0 1\n8\n0 3 168 2\n";
    for calls in [&SECOND as &dyn Calls, &EXPORTED] {
        assert_same(&output(calls, input), printed, "the example of document 01");
    }
    let (stdin, stdout) = STORED[0];
    assert_eq!(stored(stdin), input);
    assert_eq!(stored(stdout), printed);
}

#[test]
fn stored_scripts_are_answered_as_stored() {
    let program = built_program();
    let Effort { seed, rounds: _ } = Effort::from_environment();
    let mut random = Random::new(seed);
    for (stdin, stdout) in STORED {
        let (input, expected) = (stored(stdin), stored(stdout));
        for calls in [&SECOND as &dyn Calls, &EXPORTED] {
            assert_same(&output(calls, &input), &expected, stdin);
        }
        assert_same(&run(&program, &input, &mut random), &expected, stdin);
    }
}

#[test]
fn the_built_program_agrees_on_random_scripts() {
    let program = built_program();
    let Effort { seed, rounds } = Effort::from_environment();
    for round in 0..rounds * SCRIPTS {
        let mut random = Random::new(seed.wrapping_mul(7_919).wrapping_add(round));
        let input = script(&mut random);
        let of = format!("script of seed {seed}, round {round}");
        assert_same(&run(&program, &input, &mut random), &output(&SECOND, &input), &of);
    }
    assert_same(&run(&program, b"", &mut Random::new(seed)), &output(&SECOND, b""), "no input");
}

/// What the program writes if its input comes in pieces of random lengths.
fn run(program: &PathBuf, input: &[u8], random: &mut Random) -> Vec<u8> {
    let mut child = Command::new(program)
        .stdin(Stdio::piped())
        .stdout(Stdio::piped())
        .spawn()
        .expect("the program starts");
    let mut stdin = child.stdin.take().expect("the program has an input");
    let most = *random.pick(&[1, 7, 300, 5_000]);
    std::thread::scope(|scope| {
        scope.spawn(move || {
            let mut left = input;
            while !left.is_empty() {
                let (piece, rest) = left.split_at(random.from_to(1, most).min(left.len()));
                stdin.write_all(piece).expect("the program reads its input");
                left = rest;
            }
        });
        let ended = child.wait_with_output().expect("the program ends");
        assert!(ended.status.success(), "the program ends with {}", ended.status);
        ended.stdout
    })
}
