//! The line program of document 01, over any store's calls, and scripts for it.
//!
//! Believed here: the paragraph that begins "The program takes lines from
//! standard input". It is read here over a whole input and not in pieces.

use crate::compare::Calls;
use crate::layout::number::{DONE, LENGTHS, PRESENT};
use crate::layout::{get32, AT_B, AT_R, AT_U};
use crate::random::Random;
use crate::store::Found;
use crate::value::Value;

pub const GREETING: &[u8] = b"frame session 1\n";
pub const LONGEST_LINE: usize = 1_024;
pub const LONGEST_SESSION_FRAME: usize = 16_384;
const MOST_DIGITS: usize = 9;
const UNKNOWN: &[u8] = b"?";

/// Everything that the program writes for an input.
pub fn output(calls: &dyn Calls, input: &[u8]) -> Vec<u8> {
    let mut session = Session { calls, frame: None };
    let mut written = GREETING.to_vec();
    let mut lines: Vec<&[u8]> = input.split(|byte| *byte == b'\n').collect();
    let without_newline = lines.pop().unwrap_or_default();
    for line in lines {
        written.extend(session.answer(line).unwrap_or_else(|| UNKNOWN.to_vec()));
        written.push(b'\n');
    }
    if !without_newline.is_empty() {
        written.extend_from_slice(UNKNOWN);
        written.push(b'\n');
    }
    written
}

struct Session<'a> {
    calls: &'a dyn Calls,
    /// The frame of the last `f` that was not refused.
    frame: Option<Vec<u8>>,
}

impl Session<'_> {
    /// None is answered `?`.
    fn answer(&mut self, line: &[u8]) -> Option<Vec<u8>> {
        if line.len() > LONGEST_LINE {
            return None;
        }
        let fields: Vec<&[u8]> = line.split(|byte| *byte == b' ').collect();
        match fields[..] {
            [b"f", f, n] => {
                let (f, n) = (decimal(f)?, decimal(n)?);
                Some(self.format(f, n).to_string().into_bytes())
            }
            [b"p", key, value] => {
                let given = put_or_replace(self.calls, self.frame.as_mut()?, key, value);
                Some(given.to_string().into_bytes())
            }
            [b"g", key] => Some(look_up(self.calls, self.frame.as_ref()?, key)),
            [b"e", key] => {
                let given = self.calls.erase(self.frame.as_mut()?, key);
                Some(given.to_string().into_bytes())
            }
            [b"k"] => Some(pack(self.calls, self.frame.as_ref()?)),
            _ => None,
        }
    }

    fn format(&mut self, f: usize, n: usize) -> u32 {
        if f > LONGEST_SESSION_FRAME {
            return LENGTHS;
        }
        let mut frame = vec![0; f];
        let given = self.calls.format(&mut frame, f, n);
        if given == DONE {
            self.frame = Some(frame);
        }
        given
    }
}

/// The session asks for the replacement that a plain put does not make.
fn put_or_replace(calls: &dyn Calls, frame: &mut [u8], key: &[u8], value: &[u8]) -> u32 {
    let value = Value::plain(value);
    match calls.put(frame, key, value) {
        PRESENT => calls.replace(frame, key, value),
        given => given,
    }
}

fn look_up(calls: &dyn Calls, frame: &[u8], key: &[u8]) -> Vec<u8> {
    let Found { number, place, length, .. } = calls.look_up(frame, key);
    let mut answer = number.to_string().into_bytes();
    if number == DONE {
        answer.push(b' ');
        answer.extend_from_slice(&frame[place as usize..][..length as usize]);
    }
    answer
}

fn pack(calls: &dyn Calls, frame: &[u8]) -> Vec<u8> {
    let mut packed = vec![0; frame.len()];
    let given = calls.pack(frame, &mut packed);
    if given != DONE {
        return given.to_string().into_bytes();
    }
    let [u, b, r] = [AT_U, AT_B, AT_R].map(|at| get32(&packed, at));
    format!("{given} {u} {b} {r}").into_bytes()
}

fn decimal(field: &[u8]) -> Option<usize> {
    let digits = (1..=MOST_DIGITS).contains(&field.len()) && field.iter().all(u8::is_ascii_digit);
    let text = std::str::from_utf8(field).ok().filter(|_| digits)?;
    text.parse().ok()
}

const LINES: usize = 400;

/// A random script: mostly commands that do something, with lines of every
/// other sort between them, and sometimes no newline at the end. Every second
/// one is about many children of one node.
pub fn script(random: &mut Random) -> Vec<u8> {
    let mut written = Vec::new();
    let unformatted = random.below(4);
    let wide = random.one_in(2);
    for turn in 0..LINES {
        let line = if turn == unformatted {
            well_formed_f(random)
        } else {
            match random.below(100) {
                0 => well_formed_f(random),
                1 => refused_f(random),
                2..=5 => no_command(random),
                6 => line_at_the_limit(random),
                7..=11 => b"k".to_vec(),
                12..=64 => {
                    let key = key(random, wide);
                    [b"p ", &key[..], b" ", &value(random)[..]].concat()
                }
                65..=89 => [b"e ", &key(random, wide)[..]].concat(),
                _ => [b"g ", &key(random, wide)[..]].concat(),
            }
        };
        written.extend(line);
        written.push(b'\n');
    }
    match random.below(3) {
        0 => written.extend(b"k"),
        1 => written.truncate(written.len() - 1),
        _ => {}
    }
    written
}

fn well_formed_f(random: &mut Random) -> Vec<u8> {
    let f = random.pick(&["1024", "01032", "2048", "16384", "16384", "000016384"]);
    let n = random.pick(&["8", "00000016", "120", "238", "400"]);
    format!("f {f} {n}").into_bytes()
}

fn refused_f(random: &mut Random) -> Vec<u8> {
    let refused = ["f 1023 8", "f 1016 8", "f 16392 8", "f 524288 10240", "f 999999999 8"];
    let more = ["f 1024 7", "f 1024 6", "f 1024 240", "f 16384 10240", "f 0 0", "f 1024 999999999"];
    random.pick(&[&refused[..], &more[..]].concat()).as_bytes().to_vec()
}

fn no_command(random: &mut Random) -> Vec<u8> {
    let lines: [&[u8]; 24] = [
        b"",
        b" ",
        b"?",
        b"f",
        b"f 1024",
        b"f 1024 8 ",
        b"f  1024 8",
        b"f 1024 0000000008",
        b"f 1024 8x",
        b"f -1 8",
        b"f +1024 8",
        b"f 1024 8 8",
        b"p",
        b"p a",
        b"p a b c",
        b"p a b ",
        b"g",
        b"g a b",
        b"e",
        b"e a ",
        b"k ",
        b"k\r",
        b"\0",
        b"G a",
    ];
    match random.below(4) {
        0 => {
            let length = random.below(20);
            random.bytes(length).into_iter().filter(|byte| *byte != b'\n').collect()
        }
        _ => random.pick(&lines).to_vec(),
    }
}

/// A put, or no command at all, of about 1,024 bytes.
fn line_at_the_limit(random: &mut Random) -> Vec<u8> {
    let length = random.from_to(LONGEST_LINE - 1, LONGEST_LINE + 2);
    let mut line: Vec<u8> = random.pick(&[&b"p a "[..], b"p b ", b"g ", b"x"]).to_vec();
    line.resize(length, b'v');
    line
}

fn key(random: &mut Random, wide: bool) -> Vec<u8> {
    match random.below(60) {
        0 => vec![],
        1 => vec![b'k'; random.from_to(111, 114)],
        2 => b"a\0b".to_vec(),
        3..=4 => vec![*random.pick(b"\x01\t\r\x7f\x80\xff")],
        5..=54 if wide => vec![b'w', random.from_to(b'!'.into(), b'~'.into()) as u8],
        _ => {
            let length = random.from_to(1, 4);
            (0..length).map(|_| *random.pick(b"abc")).collect()
        }
    }
}

fn value(random: &mut Random) -> Vec<u8> {
    let length = match random.below(12) {
        0 => 0,
        1 => random.from_to(60, 400),
        _ => random.from_to(1, 12),
    };
    (0..length).map(|_| *random.pick(b"0123456789\0\t\r\xC3\xFF")).collect()
}
