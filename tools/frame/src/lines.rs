//! Records as lines of text: `KEY=VALUE`, in which a `=` of the key is written `\x3d`.

use crate::ended::Ended;
use crate::image;
use crate::text;
use std::path::Path;

const BETWEEN: u8 = b'=';

/// The longest file of lines that is read: more than any frame's records take, every byte of them written as `\xNN`.
const MOST: usize = 16 << 20;

pub struct Record {
    pub key: Vec<u8>,
    pub value: Vec<u8>,
}

pub fn line(key: &[u8], value: &[u8]) -> String {
    format!("{}={}\n", shown_key(key), text::shown(value, b""))
}

pub fn shown_key(key: &[u8]) -> String {
    text::shown(key, &[BETWEEN])
}

pub fn record(line: &[u8]) -> Result<Record, String> {
    let middle = line.iter().position(|byte| *byte == BETWEEN);
    let middle = middle.ok_or("no = stands between a key and a value")?;
    Ok(Record { key: text::read(&line[..middle])?, value: text::read(&line[middle + 1..])? })
}

/// Reads what every line of a file stands for.
pub fn read<T>(path: &Path, of_line: impl Fn(&[u8]) -> Result<T, String>) -> Result<Vec<T>, Ended> {
    let bytes = image::read_all(path, MOST)?;
    let lines = bytes.split_inclusive(|byte| *byte == b'\n').enumerate();
    let read = lines.map(|(at, line)| {
        let line = line.strip_suffix(b"\n").unwrap_or(line);
        of_line(line).map_err(|why| Ended::at(path, format!("line {}: {why}", at + 1)))
    });
    read.collect()
}

#[cfg(test)]
mod tests {
    use super::*;

    #[test]
    fn a_record_comes_back() {
        for (key, value) in [(&b"a=b"[..], &b"=c\n"[..]), (b" \\", b""), (b"\xff\0", b"x y ")] {
            let line = line(key, value);
            let line = line.strip_suffix('\n').expect("a line ends");
            let record = record(line.as_bytes()).expect("a line that was written");
            assert_eq!((&record.key[..], &record.value[..]), (key, value));
        }
        assert!(record(b"a").is_err());
    }
}
