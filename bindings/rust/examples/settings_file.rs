//! Settings in a file that survives a pulled plug: a program to start from.
//!
//!     settings_file FILE init
//!     settings_file FILE get KEY
//!     settings_file FILE set KEY VALUE
//!     settings_file FILE delete KEY
//!     settings_file FILE compact
//!
//! The store itself keeps away from files; everything about them stands here. The file holds two generations, each a counter, a
//! frame and a checksum over both. In use is the one with the higher counter, of those whose checksum is right and whose frame is
//! good. A change is made in memory; then the frame is written over the other generation, with the next counter, and flushed. If
//! the plug is pulled meanwhile, that generation's checksum is wrong and the one in use stays in use. One program at a time uses a
//! file; `examples/c/settings.c` keeps the same one.
//!
//! A file from before the store wiped what it frees is moved over: its frames are packed as they are read, and the next changes save
//! them so. Two compacts write both generations anew.
//!
//! It ends with 0; 1: no such key; 2: refused, nothing was saved; 3: no generation stands; 4: the file cannot be read or written.
#![forbid(unsafe_code)]

use frame_store::{check, Erase, Frame, Put, Refusal, View};
use std::fs::{File, OpenOptions};
use std::io::{self, Read, Seek, SeekFrom, Write};
use std::process::ExitCode;

/// The frame: docs/USING.md says how to choose them.
const F: usize = 1_024;
const N: usize = 32;

const COUNTER: usize = 8;
const CHECKSUM: usize = 4;
const SUMMED: usize = COUNTER + F;
const GENERATION: usize = SUMMED + CHECKSUM;

/// CRC-32: any damage within 32 bits in a row is noticed, any other but one time in 2^32.
fn checksum(bytes: &[u8]) -> u32 {
    !bytes.iter().fold(!0, |sum: u32, byte| {
        (0..8).fold(sum ^ u32::from(*byte), |sum, _| (sum >> 1) ^ (0xEDB8_8320 * (sum & 1)))
    })
}

/// A good frame as it is; one from before freed bytes were wiped, packed.
fn taken(bytes: [u8; F]) -> Result<Frame<[u8; F]>, Refusal> {
    match check(&bytes) {
        Ok(()) => Ok(Frame::over(bytes)),
        Err(_) => View::over(&bytes).pack_before([0; F]),
    }
}

#[derive(Clone, Copy)]
struct Generation {
    counter: u64,
    frame: Frame<[u8; F]>,
}

impl Generation {
    /// What the bytes hold, if they stand.
    fn read(bytes: &[u8]) -> Option<Generation> {
        let (summed, stored) = bytes.split_at_checked(SUMMED)?;
        let stored = u32::from_le_bytes(stored.try_into().ok()?);
        let (counter, frame) = summed.split_first_chunk::<COUNTER>()?;
        if stored != checksum(summed) {
            return None;
        }
        let frame = taken(frame.try_into().ok()?).ok()?;
        Some(Generation { counter: u64::from_le_bytes(*counter), frame })
    }

    fn bytes(&self) -> Vec<u8> {
        let mut bytes = self.counter.to_le_bytes().to_vec();
        bytes.extend(self.frame.bytes());
        bytes.extend(checksum(&bytes).to_le_bytes());
        bytes
    }
}

enum Ended {
    Absent,
    Refused,
    NoneStands,
    BadFile,
}

impl From<Refusal> for Ended {
    fn from(refusal: Refusal) -> Ended {
        eprintln!("{refusal}");
        Ended::Refused
    }
}

impl From<io::Error> for Ended {
    fn from(error: io::Error) -> Ended {
        eprintln!("{error}");
        Ended::BadFile
    }
}

struct Settings {
    file: File,
    /// The generation in use and its place in the file, 0 or 1.
    used: Option<(Generation, usize)>,
}

impl Settings {
    /// Reads the file, which only `init` may make.
    fn load(path: &str, make: bool) -> io::Result<Settings> {
        let mut options = OpenOptions::new();
        let mut file = options.read(true).write(true).create(make).truncate(false).open(path)?;
        let mut bytes = Vec::new();
        file.read_to_end(&mut bytes)?;
        let generations = bytes.chunks(GENERATION).take(2).enumerate();
        let standing = generations.filter_map(|(at, it)| Some((Generation::read(it)?, at)));
        let used = standing.max_by_key(|(generation, _)| generation.counter);
        Ok(Settings { file, used })
    }

    fn frame(&self) -> Result<Frame<[u8; F]>, Ended> {
        Ok(self.used.ok_or(Ended::NoneStands)?.0.frame)
    }

    /// Writes a frame over the generation that is not in use.
    fn save(&mut self, frame: Frame<[u8; F]>) -> Result<(), Ended> {
        let (counter, at) = match &self.used {
            Some((generation, at)) => (generation.counter + 1, 1 - at),
            None => (1, 0),
        };
        let next = Generation { counter, frame };
        self.file.seek(SeekFrom::Start((at * GENERATION) as u64))?;
        self.file.write_all(&next.bytes())?;
        self.file.sync_all()?;
        self.used = Some((next, at));
        Ok(())
    }

    /// What is dead may be what is lacking: where there is no room, the frame is packed and the change is tried once more.
    fn change<T>(
        &self,
        attempt: impl Fn(&mut Frame<[u8; F]>) -> Result<T, Refusal>,
    ) -> Result<(Frame<[u8; F]>, T), Ended> {
        let mut frame = self.frame()?;
        let done = match attempt(&mut frame) {
            Err(Refusal::Room) => {
                frame = frame.pack([0; F])?;
                attempt(&mut frame)
            }
            done => done,
        };
        Ok((frame, done?))
    }

    /// Makes an empty frame, but never over settings that stand.
    fn init(&mut self) -> Result<(), Ended> {
        match self.used {
            Some(_) => Err(Ended::Refused),
            None => self.save(Frame::format([0; F], N)?),
        }
    }

    /// New, or in the place of what is there: a put alone does not replace.
    fn set(&mut self, key: &[u8], value: &[u8]) -> Result<(), Ended> {
        let (frame, _) = self.change(|frame| match frame.put(key, value)? {
            Put::New => Ok(()),
            Put::Present => frame.replace(key, value).map(|_| ()),
        })?;
        self.save(frame)
    }

    fn delete(&mut self, key: &[u8]) -> Result<(), Ended> {
        match self.change(|frame| frame.erase(key))? {
            (_, Erase::Absent) => Err(Ended::Absent),
            (frame, Erase::Done) => self.save(frame),
        }
    }

    fn compact(&mut self) -> Result<(), Ended> {
        self.save(self.frame()?.pack([0; F])?)
    }
}

fn get(settings: &Settings, key: &[u8]) -> Result<(), Ended> {
    let frame = settings.frame()?;
    let value = frame.look_up(key)?.ok_or(Ended::Absent)?;
    io::stdout().write_all(&[value, b"\n"].concat())?;
    Ok(())
}

fn run(words: &[String]) -> Result<(), Ended> {
    let words: Vec<&str> = words.iter().map(String::as_str).collect();
    let [path, command @ ..] = &words[..] else {
        eprintln!("settings_file FILE init | get KEY | set KEY VALUE | delete KEY | compact");
        return Err(Ended::Refused);
    };
    let mut settings = Settings::load(path, command == ["init"])?;
    match command {
        ["init"] => settings.init(),
        ["get", key] => get(&settings, key.as_bytes()),
        ["set", key, value] => settings.set(key.as_bytes(), value.as_bytes()),
        ["delete", key] => settings.delete(key.as_bytes()),
        ["compact"] => settings.compact(),
        _ => Err(Ended::Refused),
    }
}

fn main() -> ExitCode {
    let words: Vec<String> = std::env::args().skip(1).collect();
    match run(&words) {
        Ok(()) => ExitCode::SUCCESS,
        Err(Ended::Absent) => ExitCode::from(1),
        Err(Ended::Refused) => ExitCode::from(2),
        Err(Ended::NoneStands) => ExitCode::from(3),
        Err(Ended::BadFile) => ExitCode::from(4),
    }
}
