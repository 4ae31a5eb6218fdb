//! Image files: read whole, and replaced only as a whole.
//!
//! A change is written to a file beside the image, `IMAGE.frame-new`, flushed, and renamed over it. Whatever ends the program
//! before the renaming leaves the image as it was. The file beside is locked from before the image is read until it is renamed, so
//! that of two changes at once one waits for the other; what an interrupt left of one is written over.

use crate::ended::Ended;
use frame_rules::check::read as read_by_rules;
use frame_rules::layout::{Edition, LONGEST_FRAME};
use frame_rules::words;
use frame_store::{Frame, Refusal, View};
use std::fs::{self, File, OpenOptions};
use std::io::{self, ErrorKind, Read, Write};
use std::os::unix::fs::{fchown, MetadataExt};
use std::path::{Path, PathBuf};

/// The edition of the images that are taken.
pub const EDITION: Edition = Edition::One;

/// What the name of the file beside has at its end.
const BESIDE: &str = ".frame-new";

/// The input, where a file is asked for.
pub const STANDARD: &str = "-";

/// The bytes of an image, or of what is said to be one: of a file that is too long, one more than a frame has.
pub fn read(path: &Path) -> Result<Vec<u8>, Ended> {
    let file = File::open(path).and_then(|file| up_to(file, LONGEST_FRAME + 1));
    file.map_err(|error| Ended::at(path, error))
}

/// All that a file or the input holds, if it is no more than `most` bytes.
pub fn read_all(path: &Path, most: usize) -> Result<Vec<u8>, Ended> {
    let bytes = if path == Path::new(STANDARD) {
        up_to(io::stdin().lock(), most + 1)
    } else {
        File::open(path).and_then(|file| up_to(file, most + 1))
    };
    match bytes.map_err(|error| Ended::at(path, error))? {
        bytes if bytes.len() > most => {
            Err(Ended::at(path, format!("it has more than {most} bytes")))
        }
        bytes => Ok(bytes),
    }
}

fn up_to(from: impl Read, most: usize) -> io::Result<Vec<u8>> {
    let mut bytes = Vec::new();
    let limit = u64::try_from(most).expect("a length of at most 64 bits");
    from.take(limit).read_to_end(&mut bytes)?;
    Ok(bytes)
}

/// A good frame, or why it is none.
pub fn open(path: &Path) -> Result<Frame<Vec<u8>>, Ended> {
    let bytes = read(path)?;
    match frame_store::check(&bytes) {
        Ok(()) => Ok(Frame::over(bytes)),
        Err(refusal) => Err(refused(path, &bytes, refusal)),
    }
}

/// What is said of an image that is refused, and that is no good frame.
pub fn refused(path: &Path, bytes: &[u8], refusal: Refusal) -> Ended {
    let first = why_not(bytes, refusal).into_iter().next().unwrap_or_default();
    let hint = from_before(path, bytes).map(|hint| format!("; {hint}")).unwrap_or_default();
    Ended::at(path, format!("{}: {first}{hint}", verdict(refusal)))
}

/// How an image that the proved check has refused is moved over, if it is from before freed bytes were wiped: the proved packing by
/// the old rule takes it.
pub fn from_before(path: &Path, bytes: &[u8]) -> Option<String> {
    let taken = View::over(bytes).pack_before(vec![0; bytes.len()]).is_ok();
    let path = path.display();
    taken.then(|| {
        format!("it was good before freed bytes were wiped: `frame pack --before {path} {path}` packs it once")
    })
}

/// The proved check's no.
pub fn verdict(refusal: Refusal) -> String {
    format!("not a good frame (answer {})", refusal.number())
}

/// The rules that are broken, in words, for bytes that the proved check has refused.
pub fn why_not(bytes: &[u8], refusal: Refusal) -> Vec<String> {
    let told = match (refusal, read_by_rules(EDITION, bytes)) {
        (Refusal::Length, None) => vec![words::told_lengths(bytes)],
        (_, None) => Vec::new(),
        (_, Some(reading)) => {
            let broken = reading.broken.iter();
            broken.map(|(rule, place)| words::told(EDITION, bytes, *rule, place)).collect()
        }
    };
    match told.is_empty() {
        true => vec![format!("{refusal}; no single rule was found broken")],
        false => told,
    }
}

/// A file that is to be replaced as a whole, and the one beside it.
pub struct Replacing {
    path: PathBuf,
    beside: PathBuf,
    file: File,
}

impl Replacing {
    /// Takes the file beside `named`, which need not be there yet.
    pub fn begin(named: &Path) -> Result<Replacing, Ended> {
        // A link stays one: what it leads to is replaced.
        let path = match fs::canonicalize(named) {
            Ok(real) => real,
            Err(error) if error.kind() == ErrorKind::NotFound => named.to_path_buf(),
            Err(error) => return Err(Ended::at(named, error)),
        };
        if fs::metadata(&path).is_ok_and(|there| !there.is_file()) {
            return Err(Ended::at(named, "is no plain file and cannot be replaced"));
        }
        let name = path.file_name().ok_or_else(|| Ended::at(named, "names no file"))?;
        let beside = path.with_file_name({
            let mut name = name.to_os_string();
            name.push(BESIDE);
            name
        });
        loop {
            let mut options = OpenOptions::new();
            let file = options.write(true).create(true).truncate(false).open(&beside);
            let file = file.map_err(|error| Ended::at(&beside, error))?;
            file.lock().map_err(|error| Ended::at(&beside, error))?;
            // Whoever had it before may have renamed or removed it.
            if is_at(&file, &beside).map_err(|error| Ended::at(&beside, error))? {
                return Ok(Replacing { path, beside, file });
            }
        }
    }

    /// The same for a file that must be there.
    pub fn begin_there(path: &Path) -> Result<Replacing, Ended> {
        fs::metadata(path).map_err(|error| Ended::at(path, error))?;
        Replacing::begin(path)
    }

    /// Whether there is a file to replace.
    pub fn is_there(&self) -> bool {
        self.path.exists()
    }

    /// Writes the bytes beside, flushes and renames.
    pub fn replace(mut self, bytes: &[u8]) -> Result<(), Ended> {
        self.write_beside(bytes).map_err(|error| Ended::at(&self.beside, error))?;
        let renamed = fs::rename(&self.beside, &self.path);
        renamed.map_err(|error| Ended::at(&self.path, error))?;
        let folder = match self.path.parent() {
            Some(folder) if folder != Path::new("") => folder,
            _ => Path::new("."),
        };
        let flushed = File::open(folder).and_then(|folder| folder.sync_all());
        flushed.map_err(|error| Ended::at(folder, format!("replaced, but not flushed: {error}")))
    }

    fn write_beside(&mut self, bytes: &[u8]) -> io::Result<()> {
        self.file.set_len(0)?;
        // Whoever may not read the image may not read this either. Only the system's owner can keep another's file his.
        if let Ok(there) = fs::metadata(&self.path) {
            let _ = fchown(&self.file, Some(there.uid()), Some(there.gid()));
            self.file.set_permissions(there.permissions())?;
        }
        self.file.write_all(bytes)?;
        self.file.sync_all()
    }
}

impl Drop for Replacing {
    fn drop(&mut self) {
        // After the renaming there is none, or one that somebody else has begun.
        if is_at(&self.file, &self.beside).is_ok_and(|ours| ours) {
            let _ = fs::remove_file(&self.beside);
        }
    }
}

/// Whether the file is still the one of that name.
fn is_at(file: &File, path: &Path) -> io::Result<bool> {
    let ours = file.metadata()?;
    match fs::metadata(path) {
        Ok(there) => Ok((there.dev(), there.ino()) == (ours.dev(), ours.ino())),
        Err(error) if error.kind() == ErrorKind::NotFound => Ok(false),
        Err(error) => Err(error),
    }
}

/// Writes a file that is no image: as a whole, or to the end of a device or pipe.
pub fn write(path: &Path, bytes: &[u8]) -> Result<(), Ended> {
    match fs::metadata(path) {
        Ok(there) if !there.is_file() => {
            let written =
                OpenOptions::new().write(true).open(path).and_then(|mut to| to.write_all(bytes));
            written.map_err(|error| Ended::at(path, error))
        }
        _ => Replacing::begin(path)?.replace(bytes),
    }
}
