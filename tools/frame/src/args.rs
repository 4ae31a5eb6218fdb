//! The words of a call: a command, its operands and its options.

use crate::ended::Ended;
use crate::help::{self, Command};
use crate::text;
use std::ffi::{OsStr, OsString};
use std::os::unix::ffi::OsStrExt;
use std::path::{Path, PathBuf};

pub enum Call {
    /// The help of a command, or of the whole tool.
    Help(Option<&'static Command>),
    Run(Given),
}

/// A command with what it was given.
pub struct Given {
    pub command: &'static Command,
    operands: Vec<OsString>,
    /// Options by name; one that takes no value has an empty one.
    options: Vec<(&'static str, OsString)>,
}

pub fn parse(words: &[OsString]) -> Result<Call, Ended> {
    let (name, words) = words.split_first().ok_or_else(|| Ended::Usage(help::overview()))?;
    if name == "--help" {
        return Ok(Call::Help(None));
    }
    let command = help::COMMANDS.iter().find(|command| name == command.name).ok_or_else(|| {
        Ended::Usage(format!("no command is named {}; `frame --help` names them", shown(name)))
    })?;
    let mut given = Given { command, operands: Vec::new(), options: Vec::new() };
    let mut words = words.iter();
    let mut only_operands = false;
    while let Some(word) = words.next() {
        let is_option = !only_operands && word.as_bytes().starts_with(b"-") && word != "-";
        if !is_option {
            given.operands.push(word.clone());
        } else if word == "--" {
            only_operands = true;
        } else if word == "--help" {
            return Ok(Call::Help(Some(command)));
        } else {
            let option = command.options.iter().find(|option| word == option.name);
            let option =
                option.ok_or_else(|| given.wrong(&format!("no option {}", shown(word))))?;
            let value = match (option.value, words.as_slice()) {
                (None, _) => OsString::new(),
                (Some(_), [value, ..]) => {
                    words.next();
                    value.clone()
                }
                (Some(what), []) => {
                    return Err(given.wrong(&format!("{} needs {what}", option.name)));
                }
            };
            given.options.push((option.name, value));
        }
    }
    if !command.operands.contains(&given.operands.len()) {
        return Err(given.wrong("too few or too many words"));
    }
    Ok(Call::Run(given))
}

fn shown(word: &OsStr) -> String {
    text::shown(word.as_bytes(), b"")
}

impl Given {
    /// Wrong usage of the command.
    pub fn wrong(&self, what: &str) -> Ended {
        let Command { name, usage, .. } = self.command;
        Ended::Usage(format!("{name}: {what}\nusage: {usage}\n`frame {name} --help` says more"))
    }

    pub fn operand(&self, at: usize) -> Option<&OsStr> {
        self.operands.get(at).map(OsString::as_os_str)
    }

    /// A file that is given whatever else is.
    pub fn path(&self, at: usize) -> &Path {
        Path::new(self.operand(at).expect("the number of operands was looked at"))
    }

    pub fn flag(&self, name: &str) -> bool {
        self.option(name).is_some()
    }

    fn option(&self, name: &str) -> Option<&OsStr> {
        let given = self.options.iter().rfind(|(given, _)| *given == name);
        given.map(|(_, value)| value.as_os_str())
    }

    pub fn path_option(&self, name: &str) -> Option<PathBuf> {
        self.option(name).map(PathBuf::from)
    }

    pub fn number(&self, name: &str) -> Result<usize, Ended> {
        let given = self.option(name).ok_or_else(|| self.wrong(&format!("{name} is missing")))?;
        let number = given.to_str().and_then(|digits| digits.parse().ok());
        number.ok_or_else(|| self.wrong(&format!("{name}: {} is no number", shown(given))))
    }

    /// Bytes of a key or value, as they are written: raw, or with `\xNN`.
    fn bytes(&self, word: &OsStr) -> Result<Vec<u8>, Ended> {
        if self.flag("--raw") {
            return Ok(word.as_bytes().to_vec());
        }
        text::read(word.as_bytes()).map_err(|why| self.wrong(&format!("{}: {why}", word.display())))
    }

    pub fn bytes_operand(&self, at: usize) -> Result<Option<Vec<u8>>, Ended> {
        self.operand(at).map(|word| self.bytes(word)).transpose()
    }

    /// All operands from one on, as bytes.
    pub fn bytes_operands(&self, from: usize) -> Result<Vec<Vec<u8>>, Ended> {
        self.operands[from..].iter().map(|word| self.bytes(word)).collect()
    }

    pub fn bytes_option(&self, name: &str) -> Result<Option<Vec<u8>>, Ended> {
        self.option(name).map(|word| self.bytes(word)).transpose()
    }
}
