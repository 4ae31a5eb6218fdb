//! The commands: what they are called, what they take, and what is said of them.

use crate::args::Given;
use crate::commands::{batch, change, check, diff, draw, get, info, list, new, pack, records};
use crate::ended::Ended;
use std::ops::RangeInclusive;

pub struct Command {
    pub name: &'static str,
    pub usage: &'static str,
    /// One line.
    pub does: &'static str,
    /// What else there is to say.
    pub more: &'static str,
    pub operands: RangeInclusive<usize>,
    pub options: &'static [CommandOption],
    pub run: fn(&Given) -> Result<(), Ended>,
}

/// An option, and what it needs behind it.
pub struct CommandOption {
    pub name: &'static str,
    pub value: Option<&'static str>,
}

const fn flag(name: &'static str) -> CommandOption {
    CommandOption { name, value: None }
}

const fn valued(name: &'static str, value: &'static str) -> CommandOption {
    CommandOption { name, value: Some(value) }
}

const RAW: CommandOption = flag("--raw");
const FROM: CommandOption = valued("--from", "a file");

pub const COMMANDS: &[Command] = &[
    Command {
        name: "new",
        usage: "frame new IMAGE --bytes F --slots N",
        does: "make an image of an empty frame",
        more: "F is a multiple of 8 from 1024 to 524288, N an even number from 8 to 10240, and 64 + 4N + 8 is at most F.\n\
               A file that is there already is left as it is. `frame size` tells which F and N records need.",
        operands: 1..=1,
        options: &[valued("--bytes", "a number"), valued("--slots", "a number")],
        run: new::run,
    },
    Command {
        name: "check",
        usage: "frame check IMAGE",
        does: "say whether an image is a good frame, or why not",
        more: "The verdict is the proved check's. For a frame that is not good it is followed by the rules that are broken, each\n\
               with the slot and the bytes where it is broken first, and the status is 1.\n\
               A good frame is one that is built as it should be: damage that leaves it so is not noticed.\n\
               Of an image that was good before freed bytes were wiped it is said that it has to be packed once, and how.",
        operands: 1..=1,
        options: &[],
        run: check::run,
    },
    Command {
        name: "info",
        usage: "frame info IMAGE",
        does: "tell how full a frame is",
        more: "One line a number: F, N, D, B, U, R, X, the freed bodies on each list, what was never given out, and what packing\n\
               would give back.",
        operands: 1..=1,
        options: &[],
        run: info::run,
    },
    Command {
        name: "list",
        usage: "frame list IMAGE [PREFIX] [--delimiter BYTE] [--after KEY] [--long] [--raw]",
        does: "list names in byte order",
        more: "PREFIX          only names that begin with it\n\
               --delimiter /   names that share the text up to and with the first such byte after the prefix are one line\n\
               --after KEY     only what sorts after it\n\
               --long          before each name the value's length and place, and how many slots its look-up visits; - for a group\n\
               --raw           names as they are, each ended by a byte 0; and no \\xNN in what is given",
        operands: 1..=2,
        options: &[valued("--delimiter", "a byte"), valued("--after", "a key"), flag("--long"), RAW],
        run: list::run,
    },
    Command {
        name: "get",
        usage: "frame get IMAGE KEY [--to FILE] [--raw]",
        does: "write the value of a key",
        more: "The value is written as text with \\xNN, and a line end. With --to FILE its bytes are written to FILE as they are, with\n\
               --to - to the output. --raw: the same, and no \\xNN in KEY.",
        operands: 2..=2,
        options: &[valued("--to", "a file"), RAW],
        run: get::run,
    },
    Command {
        name: "put",
        usage: "frame put IMAGE KEY (VALUE | --from FILE) [--raw]",
        does: "put a new record",
        more: "A key that is there is left as it is, and the status is 1: `frame replace` gives it another value.\n\
               --from FILE     the value is all that FILE holds; - is the input\n\
               --raw           no \\xNN in KEY and VALUE",
        operands: 2..=3,
        options: &[FROM, RAW],
        run: change::put,
    },
    Command {
        name: "replace",
        usage: "frame replace IMAGE KEY (VALUE | --from FILE) [--raw]",
        does: "give a record another value",
        more: "A key that is not there is not put, and the status is 1.\n\
               --from FILE     the value is all that FILE holds; - is the input\n\
               --raw           no \\xNN in KEY and VALUE",
        operands: 2..=3,
        options: &[FROM, RAW],
        run: change::replace,
    },
    Command {
        name: "erase",
        usage: "frame erase IMAGE KEY... [--raw]",
        does: "take records out",
        more: "All of them, or none: if one is not there or its erase is refused, nothing is changed and the status is 1.\n\
               --raw           no \\xNN in keys",
        operands: 2..=usize::MAX,
        options: &[RAW],
        run: change::erase,
    },
    Command {
        name: "batch",
        usage: "frame batch IMAGE FILE",
        does: "make many changes, all or none",
        more: "A line of FILE (- is the input) is a change:\n\
               put KEY=VALUE        replace KEY=VALUE        erase KEY\n\
               in the text that `frame export` writes. A change whose key is there (put) or is not there (replace, erase) does\n\
               nothing and stops nothing; it is told. A change that is refused stops all: the image is left as it was.",
        operands: 2..=2,
        options: &[],
        run: batch::run,
    },
    Command {
        name: "pack",
        usage: "frame pack IMAGE OUT [--before]",
        does: "write the packed image",
        more: "The one image of the same records with the same F and N: nothing dead, nothing freed. OUT may be IMAGE.\n\
               --before        IMAGE may be from before freed bytes were wiped, which every other command refuses",
        operands: 2..=2,
        options: &[flag("--before")],
        run: pack::run,
    },
    Command {
        name: "diff",
        usage: "frame diff IMAGE IMAGE",
        does: "compare the records of two images",
        more: "- KEY=VALUE for what only the first has, + KEY=VALUE for what only the second has. The status is 1 if they differ.",
        operands: 2..=2,
        options: &[],
        run: diff::run,
    },
    Command {
        name: "draw",
        usage: "frame draw IMAGE [--svg OUT]",
        does: "draw a map of a frame",
        more: "In the terminal: one character a stretch of bytes, with a legend. --svg: as a drawing, with the tree beside it.",
        operands: 1..=1,
        options: &[valued("--svg", "a file")],
        run: draw::run,
    },
    Command {
        name: "export",
        usage: "frame export IMAGE",
        does: "write every record as a line",
        more: "KEY=VALUE, in the order of keys. A byte that is not printable is \\xNN, a backslash is \\\\, a = in a key is \\x3d.\n\
               `frame import` reads it.",
        operands: 1..=1,
        options: &[],
        run: records::export,
    },
    Command {
        name: "import",
        usage: "frame import IMAGE [FILE] [--replace]",
        does: "put a record for every line, all or none",
        more: "The lines are those of `frame export`, from FILE or the input.\n\
               --replace       a key that is there gets the line's value; without it, such a line stops all",
        operands: 1..=2,
        options: &[flag("--replace")],
        run: records::import,
    },
    Command {
        name: "size",
        usage: "frame size [FILE]",
        does: "tell which F and N records need",
        more: "The lines are those of `frame export`, from FILE or the input. Told are what they take when packed, the frame\n\
               that holds just that, and one into which they can be imported, with a quarter more than packed, for changes.",
        operands: 0..=1,
        options: &[],
        run: records::size,
    },
];

const ABOUT: &str = "\
A key has 1 to 112 bytes, none of them 0; a value has 0 to 65535. Both are written with \\xNN for any byte and \\\\ for a backslash.
An image is replaced only as a whole: IMAGE.frame-new is written beside it, flushed and renamed. What is left of one after an
interrupt is used by the next change.
The status is 0; 1: what was asked was not done, or is not so; 2: wrong usage. `frame COMMAND --help` says more.
";

/// All commands, a line each.
pub fn overview() -> String {
    let lines = COMMANDS.iter().map(|command| format!("  {:8} {}\n", command.name, command.does));
    format!("a tool for frame images\n\n{}\n{ABOUT}", lines.collect::<String>())
}

/// All that is said of a command.
pub fn whole(command: &Command) -> String {
    let Command { usage, does, more, .. } = command;
    format!("{usage}\n\n{does}\n\n{more}\n")
}
