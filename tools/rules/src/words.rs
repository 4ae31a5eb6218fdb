//! What is said of a broken rule.
//!
//! Believed here: the sentence of "A good frame" that each rule stands for,
//! and how what was found in its place is told.

use crate::check::{Place, Rule};
use crate::layout::*;
use std::fmt::Write;

impl Rule {
    /// The rule, in the documents' words.
    pub fn sentence(self, edition: Edition) -> &'static str {
        match self {
            Rule::Edition => match edition {
                Edition::One => "the edition is 1",
                Edition::Two => "the edition is 2",
            },
            Rule::SlotCapacity => "N is even, from 8 to 10,240",
            Rule::DataStart => "D is 64 + 4N",
            Rule::DataFits => "D + 8 is at most F",
            Rule::FirstByteNeverGiven => "B is a multiple of 8 from D + 8 to F",
            Rule::SlotsGiven => "U is from 1 to N",
            Rule::HeaderZero => "the last fourteen bytes of the header are zero",
            Rule::EntriesAboveU => "entries above U are zero",
            Rule::ListThree => "list 3 is empty",
            Rule::ListedSlot => "a list names slots from 1 to U",
            Rule::ListedOnce => "a freed slot stands on exactly one list, once",
            Rule::LiveOrListed => "a slot is either reached from the root or stands on a list",
            Rule::RootSlot => "the root is a slot from 1 to U",
            Rule::ChildSlot => "a child in use is a slot from 1 to U",
            Rule::ReachedOnce => "a live slot is reached from the root exactly once",
            Rule::NoneLost => "each slot from 1 to U is reached from the root or stands on a list",
            Rule::LiveKind => "a live slot is of kind 1, 2 or 4 to 8",
            Rule::BodyPlace => "bodies lie between D and B",
            Rule::ExtentPlace => "live extents lie between D and B",
            Rule::ExtentMultiple => "live extents stand at multiples of 8",
            Rule::Overlap => "no two bodies or live extents overlap",
            Rule::Sum => "B - D equals the sizes of all bodies and live extents plus X",
            Rule::ChildrenAllowed => {
                "children in use: Node4 2 to 4, Node16 4 to 16, Node48 13 to 48, Node256 38 to 256"
            }
            Rule::Count => "the count says how many children are in use",
            Rule::BytesAscend => "the bytes of a Node4 or Node16 strictly ascend",
            Rule::IndexPlace => "a Node48 index entry is 0 or a place from 1 to 48",
            Rule::IndexDistinct => "no two entries of a Node48's index name one place",
            Rule::ZeroField => "zero fields of live bodies are 0",
            Rule::UnusedBytes => "unused bytes of live bodies are 0",
            Rule::UnusedChildren => "unused children of live bodies are 0",
            Rule::PrefixLength => "a Prefix has 1 to 112 bytes",
            Rule::PrefixChild => match edition {
                Edition::One => "the child of a Prefix is of kind 4 to 7",
                Edition::Two => {
                    "the child of a Prefix is of kind 4 to 7, or a Prefix if all 112 bytes are used"
                }
            },
            Rule::KeyLength => match edition {
                Edition::One => "a Leaf's key has 1 to 112 bytes",
                Edition::Two => "a Leaf's key has 1 to 255 bytes",
            },
            Rule::KeyZero => "a Leaf's key holds no byte 0",
            Rule::Path => "a Leaf's walked string begins with the path that leads to it",
            Rule::EmptyRootPlace => "EmptyRoot stands only at the root",
            Rule::Records => "R is 0 with an EmptyRoot, and otherwise counts the Leaves",
            Rule::FreedBody => "freed bodies are zero",
            Rule::DeadExtent => "dead extents are zero",
            Rule::NeverGiven => "bytes from B on are zero",
        }
    }

    /// What stands where it is broken.
    fn found(self, frame: &[u8], place: &Place) -> String {
        let at = place.bytes.start;
        let number = |name: &str, at| format!("{name} is {}", get32(frame, at));
        match self {
            Rule::Edition => number("the edition", at),
            Rule::SlotCapacity => number("N", at),
            Rule::DataStart => {
                format!("{}, N {}", number("D", at), get32(frame, AT_N))
            }
            Rule::DataFits => format!("N is {}, F {}", get32(frame, at), frame.len()),
            Rule::FirstByteNeverGiven => format!("{}, F {}", number("B", at), frame.len()),
            Rule::SlotsGiven => format!("{}, N {}", number("U", at), get32(frame, AT_N)),
            Rule::ListThree => format!("its head is {}", get16(frame, at)),
            Rule::ListedSlot => match place.slot {
                None => format!("the head is {}", get16(frame, at)),
                Some(slot) => format!("the link is {}", get_entry(frame, slot).1),
            },
            Rule::RootSlot => format!("the root is {}", get16(frame, at)),
            Rule::ChildSlot | Rule::PrefixChild => number("the child", at),
            Rule::LiveKind => format!("the high bits are {}", get32(frame, at) >> OFFSET_BITS),
            Rule::BodyPlace | Rule::ExtentPlace => {
                format!("D is {}, B {}", get32(frame, AT_D), get32(frame, AT_B))
            }
            Rule::ExtentMultiple => number("the extent's offset", at),
            Rule::Sum => number("X", at),
            Rule::Records => number("R", at),
            Rule::ChildrenAllowed | Rule::Count => format!("the count is {}", get16(frame, at)),
            Rule::PrefixLength | Rule::KeyLength => format!("the length is {}", get16(frame, at)),
            Rule::HeaderZero
            | Rule::EntriesAboveU
            | Rule::BytesAscend
            | Rule::IndexPlace
            | Rule::IndexDistinct
            | Rule::ZeroField
            | Rule::UnusedBytes
            | Rule::UnusedChildren
            | Rule::FreedBody
            | Rule::DeadExtent
            | Rule::NeverGiven => format!("it holds {}", frame[at]),
            Rule::Overlap => match place.other {
                Some(other) => format!("slot {other} has them too"),
                None => String::new(),
            },
            Rule::ListedOnce => "it is listed again here".into(),
            Rule::ReachedOnce => "it is named again here".into(),
            Rule::LiveOrListed => "it is reached, and on a list".into(),
            Rule::NoneLost => "it is neither".into(),
            Rule::KeyZero | Rule::Path | Rule::EmptyRootPlace => String::new(),
        }
    }
}

/// One line: the rule of the edition, the slot and the bytes, and what stands
/// there.
pub fn told(edition: Edition, frame: &[u8], rule: Rule, place: &Place) -> String {
    let mut line = format!("{}: ", rule.sentence(edition));
    if let Some(slot) = place.slot {
        write!(line, "slot {slot}, ").expect("a string takes it");
    }
    match place.bytes.len() {
        1 => write!(line, "byte {}", place.bytes.start),
        _ => write!(line, "bytes {} to {}", place.bytes.start, place.bytes.end.saturating_sub(1)),
    }
    .expect("a string takes it");
    let found = rule.found(frame, place);
    if !found.is_empty() {
        write!(line, ": {found}").expect("a string takes it");
    }
    line
}

/// Why the lengths are refused, of bytes whose lengths do not agree.
pub fn told_lengths(frame: &[u8]) -> String {
    let limits = "F is a multiple of 8 from 1,024 to 524,288";
    match frame.len() {
        more if more > LONGEST_FRAME => format!("{limits}: there are more bytes"),
        length if !frame_length_allowed(length) => format!("{limits}: there are {length} bytes"),
        length => {
            let stored = get32(frame, AT_F);
            format!("F is the frame's length: bytes 4 to 7: F is {stored}, and there are {length} bytes")
        }
    }
}
