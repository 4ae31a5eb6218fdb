//! What stands where in a good frame, stretch by stretch.
//!
//! Read by the rules of document 01, after the proved check has called the frame good.

use crate::image::EDITION;
use frame_rules::check::read;
use frame_rules::layout::*;
use std::ops::Range;

#[derive(Clone, Copy, PartialEq, Eq, PartialOrd, Ord, Debug)]
pub enum What {
    Header,
    /// Entries of slots that were given out, and of those that were not.
    Given,
    NotGiven,
    Body(Kind),
    Freed(Kind),
    Extent,
    /// What neither a body nor a live extent takes between D and B.
    Dead,
    /// From B on.
    Free,
}

pub struct Stretch {
    pub what: What,
    pub bytes: Range<usize>,
    /// Of a body or an extent.
    pub slot: Option<usize>,
}

/// All bytes of a good frame, in their order.
pub fn stretches(frame: &[u8]) -> Vec<Stretch> {
    let reading = read(EDITION, frame).expect("the lengths of a good frame agree");
    let (data, never_given) = (get32(frame, AT_D), get32(frame, AT_B));
    let mut taken: Vec<Stretch> = Vec::new();
    let mut body = |slot: usize, kind: Kind, what: What| {
        let at = get_entry(frame, slot).0;
        taken.push(Stretch { what, bytes: at..at + kind.body_bytes(), slot: Some(slot) });
    };
    for (slot, kind) in &reading.live {
        body(*slot, *kind, What::Body(*kind));
    }
    for kind in Kind::ALL {
        for slot in &reading.lists[kind.number()] {
            body(*slot, kind, What::Freed(kind));
        }
    }
    let extents = reading.extents.into_iter();
    taken.extend(extents.map(|(slot, bytes)| Stretch {
        what: What::Extent,
        bytes,
        slot: Some(slot),
    }));
    taken.sort_by_key(|stretch| stretch.bytes.start);

    let entries_end = entry_at(get32(frame, AT_U) + 1);
    let mut all = vec![
        plain(What::Header, 0..AT_ENTRIES),
        plain(What::Given, AT_ENTRIES..entries_end),
        plain(What::NotGiven, entries_end..data),
    ];
    let mut at = data;
    for stretch in taken {
        all.push(plain(What::Dead, at..stretch.bytes.start));
        at = stretch.bytes.end;
        all.push(stretch);
    }
    all.push(plain(What::Dead, at..never_given));
    all.push(plain(What::Free, never_given..frame.len()));
    all.retain(|stretch| !stretch.bytes.is_empty());
    all
}

fn plain(what: What, bytes: Range<usize>) -> Stretch {
    Stretch { what, bytes, slot: None }
}

impl What {
    /// In the order of a legend.
    pub fn all() -> Vec<What> {
        let mut all = vec![What::Header, What::Given, What::NotGiven];
        all.extend(Kind::ALL.map(What::Body));
        all.push(What::Extent);
        all.extend(Kind::ALL.map(What::Freed));
        all.extend([What::Dead, What::Free]);
        all
    }

    /// A kind by its number in document 01.
    pub fn letter(self) -> char {
        match self {
            What::Header => 'H',
            What::Given => 'T',
            What::NotGiven => 't',
            What::Body(kind) => {
                char::from_digit(kind.number() as u32, 10).expect("a number of one digit")
            }
            What::Freed(_) => 'f',
            What::Extent => 'e',
            What::Dead => 'x',
            What::Free => '.',
        }
    }

    pub fn name(self) -> String {
        match self {
            What::Header => "header".into(),
            What::Given => "table, slots given out".into(),
            What::NotGiven => "table, slots not given out".into(),
            What::Body(kind) => format!("{kind:?}"),
            What::Freed(kind) => format!("freed {kind:?}"),
            What::Extent => "extents: keys and values".into(),
            What::Dead => "dead".into(),
            What::Free => "never given out".into(),
        }
    }
}
