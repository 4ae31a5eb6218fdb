//! The tree of a good frame, from the root down.
//!
//! Read by the field places of document 01, after the proved check has called the frame good.

use frame_rules::layout::*;

/// A slot of the tree.
pub struct Node {
    pub slot: usize,
    pub kind: Kind,
    /// How many slots stand above it.
    pub depth: usize,
    /// The bytes that lead to it from the slot above: none, a Prefix's, or a child's byte.
    pub by: Vec<u8>,
    /// Of a Leaf.
    pub key: Vec<u8>,
}

/// Every live slot, a parent before its children and these in the order of bytes.
pub fn nodes(frame: &[u8]) -> Vec<Node> {
    let mut found = Vec::new();
    visit(frame, get16(frame, AT_ROOT), 0, Vec::new(), &mut found);
    found
}

fn visit(frame: &[u8], slot: usize, depth: usize, by: Vec<u8>, found: &mut Vec<Node>) {
    let (body, number) = get_entry(frame, slot);
    let kind = Kind::of_number(number).expect("a live slot of a good frame has a kind");
    let key = match kind {
        Kind::Leaf => {
            let extent = get32(frame, body + LEAF_EXTENT);
            frame[extent..][..get16(frame, body + LEAF_KEY_LENGTH)].to_vec()
        }
        _ => Vec::new(),
    };
    found.push(Node { slot, kind, depth, by, key });
    for (by, child) in children(frame, kind, body) {
        visit(frame, child, depth + 1, by, found);
    }
}

/// The slots below a body, each with the bytes that lead to it.
fn children(frame: &[u8], kind: Kind, body: usize) -> Vec<(Vec<u8>, usize)> {
    let child = |index: usize| get32(frame, body + kind.child_at(index));
    let every_byte = || (0..=u8::MAX).map(|byte| (byte, usize::from(byte)));
    match kind {
        Kind::Leaf | Kind::EmptyRoot => Vec::new(),
        Kind::Prefix => {
            let length = get16(frame, body + PREFIX_LENGTH);
            let bytes = frame[body + PREFIX_BYTES.start..][..length].to_vec();
            vec![(bytes, get32(frame, body + PREFIX_CHILD))]
        }
        Kind::Node4 | Kind::Node16 => {
            let start = body + kind.branch_bytes().expect("a Node4 or a Node16").start;
            let count = get16(frame, body + INNER_COUNT);
            (0..count).map(|index| (vec![frame[start + index]], child(index))).collect()
        }
        Kind::Node48 => every_byte()
            .map(|(byte, at)| (byte, usize::from(frame[body + NODE48_INDEX + at])))
            .filter(|(_, place)| *place != 0)
            .map(|(byte, place)| (vec![byte], child(place - 1)))
            .collect(),
        Kind::Node256 => every_byte()
            .map(|(byte, at)| (vec![byte], child(at)))
            .filter(|(_, slot)| *slot != 0)
            .collect(),
    }
}
