//! Trees as deep as document 01 allows, for the stack.
//!
//! The longest key is one byte repeated; other keys leave it after each byte,
//! so that a node stands at each of its 112 bytes and its Leaf is slot 113 of
//! the way. The trees differ in the kind that the way goes through. In edition 2 the
//! way of bytes 0 is the longest: other keys leave it where a byte 0 begins, and end
//! where one could go on.

use crate::plain::layout::number::DONE;
use crate::plain::layout::{LONGEST_FRAME, MOST_SLOTS};
use crate::plain::{self, Edition, One, Two};

pub struct DeepTree {
    pub name: &'static str,
    pub frame: Vec<u8>,
    /// The key of the deepest Leaf.
    pub present: Vec<u8>,
    /// A key that leaves the way at its last node.
    pub absent: Vec<u8>,
}

const LONGEST_KEY: usize = One::LONGEST_KEY;

/// The byte that leads further down.
const DOWN: u8 = b'z';

/// What the way to the deepest Leaf goes through.
struct Shape {
    name: &'static str,
    /// Children of each node.
    children: u8,
    /// Bytes from one node to the next; with 2 there is a Prefix between.
    distance: usize,
    /// Nodes at the first so many bytes have all these children, others two.
    wide_bytes: usize,
}

const SHAPES: [Shape; 5] = [
    Shape { name: "Node4", children: 2, distance: 1, wide_bytes: LONGEST_KEY },
    Shape { name: "Prefix, Node4", children: 2, distance: 2, wide_bytes: LONGEST_KEY },
    Shape { name: "Node16", children: 5, distance: 1, wide_bytes: LONGEST_KEY },
    Shape { name: "Node48", children: 17, distance: 1, wide_bytes: LONGEST_KEY },
    // The longest frame has no room for 112 of them with their Leaves.
    Shape { name: "Node256", children: 49, distance: 1, wide_bytes: 100 },
];

/// All shapes, in frames of the longest length.
pub fn deep_trees() -> Vec<DeepTree> {
    SHAPES.iter().map(deep_tree).collect()
}

fn deep_tree(shape: &Shape) -> DeepTree {
    let mut frame = formatted::<One>();
    let present = vec![DOWN; LONGEST_KEY];
    put::<One>(&mut frame, &present);
    for depth in (shape.distance - 1..LONGEST_KEY).step_by(shape.distance) {
        let children = if depth < shape.wide_bytes { shape.children } else { 2 };
        (1..children).for_each(|byte| put::<One>(&mut frame, &leaving(depth, byte)));
    }
    let absent = leaving(LONGEST_KEY - 1, shape.children);
    DeepTree { name: shape.name, frame, present, absent }
}

/// A key that leaves the longest one after so many bytes.
fn leaving(depth: usize, byte: u8) -> Vec<u8> {
    let mut key = vec![DOWN; depth];
    key.push(byte);
    key
}

fn formatted<E: Edition>() -> Vec<u8> {
    let mut frame = vec![0; LONGEST_FRAME];
    let number = plain::format::<E>(&mut frame, LONGEST_FRAME, MOST_SLOTS);
    assert_eq!(number, DONE, "the longest frame takes the most slots");
    frame
}

fn put<E: Edition>(frame: &mut [u8], key: &[u8]) {
    assert_eq!(plain::put::<E>(frame, key, b"", 0), DONE, "there is room for a deep tree");
}

/// The deepest tree of edition 2, in a frame of the longest length: a slot for each of
/// 510 walked bytes of the longest key of bytes 0, and its Leaf.
pub fn deepest_of_edition_2() -> DeepTree {
    let zeros = [0; Two::LONGEST_KEY];
    let mut frame = formatted::<Two>();
    for length in 1..=zeros.len() {
        put::<Two>(&mut frame, &zeros[..length]);
        put::<Two>(&mut frame, &[&zeros[..length - 1], &[1]].concat());
    }
    let absent = [&zeros[1..], &[2]].concat();
    DeepTree { name: "edition 2, Node4", frame, present: zeros.to_vec(), absent }
}
