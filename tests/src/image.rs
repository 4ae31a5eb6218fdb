//! The packed image, built from a record set and nothing else.
//!
//! Believed here: the section "The packed image" of document 01, and of document 02
//! that a shared beginning is a chain of Prefixes, each full but the last, and
//! that a record's stamp is in its Leaf. It knows no live frame and shares no
//! writer with the store: it splits a sorted run of records, and each part is
//! appended to the end of what is already there.

use crate::layout::*;
use crate::store::Records;
use crate::value::Given;

/// The bytes that packing any good frame with these records, F and N gives.
pub fn image(edition: Edition, f: usize, n: usize, records: &Records) -> Vec<u8> {
    let walked = |key: &[u8]| edition.walked(key);
    let sorted: Vec<Record> = records
        .iter()
        .map(|(key, value)| Record { key, value: value.given(), walked: walked(key) })
        .collect();
    let start = data_start(n);
    let mut image = Image { edition, entries: Vec::new(), data: Vec::new(), start };
    if sorted.is_empty() {
        image.body(Kind::EmptyRoot);
    } else {
        image.node(&sorted, 0);
    }
    image.finish(f, n, records.len())
}

struct Record<'a> {
    key: &'a [u8],
    value: Given<'a>,
    walked: Vec<u8>,
}

struct Image {
    edition: Edition,
    entries: Vec<u32>,
    /// What stands from D on.
    data: Vec<u8>,
    /// D.
    start: usize,
}

impl Image {
    /// Appends a zero body; gives its slot and its place in `data`.
    fn body(&mut self, kind: Kind) -> (u32, usize) {
        let at = self.data.len();
        let units = u32::try_from((self.start + at) / UNIT).expect("an offset in units");
        self.entries.push(((kind as u32) << OFFSET_BITS) | units);
        self.data.resize(at + kind.body_bytes(), 0);
        (self.entries.len() as u32, at)
    }

    fn write(&mut self, at: usize, bytes: &[u8]) {
        self.data[at..at + bytes.len()].copy_from_slice(bytes);
    }

    /// Packs records that agree in their first `depth` walked bytes.
    fn node(&mut self, run: &[Record], depth: usize) -> u32 {
        if let [record] = run {
            return self.leaf(record);
        }
        let (first, last) = (&run[0].walked[depth..], &run[run.len() - 1].walked[depth..]);
        let common = shared(first, last);
        if common == 0 {
            return self.inner(run, depth);
        }
        // What is shared beyond one Prefix is in those below it.
        let piece = common.min(LONGEST_PREFIX);
        let (slot, at) = self.body(Kind::Prefix);
        let child = self.node(run, depth + piece);
        self.write(at + PREFIX_CHILD, &child.to_le_bytes());
        self.write(at + PREFIX_LENGTH, &(piece as u16).to_le_bytes());
        self.write(at + PREFIX_BYTES.start, &first[..piece]);
        slot
    }

    fn leaf(&mut self, record: &Record) -> u32 {
        let (slot, at) = self.body(Kind::Leaf);
        let extent = self.start + self.data.len();
        self.write(at + LEAF_EXTENT, &(extent as u32).to_le_bytes());
        self.write(at + LEAF_KEY_LENGTH, &(record.key.len() as u16).to_le_bytes());
        self.write(at + LEAF_VALUE_LENGTH, &(record.value.bytes.len() as u16).to_le_bytes());
        self.write(at + LEAF_STAMP.start, &record.value.stamp.to_le_bytes());
        self.data.extend_from_slice(record.key);
        self.data.extend_from_slice(record.value.bytes);
        self.data.resize(rounded(self.data.len()), 0);
        slot
    }

    /// Packs records that part at the walked byte `depth`.
    fn inner(&mut self, run: &[Record], depth: usize) -> u32 {
        let groups: Vec<&[Record]> =
            run.chunk_by(|a, b| a.walked[depth] == b.walked[depth]).collect();
        let kind = match groups.len() {
            0..=4 => Kind::Node4,
            5..=16 => Kind::Node16,
            17..=48 => Kind::Node48,
            _ => Kind::Node256,
        };
        let (slot, at) = self.body(kind);
        self.write(at + INNER_COUNT, &(groups.len() as u16).to_le_bytes());
        for (index, group) in groups.into_iter().enumerate() {
            let byte = group[0].walked[depth];
            let child = self.node(group, depth + 1).to_le_bytes();
            match kind {
                Kind::Node256 => self.write(at + kind.child_at(usize::from(byte)), &child),
                Kind::Node48 => {
                    self.write(at + NODE48_INDEX + usize::from(byte), &[index as u8 + 1]);
                    self.write(at + kind.child_at(index), &child);
                }
                _ => {
                    let bytes = kind.branch_bytes().expect("a Node4 or a Node16").start;
                    self.write(at + bytes + index, &[byte]);
                    self.write(at + kind.child_at(index), &child);
                }
            }
        }
        slot
    }

    fn finish(self, f: usize, n: usize, records: usize) -> Vec<u8> {
        let b = self.start + self.data.len();
        let mut frame = Vec::with_capacity(f);
        for field in [self.edition.number(), f, n, self.start, b, self.entries.len(), records, 0] {
            frame.extend_from_slice(&(field as u32).to_le_bytes());
        }
        let root: u16 = 1;
        frame.extend_from_slice(&root.to_le_bytes());
        frame.resize(AT_ENTRIES, 0);
        for entry in &self.entries {
            frame.extend_from_slice(&entry.to_le_bytes());
        }
        assert!(frame.len() <= self.start && b <= f, "the image fits the frame");
        frame.resize(self.start, 0);
        frame.extend_from_slice(&self.data);
        frame.resize(f, 0);
        frame
    }
}
