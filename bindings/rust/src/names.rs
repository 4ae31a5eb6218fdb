//! Names in order: a page in a lent buffer read entry by entry, and all pages one after the other. Nothing is allocated.

use crate::{Edition, Edition2, Refusal, ViewOf};

/// The longest name, and the longest text of a group, of the edition that has longer ones.
const LONGEST: usize = Edition2::LONGEST_KEY;
/// The length that stands before an entry.
const LENGTH_BYTES: usize = 2;

/// What a listing wrote to its buffer.
#[derive(Clone, Copy, PartialEq, Eq, Hash, Debug)]
pub struct Page {
    /// How many entries.
    pub count: usize,
    /// Whether more remain.
    pub more: bool,
}

impl Page {
    /// The entries of the page in the buffer that it was written to, with the prefix and the delimiter that were asked for.
    pub fn entries<'b>(
        &self,
        buffer: &'b [u8],
        prefix: &[u8],
        delimiter: Option<u8>,
    ) -> Entries<'b> {
        Entries { rest: buffer, left: self.count, before: prefix.len(), delimiter }
    }
}

/// An entry of a listing.
#[derive(Clone, Copy, PartialEq, Eq, Hash, Debug)]
pub enum Entry<'b> {
    /// A key of the frame.
    Name(&'b [u8]),
    /// The text that one key or more share, up to and including the first delimiter after the prefix.
    Group(&'b [u8]),
}

impl<'b> Entry<'b> {
    /// The entry's bytes: where the next page starts, if this is the last one.
    pub fn text(self) -> &'b [u8] {
        match self {
            Entry::Name(text) | Entry::Group(text) => text,
        }
    }

    /// The entry at the start of these bytes, after a prefix of so many.
    fn read(from: &'b [u8], before: usize, delimiter: Option<u8>) -> (Entry<'b>, &'b [u8]) {
        let (length, behind) = from.split_at(LENGTH_BYTES);
        let length = usize::from(u16::from_le_bytes([length[0], length[1]]));
        let (text, rest) = behind.split_at(length);
        let ends_group =
            length > before && delimiter.is_some() && text.last().copied() == delimiter;
        (if ends_group { Entry::Group(text) } else { Entry::Name(text) }, rest)
    }
}

/// The entries of one page.
#[derive(Clone, Debug)]
pub struct Entries<'b> {
    rest: &'b [u8],
    left: usize,
    /// The bytes of the prefix, in which a delimiter does not count.
    before: usize,
    delimiter: Option<u8>,
}

impl<'b> Iterator for Entries<'b> {
    type Item = Entry<'b>;

    fn next(&mut self) -> Option<Entry<'b>> {
        self.left = self.left.checked_sub(1)?;
        let (entry, rest) = Entry::read(self.rest, self.before, self.delimiter);
        self.rest = rest;
        Some(entry)
    }

    fn size_hint(&self) -> (usize, Option<usize>) {
        (self.left, Some(self.left))
    }
}

impl ExactSizeIterator for Entries<'_> {}

/// All names of a frame with one prefix, in byte order, page after page through one buffer. Made by [`ViewOf::names`].
#[derive(Debug)]
pub struct NamesOf<'n, E: Edition> {
    view: ViewOf<'n, E>,
    prefix: &'n [u8],
    start: Option<&'n [u8]>,
    delimiter: Option<u8>,
    buffer: &'n mut [u8],
    /// Where the next entry stands in the buffer, and how many are left there.
    at: usize,
    left: usize,
    /// Whether another page is to be asked for.
    more: bool,
    /// The last entry of the page before, if there was one: the next page starts after it.
    last: [u8; LONGEST],
    last_length: Option<usize>,
}

impl<'n, E: Edition> NamesOf<'n, E> {
    pub(crate) fn new(
        view: ViewOf<'n, E>,
        prefix: &'n [u8],
        buffer: &'n mut [u8],
    ) -> NamesOf<'n, E> {
        NamesOf {
            view,
            prefix,
            start: None,
            delimiter: None,
            buffer,
            at: 0,
            left: 0,
            more: true,
            last: [0; LONGEST],
            last_length: None,
        }
    }

    /// Only what sorts after this key, which need not be there.
    pub fn after(mut self, start: &'n [u8]) -> NamesOf<'n, E> {
        self.start = Some(start);
        self
    }

    /// Names that share the text up to and including the first delimiter after the prefix are one entry.
    pub fn grouped(mut self, delimiter: u8) -> NamesOf<'n, E> {
        self.delimiter = Some(delimiter);
        self
    }

    /// The next entry, until there is none. It stands in the buffer as long as no other is asked for.
    pub fn next_entry(&mut self) -> Result<Option<Entry<'_>>, Refusal> {
        if self.left == 0 && self.more {
            self.turn()?;
        }
        let Some(left) = self.left.checked_sub(1) else {
            return Ok(None);
        };
        let (entry, _) = Entry::read(&self.buffer[self.at..], self.prefix.len(), self.delimiter);
        let text = entry.text();
        self.at += LENGTH_BYTES + text.len();
        self.left = left;
        if left == 0 {
            self.last[..text.len()].copy_from_slice(text);
            self.last_length = Some(text.len());
        }
        Ok(Some(entry))
    }

    /// To the next page.
    fn turn(&mut self) -> Result<(), Refusal> {
        let start = self.last_length.map(|length| &self.last[..length]).or(self.start);
        let page = self.view.list(self.prefix, start, self.delimiter, self.buffer)?;
        (self.at, self.left, self.more) = (0, page.count, page.more);
        Ok(())
    }
}
