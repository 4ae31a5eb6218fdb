//! The names of a frame in byte order, page by page, as the listing gives them.

use frame_store::{Entry, Frame, Refusal};

/// A page takes so many bytes: some hundred names, and more than the longest.
const PAGE: usize = 1 << 16;

#[derive(Default)]
pub struct Asked {
    pub prefix: Vec<u8>,
    pub delimiter: Option<u8>,
    pub after: Option<Vec<u8>>,
}

/// Every name that begins with the prefix and sorts after the key, rolled up at the delimiter.
pub fn each(
    frame: &Frame<Vec<u8>>,
    asked: &Asked,
    mut on: impl FnMut(Entry) -> Result<(), Refusal>,
) -> Result<(), Refusal> {
    let mut buffer = vec![0; PAGE];
    let mut names = frame.names(&asked.prefix, &mut buffer);
    if let Some(delimiter) = asked.delimiter {
        names = names.grouped(delimiter);
    }
    if let Some(after) = &asked.after {
        names = names.after(after);
    }
    while let Some(entry) = names.next_entry()? {
        on(entry)?;
    }
    Ok(())
}

/// All names.
pub fn all(frame: &Frame<Vec<u8>>) -> Result<Vec<Vec<u8>>, Refusal> {
    let mut names = Vec::new();
    each(frame, &Asked::default(), |entry| {
        names.push(entry.text().to_vec());
        Ok(())
    })?;
    Ok(names)
}
