//! The converters of C-15: the same rule set in the other version's bytes.

use crate::book::{read_as, refuse, Book, Refusal, Version};

/// Bytes of the longest rule set that has a converter: room for it is asked for.
pub const ROOM: usize = Version::Two.longest();

/// From version 1 to version 2, into the front of `out`: how many bytes.
pub fn upgrade(book: &[u8], out: &mut [u8]) -> Result<usize, Refusal> {
    convert(book, Version::One, Version::Two, out)
}

/// From version 2 to version 1. More predicates than that has are refusal 4 at their count.
pub fn downgrade(book: &[u8], out: &mut [u8]) -> Result<usize, Refusal> {
    convert(book, Version::Two, Version::One, out)
}

/// A refusal leaves `out` as it was: 1 for a list without room for the longest rule set, then the first of 2 to 10.
fn convert(book: &[u8], from: Version, to: Version, out: &mut [u8]) -> Result<usize, Refusal> {
    if out.len() < ROOM {
        return refuse(1, 0);
    }
    let book = read_as(book, &[from], to.most_predicates())?;
    let bytes = Book { version: to, ..book }.bytes();
    out[..bytes.len()].copy_from_slice(&bytes);
    Ok(bytes.len())
}
