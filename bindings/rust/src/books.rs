//! A rule set in the bytes of the other version (`rulfjen_books.h`).
//!
//! Version 1 has up to 64 predicates, and its count of predicates and predicate numbers are single bytes. Version 2 has up to
//! 1,024, and these numbers take two bytes. A rule set and its conversion have the same answer, tables and stage.
//!
//! Functions at the root take lists of the lengths that are asked for; those of `lists` take any slices, and a short one
//! is refusal 1. A refusal here is numbered 1 to 10.

use crate::{Refusal, BOOK};

/// Converts version 1 to version 2: the count of bytes. Any other version is refusal 3. A refusal leaves the list as it
/// was.
pub fn upgrade(book: &[u8], out: &mut [u8; BOOK]) -> Result<usize, Refusal> {
    lists::upgrade(book, out)
}

/// Converts version 2 to version 1: the count of bytes. Any other version is refusal 3, and more than 64 predicates are
/// refusal 4. A refusal leaves the list as it was.
pub fn downgrade(book: &[u8], out: &mut [u8; BOOK]) -> Result<usize, Refusal> {
    lists::downgrade(book, out)
}

/// The same for a caller's own list, of any length: a short one is refusal 1, and nothing changes behind the bytes that are
/// written.
pub mod lists {
    use crate::lists::transfer;
    use crate::Refusal;

    /// `crate::BOOK` bytes, or more.
    pub fn upgrade(book: &[u8], out: &mut [u8]) -> Result<usize, Refusal> {
        let mut value = 0;
        // SAFETY: pointers and lengths of slices that live through the call and do not overlap; one place
        transfer(&mut value, |value| unsafe {
            super::abi::rulfjen_upgrade(book.as_ptr(), book.len(), out.as_mut_ptr(), out.len(), value)
        })
    }

    /// `crate::BOOK` bytes, or more.
    pub fn downgrade(book: &[u8], out: &mut [u8]) -> Result<usize, Refusal> {
        let mut value = 0;
        // SAFETY: as above; one place
        transfer(&mut value, |value| unsafe {
            super::abi::rulfjen_downgrade(book.as_ptr(), book.len(), out.as_mut_ptr(), out.len(), value)
        })
    }
}

/// `rulfjen_books.h`. A slice crosses as a pointer and a count.
mod abi {
    extern "C" {
        pub fn rulfjen_upgrade(
            book: *const u8,
            book_length: usize,
            out: *mut u8,
            out_length: usize,
            value: *mut usize,
        ) -> usize;
        pub fn rulfjen_downgrade(
            book: *const u8,
            book_length: usize,
            out: *mut u8,
            out_length: usize,
            value: *mut usize,
        ) -> usize;
    }
}
