//! The converters of the reference, as `rulfjen_books.h` declares them.

use crate::{lent, list, transfer};
use reference::convert;

/// # Safety
/// As `rulfjen_books.h` says.
#[no_mangle]
pub unsafe extern "C" fn rulfjen_upgrade(
    book: *const u8,
    book_length: usize,
    out: *mut u8,
    out_length: usize,
    value: *mut usize,
) -> usize {
    transfer(convert::upgrade(list(book, book_length), lent(out, out_length)), &mut *value)
}

/// # Safety
/// As `rulfjen_books.h` says.
#[no_mangle]
pub unsafe extern "C" fn rulfjen_downgrade(
    book: *const u8,
    book_length: usize,
    out: *mut u8,
    out_length: usize,
    value: *mut usize,
) -> usize {
    transfer(convert::downgrade(list(book, book_length), lent(out, out_length)), &mut *value)
}
