//! `pack` and `unpack` of the reference, as `rulfjen_columns.h` declares them.

use crate::{lent, list, transfer};
use reference::columns;

/// # Safety
/// As `rulfjen_columns.h` says.
#[no_mangle]
pub unsafe extern "C" fn rulfjen_pack(
    t: usize,
    f: usize,
    terms: *const u16,
    terms_length: usize,
    facts: *const u16,
    facts_length: usize,
    store: *mut u8,
    store_length: usize,
    value: *mut usize,
) -> usize {
    let out = lent(store, store_length);
    transfer(columns::pack(t, f, list(terms, terms_length), list(facts, facts_length), out), &mut *value)
}

/// # Safety
/// As `rulfjen_columns.h` says.
#[no_mangle]
pub unsafe extern "C" fn rulfjen_unpack(
    store: *const u8,
    store_length: usize,
    terms: *mut u16,
    terms_length: usize,
    facts: *mut u16,
    facts_length: usize,
    counts: *mut usize,
) -> usize {
    let unpacked = columns::unpack(list(store, store_length), lent(terms, terms_length), lent(facts, facts_length));
    let (number, numbers) = match unpacked {
        Ok((terms, facts)) => (0, [terms, facts]),
        Err(refusal) => (refusal.number as usize, [refusal.place, 0]),
    };
    lent(counts, 2).copy_from_slice(&numbers);
    number
}
