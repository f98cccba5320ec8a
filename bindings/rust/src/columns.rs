//! An answer's records laid down by columns, for long storage, and the way back (`rulfjen_columns.h`).
//!
//! Functions at the root take lists of the lengths that are asked for; those of `lists` take any slices, and a short one
//! is refusal 1. A refusal here is numbered 1 or 26, and its place is 0.

use crate::{Refusal, Tables};

/// Bytes of the largest store.
pub const STORE: usize = 30_729;

/// The most records of each kind that a store has.
pub const TERMS_MOST: usize = 512;
pub const FACTS_MOST: usize = 2_048;

/// Lays the records of so many terms and facts down: the count of bytes. More than `TERMS_MOST` or `FACTS_MOST` is
/// refusal 26, which leaves the store as it was.
pub fn pack(terms: usize, facts: usize, tables: &Tables, store: &mut [u8; STORE]) -> Result<usize, Refusal> {
    lists::pack(terms, facts, &tables.terms[..], &tables.facts[..], store)
}

/// Fills the tables with the records of a store, zeros after: the counts of terms and facts. Bytes that are no store are
/// refusal 26, which leaves the tables as they were.
pub fn unpack(store: &[u8], tables: &mut Tables) -> Result<(usize, usize), Refusal> {
    lists::unpack(store, &mut tables.terms[..], &mut tables.facts[..])
}

/// The same for a caller's own lists, of any length: a short one is refusal 1, and nothing changes beyond what is asked
/// for.
pub mod lists {
    use crate::Refusal;

    /// `crate::TERMS` and `crate::FACTS` numbers, and `STORE` bytes, or more.
    pub fn pack(
        terms: usize,
        facts: usize,
        term_list: &[u16],
        fact_list: &[u16],
        store: &mut [u8],
    ) -> Result<usize, Refusal> {
        let mut value = 0;
        // SAFETY: pointers and lengths of slices that live through the call, of which the one that is written does not
        // overlap the others; one place
        let number = unsafe {
            super::abi::rulfjen_pack(
                terms,
                facts,
                term_list.as_ptr(),
                term_list.len(),
                fact_list.as_ptr(),
                fact_list.len(),
                store.as_mut_ptr(),
                store.len(),
                &mut value,
            )
        };
        match number {
            0 => Ok(value),
            _ => Err(refusal(number, value)),
        }
    }

    /// `crate::TERMS` and `crate::FACTS` numbers, or more.
    pub fn unpack(store: &[u8], term_list: &mut [u16], fact_list: &mut [u16]) -> Result<(usize, usize), Refusal> {
        let mut counts = [0; 2];
        // SAFETY: as above; two places
        let number = unsafe {
            super::abi::rulfjen_unpack(
                store.as_ptr(),
                store.len(),
                term_list.as_mut_ptr(),
                term_list.len(),
                fact_list.as_mut_ptr(),
                fact_list.len(),
                counts.as_mut_ptr(),
            )
        };
        let [first, second] = counts;
        match number {
            0 => Ok((first, second)),
            _ => Err(refusal(number, first)),
        }
    }

    fn refusal(number: usize, place: usize) -> Refusal {
        Refusal { number: u8::try_from(number).expect("a refusal's number is small"), place }
    }
}

/// `rulfjen_columns.h`. A slice crosses as a pointer and a count.
mod abi {
    extern "C" {
        pub fn rulfjen_pack(
            terms: usize,
            facts: usize,
            term_list: *const u16,
            term_list_length: usize,
            fact_list: *const u16,
            fact_list_length: usize,
            store: *mut u8,
            store_length: usize,
            value: *mut usize,
        ) -> usize;
        pub fn rulfjen_unpack(
            store: *const u8,
            store_length: usize,
            term_list: *mut u16,
            term_list_length: usize,
            fact_list: *mut u16,
            fact_list_length: usize,
            counts: *mut usize,
        ) -> usize;
    }
}
