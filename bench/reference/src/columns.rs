//! The store of C-23: the records of an answer, column by column, and the way back. Written from documents 01 and 02
//! and `docs/DECISIONS.md` alone.

use crate::stages::{FACTS_FRONT, MOST_FACTS, MOST_TERMS, TERMS_FRONT};
use crate::Refusal;

/// Bytes of the largest store.
pub const STORE: usize = 30_729;

const TERM: usize = 10;
const FACT: usize = 5;

/// The length, the version and the counts.
const HEAD: usize = 9;

fn refuse<T>(number: u8) -> Result<T, Refusal> {
    Err(Refusal { number, place: 0 })
}

fn length(terms: usize, facts: usize) -> usize {
    HEAD + 2 * (terms * TERM + facts * FACT)
}

/// Each column of the records, each number as its difference from the one above it.
fn lay(records: &[u16], width: usize, out: &mut [u8]) {
    let mut places = out.chunks_exact_mut(2);
    for column in 0..width {
        let mut above = 0u16;
        for (record, place) in records.chunks_exact(width).zip(&mut places) {
            place.copy_from_slice(&record[column].wrapping_sub(above).to_be_bytes());
            above = record[column];
        }
    }
}

/// The records of these columns.
fn raise(columns: &[u8], width: usize, records: &mut [u16]) {
    let mut numbers = columns.chunks_exact(2);
    for column in 0..width {
        let mut above = 0u16;
        for (record, number) in records.chunks_exact_mut(width).zip(&mut numbers) {
            above = above.wrapping_add(u16::from_be_bytes([number[0], number[1]]));
            record[column] = above;
        }
    }
}

/// How many bytes the store has.
pub fn pack(
    terms: usize,
    facts: usize,
    term_list: &[u16],
    fact_list: &[u16],
    out: &mut [u8],
) -> Result<usize, Refusal> {
    if term_list.len() < TERMS_FRONT || fact_list.len() < FACTS_FRONT || out.len() < STORE {
        return refuse(1);
    }
    if terms > MOST_TERMS || facts > MOST_FACTS {
        return refuse(26);
    }
    let length = length(terms, facts);
    let (head, columns) = out[..length].split_at_mut(HEAD);
    head[..4].copy_from_slice(&(length as u32 - 4).to_be_bytes());
    head[4] = 1;
    head[5..7].copy_from_slice(&(terms as u16).to_be_bytes());
    head[7..].copy_from_slice(&(facts as u16).to_be_bytes());
    let (of_terms, of_facts) = columns.split_at_mut(2 * terms * TERM);
    lay(&term_list[..terms * TERM], TERM, of_terms);
    lay(&fact_list[..facts * FACT], FACT, of_facts);
    Ok(length)
}

/// The counts of terms and facts that a store states, if it is one.
fn counts(store: &[u8]) -> Option<(usize, usize)> {
    let head: &[u8; HEAD] = store.first_chunk()?;
    let stated = u32::from_be_bytes([head[0], head[1], head[2], head[3]]) as usize;
    let terms = u16::from_be_bytes([head[5], head[6]]) as usize;
    let facts = u16::from_be_bytes([head[7], head[8]]) as usize;
    let sound = stated == store.len() - 4
        && head[4] == 1
        && terms <= MOST_TERMS
        && facts <= MOST_FACTS
        && store.len() == length(terms, facts);
    sound.then_some((terms, facts))
}

/// The counts of terms and of facts.
pub fn unpack(store: &[u8], term_list: &mut [u16], fact_list: &mut [u16]) -> Result<(usize, usize), Refusal> {
    if term_list.len() < TERMS_FRONT || fact_list.len() < FACTS_FRONT {
        return refuse(1);
    }
    let Some((terms, facts)) = counts(store) else {
        return refuse(26);
    };
    let (of_terms, of_facts) = store[HEAD..].split_at(2 * terms * TERM);
    let (records, rest) = term_list[..TERMS_FRONT].split_at_mut(terms * TERM);
    raise(of_terms, TERM, records);
    rest.fill(0);
    let (records, rest) = fact_list[..FACTS_FRONT].split_at_mut(facts * FACT);
    raise(of_facts, FACT, records);
    rest.fill(0);
    Ok((terms, facts))
}
