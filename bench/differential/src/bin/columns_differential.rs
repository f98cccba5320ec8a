//! Compares `pack` and `unpack` of the static library with those of the reference. A test instrument: unproved.
//!
//!     columns_differential [SEED [COUNT]]      generated tables and stores from a seed, 20,000 by default

use differential::random::Random;
use reference::columns;
use reference::stages::{FACTS_FRONT, TERMS_FRONT};
use rulfjen::columns::lists;
use std::collections::BTreeMap;

/// A list's length: what is asked for, or some more, or less now and then.
fn length(random: &mut Random, front: usize) -> usize {
    match random.within(0, 39) {
        0 => front - 1,
        1 => random.within(0, front - 1),
        2..=20 => front,
        _ => front + random.within(1, 40),
    }
}

/// Numbers that rise and fall a little, as records do, or any, or few different ones.
fn numbers(random: &mut Random, length: usize) -> Vec<u16> {
    let kind = random.within(0, 3);
    let mut x = random.next() as u16;
    (0..length)
        .map(|_| {
            x = match kind {
                0 => random.next() as u16,
                1 => x.wrapping_add(random.within(0, 4) as u16).wrapping_sub(2),
                2 => random.one_of(&[0, 1, 2, 255, 256, 32_767, 32_768, 65_535]),
                _ => random.within(0, 40) as u16,
            };
            x
        })
        .collect()
}

/// A count on either side of its limit, small or any.
fn count(random: &mut Random, most: usize) -> usize {
    match random.within(0, 9) {
        0 => most,
        1 => most + 1,
        2 => random.one_of(&[65_535, 65_536, 65_537, usize::MAX, usize::MAX / 10]),
        3 => random.within(0, most),
        _ => random.within(0, 40),
    }
}

/// A store: what the reference packs, or the same with a byte changed, more, less, or any bytes.
fn store(random: &mut Random) -> Vec<u8> {
    let (terms, facts) = match random.within(0, 9) {
        0 => (512, 2_048),
        1 => (random.within(0, 512), random.within(0, 2_048)),
        _ => (random.within(0, 20), random.within(0, 40)),
    };
    let (term_list, fact_list) = (numbers(random, TERMS_FRONT), numbers(random, FACTS_FRONT));
    let mut bytes = vec![0; columns::STORE];
    let length = columns::pack(terms, facts, &term_list, &fact_list, &mut bytes).expect("within the limits");
    bytes.truncate(length);
    match random.within(0, 11) {
        0 => {
            let at = random.within(0, 8);
            bytes[at] = random.one_of(&[0, 1, 2, 3, 5, 8, 9, 254, 255]);
        }
        1 => bytes.push(random.next() as u8),
        2 => bytes.truncate(random.within(0, length)),
        3 => {
            // the stated length follows
            bytes.push(0);
            let stated = bytes.len() as u32 - 4;
            bytes[..4].copy_from_slice(&stated.to_be_bytes());
        }
        4 => {
            // counts whose columns take as many bytes: a term for two facts
            let (terms, facts) = (bytes[6].wrapping_sub(1), bytes[8].wrapping_add(2));
            (bytes[6], bytes[8]) = (terms, facts);
        }
        5 => {
            // over a limit, with the length that this needs
            let (terms, facts) = random.one_of(&[(513, 0), (0, 2_049), (512, 2_048), (513, 2_049)]);
            let length = 9 + terms * 20 + facts * 10;
            bytes = vec![0; length];
            bytes[..4].copy_from_slice(&(length as u32 - 4).to_be_bytes());
            bytes[4] = 1;
            bytes[5..7].copy_from_slice(&(terms as u16).to_be_bytes());
            bytes[7..9].copy_from_slice(&(facts as u16).to_be_bytes());
        }
        _ => {}
    }
    bytes
}

fn same<T>(of_library: Result<T, rulfjen::Refusal>) -> Result<T, reference::Refusal> {
    of_library.map_err(|refusal| reference::Refusal { number: refusal.number, place: refusal.place })
}

fn number<T>(result: &Result<T, reference::Refusal>) -> u8 {
    result.as_ref().err().map_or(0, |refusal| refusal.number)
}

fn compare_packed(random: &mut Random) -> Result<u8, String> {
    let (terms, facts) = (count(random, 512), count(random, 2_048));
    let (terms_length, facts_length) = (length(random, TERMS_FRONT), length(random, FACTS_FRONT));
    let (term_list, fact_list) = (numbers(random, terms_length), numbers(random, facts_length));
    let room = length(random, columns::STORE);
    let mut out: Vec<u8> = (0..room).map(|k| k as u8 ^ 0x5a).collect();
    let mut library_out = out.clone();
    let packed = columns::pack(terms, facts, &term_list, &fact_list, &mut out);
    let library_packed = same(lists::pack(terms, facts, &term_list, &fact_list, &mut library_out));
    if packed != library_packed {
        return Err(format!("pack {terms} {facts}: reference {packed:?}, library {library_packed:?}"));
    }
    if out != library_out {
        return Err(format!("pack {terms} {facts}: other bytes"));
    }
    Ok(number(&packed))
}

fn compare_unpacked(random: &mut Random) -> Result<u8, String> {
    let store = store(random);
    let (terms_length, facts_length) = (length(random, TERMS_FRONT), length(random, FACTS_FRONT));
    let (mut terms, mut facts) = (numbers(random, terms_length), numbers(random, facts_length));
    let (mut library_terms, mut library_facts) = (terms.clone(), facts.clone());
    let unpacked = columns::unpack(&store, &mut terms, &mut facts);
    let library_unpacked = same(lists::unpack(&store, &mut library_terms, &mut library_facts));
    if unpacked != library_unpacked {
        return Err(format!("unpack {} bytes: reference {unpacked:?}, library {library_unpacked:?}", store.len()));
    }
    if terms != library_terms || facts != library_facts {
        return Err(format!("unpack {} bytes: other tables", store.len()));
    }
    Ok(number(&unpacked))
}

fn main() {
    let words: Vec<String> = std::env::args().skip(1).collect();
    let word = |k: usize, default: u64| words.get(k).map_or(default, |word| word.parse().expect("a number"));
    let clock = std::time::SystemTime::now().duration_since(std::time::UNIX_EPOCH).map_or(0, |d| d.as_nanos());
    let (seed, count) = (word(0, clock as u64), word(1, 20_000));
    println!("seed {seed}, {count} inputs");
    let mut answers: BTreeMap<(&str, u8), usize> = BTreeMap::new();
    let mut differ = 0;
    for index in 0..count {
        let mut random = Random::new(seed, index);
        let (name, compare): (_, fn(&mut Random) -> Result<u8, String>) =
            if index % 2 == 0 { ("pack", compare_packed) } else { ("unpack", compare_unpacked) };
        match compare(&mut random) {
            Ok(number) => *answers.entry((name, number)).or_default() += 1,
            Err(difference) => {
                println!("input {index}: {difference}");
                differ += 1;
            }
        }
    }
    for ((name, number), times) in &answers {
        let answer = if *number == 0 { "done".to_string() } else { format!("refused {number}") };
        println!("{name:<8}{answer:<12}{times:>8}");
    }
    println!("columns: {} agree, {differ} differ", count - differ);
    std::process::exit((differ != 0) as i32);
}
