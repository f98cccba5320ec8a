//! What the tests share: numbers by lot, books by lot, and the files of the repository.
#![allow(dead_code)]

use rulebook::book::{Atom, Book, Rule};
use rulebook::command::{run, Said};
use std::ffi::OsString;
use std::path::{Path, PathBuf};

/// Splitmix: the same numbers for the same seed.
pub struct Random(pub u64);

impl Random {
    pub fn next(&mut self) -> u64 {
        self.0 = self.0.wrapping_add(0x9e37_79b9_7f4a_7c15);
        let mut z = self.0;
        z = (z ^ (z >> 30)).wrapping_mul(0xbf58_476d_1ce4_e5b9);
        z = (z ^ (z >> 27)).wrapping_mul(0x94d0_49bb_1331_11eb);
        z ^ (z >> 31)
    }

    pub fn below(&mut self, bound: usize) -> usize {
        (self.next() % bound.max(1) as u64) as usize
    }

    pub fn within(&mut self, least: usize, most: usize) -> usize {
        least + self.below(most - least + 1)
    }

    pub fn one_of<T: Clone>(&mut self, items: &[T]) -> T {
        items[self.below(items.len())].clone()
    }

    pub fn once_in(&mut self, count: usize) -> bool {
        self.below(count) == 0
    }
}

fn atoms(random: &mut Random, arities: &[usize], pool: &[usize], most: usize) -> Vec<Atom> {
    let count = random.within(1, most);
    (0..count)
        .map(|_| {
            let predicate = random.below(arities.len());
            Atom { predicate, variables: (0..arities[predicate]).map(|_| random.one_of(pool)).collect() }
        })
        .collect()
}

/// A rule that the library takes: with variables in any order and with gaps, or numbered by first use.
fn rule(random: &mut Random, arities: &[usize]) -> Rule {
    loop {
        let most = random.one_of(&[1, 2, 2, 4]);
        let mut numbers: Vec<usize> = (0..8).collect();
        if random.once_in(2) {
            for place in (1..8).rev() {
                numbers.swap(place, random.below(place + 1));
            }
        }
        let used = random.within(1, 5);
        let body = atoms(random, arities, &numbers[..used], most);
        let count = random.one_of(&[1, 1, 1, 2, 2, 3, 4]);
        let disjuncts = (0..count)
            .map(|place| {
                let mut pool: Vec<usize> = body.iter().flat_map(|atom| atom.variables.clone()).collect();
                if random.once_in(2) {
                    pool.push(numbers[used + place % (8 - used)]);
                }
                atoms(random, arities, &pool, most)
            })
            .collect();
        let rule = Rule { body, disjuncts };
        if (Book { arities: arities.to_vec(), rules: vec![rule.clone()] }).write().is_ok() {
            return rule;
        }
    }
}

/// A book that the library reads.
pub fn book(random: &mut Random) -> Book {
    let predicates = match random.below(40) {
        0 => random.one_of(&[65, 255, 256, 257, 1_024]),
        _ => random.one_of(&[1, 2, 3, 4, 5, 8, 64]),
    };
    let arities: Vec<usize> = (0..predicates).map(|_| random.one_of(&[1, 1, 2, 2, 3, 4])).collect();
    let rules = match random.below(40) {
        0 => 0,
        1 => 64,
        _ => random.within(1, 6),
    };
    let rules = (0..rules).map(|_| rule(random, &arities)).collect();
    Book { arities, rules }
}

/// The bytes that this program writes for a book: those of version 1 if there are any, else those of version 2.
pub fn written(bytes: &[u8]) -> Vec<u8> {
    let book = Book::read(bytes).expect("a readable book");
    let written = book.write().expect("a book that was read");
    assert!(written == bytes || bytes[4] == 2 && written[4] == 1, "the same bytes, or the other version");
    written
}

pub fn folder() -> PathBuf {
    PathBuf::from(env!("CARGO_MANIFEST_DIR"))
}

/// The files of a folder with an ending, in the order of their names.
pub fn files(folder: &Path, ending: &str) -> Vec<PathBuf> {
    let entries = std::fs::read_dir(folder).expect("the folder is there");
    let mut files: Vec<PathBuf> = entries.map(|entry| entry.expect("an entry").path()).collect();
    files.retain(|path| path.extension().is_some_and(|found| found == ending));
    files.sort();
    files
}

/// The books of the vectors, readable or not.
pub fn vectors() -> Vec<(String, Vec<u8>)> {
    let folder = folder().join("../crates/test_vectors/data");
    let books = files(&folder, "book").into_iter();
    books.map(|path| (path.display().to_string(), std::fs::read(&path).expect("a vector"))).collect()
}

/// The program within the test, with its standard input.
pub fn said(arguments: &[&str], stdin: &[u8]) -> Said {
    let arguments: Vec<OsString> = arguments.iter().map(OsString::from).collect();
    let mut stdin = stdin;
    run(&arguments, &mut stdin)
}
