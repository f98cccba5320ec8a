//! Rule sets of version 2, of several classes, each from its own random numbers; and rule sets of version 1 that are
//! compared in both.

use crate::generate::{self, damage, long, mend, of_class, roles, Role};
use crate::random::Random;
use reference::book::read_as;
use reference::{read, Book, Version};

#[derive(Clone, Copy, PartialEq, Eq, PartialOrd, Ord, Debug)]
pub enum Class {
    /// Of version 1, as they come.
    Narrow,
    /// The same, converted where that can be.
    Wide,
    /// A few rules among many predicates.
    Many,
    Long,
    /// Ending between the two bytes of a number.
    Cut,
    Damaged,
}

/// How often each class comes, in a hundred.
const SHARES: [(Class, usize); 6] = [
    (Class::Narrow, 14),
    (Class::Wide, 14),
    (Class::Many, 36),
    (Class::Long, 6),
    (Class::Cut, 10),
    (Class::Damaged, 20),
];

pub fn generate(random: &mut Random) -> (Class, Vec<u8>) {
    let class = random.by_share(&SHARES);
    let bytes = match class {
        Class::Narrow => narrow(random),
        Class::Wide => widened(narrow(random)),
        Class::Many => many(random).bytes(),
        Class::Long => longest(random),
        Class::Cut => cut(random),
        Class::Damaged => damaged(random),
    };
    (class, bytes)
}

/// A rule set of version 1, of the classes that do not take the reference long at depth 3.
pub(crate) fn narrow(random: &mut Random) -> Vec<u8> {
    use generate::Class::{Damaged, Divided, Facts, Layered, Long, Nested, Places, Small, Terms, TestSet, Unsound};
    let class = random.one_of(&[
        Small, Small, Nested, Divided, Divided, Layered, Places, TestSet, Facts, Terms, Long, Unsound, Damaged, Damaged,
    ]);
    of_class(class, random)
}

fn widened(bytes: Vec<u8>) -> Vec<u8> {
    match read_as(&bytes, &[Version::One, Version::Two], usize::MAX) {
        Ok(book) => Book { version: Version::Two, ..book }.bytes(),
        Err(_) => bytes,
    }
}

/// Counts of predicates on both sides of what a byte holds and of each limit.
const COUNTS: [usize; 14] = [64, 65, 66, 128, 255, 256, 257, 258, 512, 1_022, 1_023, 1_024, 1_024, 1_025];

/// A rule set of few predicates, readable, of version 2.
pub(crate) fn few(random: &mut Random) -> Book {
    use generate::Class::{Divided, Layered, Nested, Small};
    let class = random.one_of(&[Small, Small, Nested, Divided, Divided, Layered]);
    let book = read(&of_class(class, random)).expect("a sound class");
    Book { version: Version::Two, ..book }
}

pub(crate) fn many(random: &mut Random) -> Book {
    let book = few(random);
    let count = random.one_of(&COUNTS);
    spread(random, book, count)
}

/// The same among `count` predicates, its own standing where a byte ends, at the end, or anywhere.
fn spread(random: &mut Random, mut book: Book, count: usize) -> Book {
    let is_edge = |&p: &usize| [0, 63, 64, 255, 256, 257, 511, 512, count - 2, count - 1].contains(&p);
    let (mut edges, mut others): (Vec<usize>, Vec<usize>) = (0..count).partition(is_edge);
    random.shuffle(&mut edges);
    random.shuffle(&mut others);
    let mut arities: Vec<u8> = (0..count).map(|_| random.within(1, 4) as u8).collect();
    let mut number = |arity: u8| {
        let chosen = if random.once_in(2) { edges.pop() } else { None };
        let number = chosen.or_else(|| others.pop()).expect("more predicates than the rule set has");
        arities[number] = arity;
        number as u16
    };
    let numbers: Vec<u16> = book.arities.iter().map(|&arity| number(arity)).collect();
    for rule in &mut book.rules {
        for atom in rule.body.iter_mut().chain(rule.disjuncts.iter_mut().flatten()) {
            atom.predicate = numbers[atom.predicate as usize];
        }
    }
    Book { arities, ..book }
}

/// As many predicates and rules as there may be, or nearly, or one too many.
pub(crate) fn filled(random: &mut Random) -> Book {
    let (predicates, wide) = (random.one_of(&COUNTS), random.once_in(2));
    let mut book = long(random, Version::Two, predicates, wide);
    if random.once_in(3) {
        // the longest rule of them in place of each
        let size = |rule: &reference::Rule| rule.disjuncts.iter().map(Vec::len).sum::<usize>() + rule.body.len();
        let largest = book.rules.iter().max_by_key(|rule| size(rule)).cloned().expect("a rule");
        book.rules.iter_mut().for_each(|rule| *rule = largest.clone());
    }
    book
}

/// Such a rule set; now and then a byte more than the longest.
fn longest(random: &mut Random) -> Vec<u8> {
    let book = filled(random);
    lengthened(random, book.bytes())
}

/// The same bytes, or now and then one more.
pub(crate) fn lengthened(random: &mut Random, mut bytes: Vec<u8>) -> Vec<u8> {
    if random.once_in(5) {
        bytes.push(0);
        mend(&mut bytes);
    }
    bytes
}

/// A rule set that ends behind the first byte of a predicate or of their count.
fn cut(random: &mut Random) -> Vec<u8> {
    let book = if random.once_in(2) { few(random) } else { many(random) };
    cut_behind(random, &book, &[Role::PredicatesHigh, Role::PredicateHigh])
}

/// The rule set ending behind a byte of one of these roles, whatever that byte says.
pub(crate) fn cut_behind(random: &mut Random, book: &Book, last: &[Role]) -> Vec<u8> {
    let roles = roles(book);
    let ends: Vec<usize> = (0..roles.len()).filter(|&k| last.contains(&roles[k])).collect();
    let at = 4 + random.one_of(&ends);
    let mut bytes = book.bytes();
    if random.once_in(2) {
        bytes[at] = random.one_of(&[3, 4, 5, 255]);
    }
    bytes.truncate(at + 1);
    if !random.once_in(10) {
        mend(&mut bytes);
    }
    bytes
}

fn damaged(random: &mut Random) -> Vec<u8> {
    let bytes = match random.within(0, 9) {
        0..=3 => few(random).bytes(),
        4..=8 => many(random).bytes(),
        _ => longest(random),
    };
    damage(random, bytes)
}
