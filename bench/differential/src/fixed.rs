//! Rule sets of version 3, of several classes, each from its own random numbers: with rule constants (C-16: fixed names)
//! in bodies and heads.

use crate::generate::{self, damage, of_class, products, roles, rule, shuffled, Role, LETTERS};
use crate::random::Random;
use crate::wide::{cut_behind, few, filled, lengthened, many, narrow};
use reference::book::{bit, set_of, FIRST_CONSTANT, MOST_CONSTANTS};
use reference::draft::{Draft, Sketch};
use reference::rules::members;
use reference::{read, Book, Rule, Version};

#[derive(Clone, Copy, PartialEq, Eq, PartialOrd, Ord, Debug)]
pub enum Class {
    /// Of version 1, as version 3 without rule constants.
    Bare,
    Few,
    /// A few rules among many predicates, of which stage 0 may have too many facts.
    Many,
    /// Blockable rules over Skolem terms of rule constants.
    Divided,
    Places,
    /// Test sets, facts or terms about their limit.
    Limits,
    /// Stages 0 of about 2,048 facts.
    Critical,
    Long,
    /// Ending between the two bytes of a number, or about the count of rule constants.
    Cut,
    /// Rule constants beyond the stated number, or where a variable is needed.
    Unsound,
    Damaged,
}

/// How often each class comes, in a hundred.
const SHARES: [(Class, usize); 11] = [
    (Class::Bare, 8),
    (Class::Few, 22),
    (Class::Many, 6),
    (Class::Divided, 20),
    (Class::Places, 4),
    (Class::Limits, 4),
    (Class::Critical, 6),
    (Class::Long, 4),
    (Class::Cut, 4),
    (Class::Unsound, 8),
    (Class::Damaged, 14),
];

pub fn generate(random: &mut Random) -> (Class, Vec<u8>) {
    let class = random.by_share(&SHARES);
    let bytes = match class {
        Class::Bare => bare(narrow(random)),
        Class::Few => named_few(random).bytes(),
        Class::Many => named_many(random).bytes(),
        Class::Divided => divided(random).book.bytes(),
        Class::Places => places(random).bytes(),
        Class::Limits => limits(random).book.bytes(),
        Class::Critical => critical(random).bytes(),
        Class::Long => longest(random),
        Class::Cut => cut(random),
        Class::Unsound => unsound(random),
        Class::Damaged => damaged(random),
    };
    (class, bytes)
}

/// The same rules in version 3, with so many rule constants, which no rule has.
fn fixed(book: Book, constants: usize) -> Book {
    Book { version: Version::Three, constants: constants as u8, ..book }
}

fn bare(bytes: Vec<u8>) -> Vec<u8> {
    read(&bytes).map(|book| fixed(book, 0).bytes()).unwrap_or(bytes)
}

/// A rule constant of so many, as an argument.
fn constant(random: &mut Random, count: usize) -> u8 {
    FIRST_CONSTANT + random.within(0, count - 1) as u8
}

fn arguments(rule: &mut Rule) -> impl Iterator<Item = &mut u8> {
    let atoms = rule.body.iter_mut().chain(rule.disjuncts.iter_mut().flatten());
    atoms.flat_map(|atom| &mut atom.arguments[..atom.arity as usize])
}

/// One in `rarity` of the rule's arguments a rule constant of so many.
fn name(random: &mut Random, rule: &Rule, count: usize, rarity: usize) -> Rule {
    let mut named = rule.clone();
    for argument in arguments(&mut named) {
        if random.once_in(rarity) {
            *argument = constant(random, count);
        }
    }
    named
}

/// The same, or as it was where this is not sound.
fn name_soundly(random: &mut Random, rule: &mut Rule, count: usize, rarity: usize) {
    let tries = (0..4).map(|_| name(random, rule, count, rarity)).collect::<Vec<_>>();
    if let Some(named) = tries.into_iter().find(|named| named.fault().is_none()) {
        *rule = named;
    }
}

/// Of the body's variables two are left, and rule constants stand for the others.
fn narrow_body(random: &mut Random, rule: &mut Rule, count: usize) {
    let mut variables: Vec<u8> = members(set_of(&rule.body)).collect();
    random.shuffle(&mut variables);
    for &variable in variables.iter().skip(2) {
        let constant = constant(random, count);
        arguments(rule).filter(|argument| **argument == variable).for_each(|argument| *argument = constant);
    }
}

/// A rule set with up to three rule constants in its rules. It stays sound. Where there are any, no rule has three body
/// variables: stage 0 alone has many triggers of such a rule, and at depth 3 their tests take long.
fn named(random: &mut Random, book: Book) -> Book {
    let count = random.one_of(&[0, 1, 1, 1, 2, 2, 3]);
    let mut book = fixed(book, count);
    if count == 0 {
        return book;
    }
    let rarity = random.one_of(&[2, 4, 4, 8]);
    for rule in &mut book.rules {
        narrow_body(random, rule, count);
        if !random.once_in(4) {
            name_soundly(random, rule, count, rarity);
        }
    }
    book.rules.retain(|rule| rule.fault().is_none());
    book
}

fn named_few(random: &mut Random) -> Book {
    let book = few(random);
    named(random, book)
}

/// Most have so many predicates that few of them may have two arguments.
fn named_many(random: &mut Random) -> Book {
    let mut book = many(random);
    let atoms = book.rules.iter().flat_map(|rule| rule.body.iter().chain(rule.disjuncts.iter().flatten()));
    let used: Vec<u16> = atoms.map(|atom| atom.predicate).collect();
    for (p, arity) in book.arities.iter_mut().enumerate() {
        if !used.contains(&(p as u16)) && !random.once_in(100) {
            *arity = 1;
        }
    }
    named(random, book)
}

/// Blockable rules over Skolem terms of rule constants: one such term may stand in a trigger twice, and what made it may
/// have given a disjunct with existential variables.
fn divided(random: &mut Random) -> Draft {
    let count = random.one_of(&[1, 1, 2, 3]);
    let mut draft = Draft::fixed(count);
    let (a, b) = (constant(random, count), constant(random, count));
    let (source, link, good, pair) = (draft.predicate(1), draft.predicate(2), draft.predicate(1), draft.predicate(2));
    // what makes terms
    match random.within(0, 5) {
        0 => draft.rule(&[(source, &[0])], &[&[(link, &[0, 1])]]),
        1 => draft.rule(&[(source, &[0])], &[&[(link, &[0, 1]), (pair, &[1, a])]]),
        2 => draft.rule(&[(source, &[0]), (pair, &[2, a])], &[&[(link, &[0, 1])]]),
        3 => draft.rule(&[(source, &[0]), (link, &[2, 3])], &[&[(link, &[0, 1])], &[(good, &[0])]]),
        4 => draft.rule(&[(source, &[0])], &[&[(link, &[0, 1])], &[(pair, &[2, 0]), (link, &[b, 2])]]),
        _ => draft.rule(&[(pair, &[0, a])], &[&[(link, &[0, 1]), (link, &[b, 2])]]),
    }
    // what divides
    let bodies: [&[Sketch]; 6] = [
        &[(link, &[0, 1])],
        &[(link, &[a, 1]), (link, &[0, 1])],
        &[(link, &[0, 1]), (link, &[0, 2])],
        &[(link, &[0, 1]), (pair, &[1, b])],
        &[(link, &[0, 1]), (pair, &[a, b])],
        &[(link, &[0, 1]), (source, &[0])],
    ];
    let body = random.one_of(&bodies);
    match random.within(0, 5) {
        0 => draft.rule(body, &[&[(good, &[1])], &[(source, &[1])]]),
        1 => draft.rule(body, &[&[(pair, &[1, a])], &[(source, &[1])]]),
        2 => draft.rule(body, &[&[(link, &[0, 4])], &[(source, &[1])]]),
        3 => draft.rule(body, &[&[(good, &[1]), (pair, &[a, b])], &[(link, &[1, 5]), (source, &[5])]]),
        4 => draft.rule(body, &[&[(pair, &[b, 1]), (good, &[a])], &[(good, &[1]), (source, &[0])]]),
        _ => draft.rule(body, &[&[(link, &[0, 4]), (pair, &[4, a])], &[(good, &[0]), (source, &[1])]]),
    }
    // what derives
    for _ in 0..random.within(1, 3) {
        match random.within(0, 8) {
            0 => draft.rule(&[(link, &[0, 1])], &[&[(good, &[1])]]),
            1 => draft.rule(&[(link, &[a, 1])], &[&[(good, &[1])]]),
            2 => draft.rule(&[(link, &[0, 1]), (pair, &[a, b])], &[&[(good, &[1])]]),
            3 => draft.rule(&[(link, &[0, 1])], &[&[(pair, &[a, b]), (good, &[0])]]),
            4 => draft.rule(&[(pair, &[0, a])], &[&[(pair, &[b, 0])]]),
            5 => draft.rule(&[(link, &[0, 1])], &[&[(pair, &[1, a])]]),
            6 => draft.rule(&[(pair, &[b, 1])], &[&[(good, &[1]), (good, &[b])]]),
            7 => draft.rule(&[(good, &[a]), (link, &[0, 1])], &[&[(pair, &[1, b]), (good, &[1])]]),
            _ => draft.rule(&[(link, &[0, 1]), (source, &[a])], &[&[(link, &[a, 1])]]),
        }
    }
    for rule in &mut draft.book.rules {
        if random.once_in(4) {
            name_soundly(random, rule, count, 6);
        }
    }
    shuffled(draft, random)
}

/// Triggers of a blockable rule with about 64 places: those of version 1 among rule constants, or with places of these.
fn places(random: &mut Random) -> Book {
    if random.once_in(2) {
        return shuffled(tower(random), random).book;
    }
    let book = read(&of_class(generate::Class::Places, random)).expect("a sound class");
    let count = random.one_of(&[0, 1, 1, 2]);
    let mut book = fixed(book, count);
    if count > 0 {
        book.rules.iter_mut().for_each(|rule| name_soundly(random, rule, count, 12));
    }
    book
}

/// Terms over several copies of the one below and now and then a rule constant, and a blockable rule over the highest.
fn tower(random: &mut Random) -> Draft {
    let count = random.within(1, 2);
    let size = random.one_of(&[62, 63, 64, 64, 65, 65, 66]);
    loop {
        let mut draft = Draft::fixed(count);
        let (one, two, lone) = (draft.predicate(1), draft.predicate(2), draft.predicate(1));
        let mut level = draft.predicate(1);
        let (mut arity, mut places) = (1, 1);
        while places < 40 && draft.rules_left() > 4 {
            let (copies, named) = (random.within(1, 3), random.within(0, 1));
            let mut to = vec![7; copies];
            to.extend((0..named).map(|_| constant(random, count)));
            let next = draft.predicate(to.len());
            draft.rule(&[(level, &LETTERS[..arity])], &[&[(next, &to), (level, &LETTERS[..arity])]]);
            (level, arity, places) = (next, to.len(), copies * (1 + places) + named);
        }
        // variables of one place for what is missing
        if !(size - 3..=size).contains(&places) {
            continue;
        }
        let last = (4..4 + (size - places) as u8).map(|v| [v]).collect::<Vec<_>>();
        let body: Vec<Sketch> =
            [(level, &LETTERS[..arity])].into_iter().chain(last.iter().map(|v| (lone, &v[..]))).collect();
        draft.rule(&body, &[&[(one, &[0])], &[(two, &[0, arity as u8 - 1])]]);
        if random.once_in(2) {
            draft.rule(&[(level, &LETTERS[..arity])], &[&[(one, &[0])]]);
        }
        return draft;
    }
}

/// Test sets that are large by the names that a term's origin brings along: each term has one set of these, however often
/// the trigger has it, and none for the other terms of its disjunct.
fn origins(random: &mut Random) -> Draft {
    let count = random.within(1, 2);
    let mut draft = Draft::fixed(count);
    let a = constant(random, count);
    let (seed, wide, link, pair) = (draft.predicate(1), draft.predicate(4), draft.predicate(2), draft.predicate(2));
    let (each, one, two) = (draft.predicate(1), draft.predicate(1), draft.predicate(1));
    let names = random.within(2, 4);
    let over: Vec<u8> = (0..4).map(|i| 4 + (i % names) as u8).collect();
    let made: &[Sketch] = match random.within(0, 2) {
        0 => &[(link, &[0, 1])],
        1 => &[(link, &[0, 1]), (pair, &[0, 2])],
        _ => &[(link, &[0, 1]), (pair, &[2, a])],
    };
    draft.rule(&[(seed, &[0]), (wide, &over)], &[made]);
    let body: [&[Sketch]; 2] = [&[(link, &[a, 1]), (link, &[a, 2])], &[(link, &[a, 1]), (seed, &[a])]];
    draft.rule(random.one_of(&body), &[&[(one, &[1])], &[(two, &[1])]]);
    draft.rule(&[(wide, &LETTERS)], &[&[(each, &[0]), (each, &[1]), (each, &[2]), (each, &[3])]]);
    products(random, &mut draft, each, names, 1_000);
    draft
}

/// The limits of version 1, reached with rule constants; then perhaps some of these in a rule.
fn limits(random: &mut Random) -> Draft {
    let count = random.within(1, MOST_CONSTANTS);
    let mut draft = match random.within(0, 3) {
        // more constants would make too many tests
        0 => generate::test_set(random, &Draft::fixed(1)),
        1 => generate::facts(random, &Draft::fixed(count)),
        2 => generate::terms(random, &Draft::fixed(count)),
        _ => origins(random),
    };
    if random.once_in(3) {
        let count = draft.book.constants as usize;
        let at = random.within(0, draft.book.rules.len() - 1);
        name_soundly(random, &mut draft.book.rules[at], count, 3);
    }
    shuffled(draft, random)
}

/// A stage 0 of about 2,048 facts, and a few rules.
fn critical(random: &mut Random) -> Book {
    let count = random.within(1, MOST_CONSTANTS);
    let facts = |arity: usize| (count + 1).pow(arity as u32);
    let steps = 2_048 / (count + 1) + random.one_of(&[0, 0, 0, 1, 1, 2]);
    let mut left = (steps - random.one_of(&[0, 0, 0, 1])) * (count + 1);
    let mut arities = Vec::new();
    while left > 0 {
        let fitting: Vec<usize> = (1..=4).filter(|&arity| facts(arity) <= left).collect();
        let widest = fitting[fitting.len() - 1];
        let arity = if random.once_in(8) { random.one_of(&fitting) } else { widest };
        arities.push(arity as u8);
        left -= facts(arity);
    }
    random.shuffle(&mut arities);
    let rules = (0..random.within(0, 3)).map(|_| rule(random, &arities, 3, true)).collect();
    let mut book = fixed(Book { arities, rules, ..Book::default() }, count);
    book.rules.iter_mut().for_each(|rule| name_soundly(random, rule, count, 3));
    book
}

/// As many predicates and rules as there may be, or nearly, or one too many; now and then a byte more than the longest.
fn longest(random: &mut Random) -> Vec<u8> {
    let book = filled(random);
    let book = named(random, book);
    lengthened(random, book.bytes())
}

fn cut(random: &mut Random) -> Vec<u8> {
    let book = if random.once_in(4) { named_many(random) } else { named_few(random) };
    let last = random.one_of(&[&[Role::PredicatesHigh, Role::PredicateHigh][..], &[Role::Arity], &[Role::Constants]]);
    cut_behind(random, &book, last)
}

fn unsound(random: &mut Random) -> Vec<u8> {
    let count = random.within(0, MOST_CONSTANTS);
    let book = fixed(few(random), count);
    match random.within(0, 3) {
        0 => beyond(random, book),
        // any fault that a constant in place of a variable makes
        1 => with_rules(random, book, |random, rule| *rule = name(random, rule, count.max(1), 2)),
        2 => with_rules(random, book, |random, rule| part(random, rule, count.max(1))),
        // a body of constants alone
        _ => with_rules(random, book, |random, rule| {
            for atom in &mut rule.body {
                atom.arguments[..atom.arity as usize].fill_with(|| constant(random, count.max(1)));
            }
        }),
    }
}

/// Some of the rules changed.
fn with_rules(random: &mut Random, mut book: Book, change: impl Fn(&mut Random, &mut Rule)) -> Vec<u8> {
    for rule in &mut book.rules {
        if random.once_in(2) {
            change(random, rule);
        }
    }
    book.bytes()
}

/// A disjunct that has only constants in common with the body.
fn part(random: &mut Random, rule: &mut Rule, count: usize) {
    let known = set_of(&rule.body);
    let last = rule.disjuncts.len() - 1;
    for atom in &mut rule.disjuncts[random.within(0, last)] {
        for argument in &mut atom.arguments[..atom.arity as usize] {
            if known & bit(*argument) != 0 {
                *argument = constant(random, count);
            }
        }
    }
}

/// A rule constant beyond the stated number, or a byte that is no argument at all.
fn beyond(random: &mut Random, book: Book) -> Vec<u8> {
    let mut bytes = book.bytes();
    let roles = roles(&book);
    let places: Vec<usize> = (0..roles.len()).filter(|&k| roles[k] == Role::Argument).collect();
    for _ in 0..random.within(1, 2) {
        if !places.is_empty() {
            let value = random.one_of(&[128 + book.constants, 128 + book.constants, 127, 131, 8, 9, 255]);
            bytes[4 + random.one_of(&places)] = value;
        }
    }
    bytes
}

fn damaged(random: &mut Random) -> Vec<u8> {
    let bytes = match random.within(0, 9) {
        0..=3 => named_few(random).bytes(),
        4..=7 => divided(random).book.bytes(),
        8 => named_many(random).bytes(),
        _ => longest(random),
    };
    damage(random, bytes)
}
