//! Families of rule sets that grow.

use crate::paths;
use crate::stars::{self, FOUR, SEVEN};
use crate::wide;
use differential::generate::generate;
use differential::random::Random;
use reference::convert::upgrade;
use reference::draft::{Draft, Sketch};

pub struct Family {
    pub name: String,
    /// What the size counts.
    pub size: &'static str,
    pub depth: usize,
    pub members: Vec<Member>,
}

/// Rule sets that are timed together.
pub struct Member {
    pub size: usize,
    pub books: Vec<Vec<u8>>,
    /// Whether the reference is timed beside the library.
    pub beside: bool,
}

/// A family's name, what its size counts, the sizes that are timed with both, those for which the reference takes too
/// long, and the rule set of a size.
type Row = (&'static str, &'static str, &'static [usize], &'static [usize], fn(usize) -> Draft);

/// A star that is blockable or blocked has a trigger for every choice of its legs: (4n + 1)⁴ for n rules of four,
/// (4n + 1)³ for n of seven. The reference tests each of them, so its large sizes would take it hours.
const ROWS: &[Row] = &[
    ("Crowd", "new variables", &[1, 2, 3, 4, 5, 6], &[], crowd),
    ("Host", "new variables", &[1, 2, 3, 4, 6, 7], &[], host),
    ("Fork", "doublings", &[1, 2, 3, 4, 5, 6], &[], fork),
    ("Chain", "links", &[2, 4, 8, 16], &[], paths::chain),
    ("Predicates", "predicates", &[8, 16, 32, 64], &[], predicates),
    ("Predicates, spread", "predicates", &[64, 128, 256, 512, 1_024], &[], |n| wide::spread(predicates(64), n)),
    ("Feeds", "predicates", &[64, 128, 256, 512, 1_024], &[], wide::feeds),
    ("Joins", "predicates", &[8, 16, 32, 64], &[], joins),
    ("Large terms", "terms", &[1, 2, 4, 8], &[], large_terms),
    ("Limits", "rules", &[16, 32, 64], &[], limits),
    ("Cross", "terms", &[3, 6, 12, 13], &[], |n| cross(n, 0)),
    ("Cross, last", "terms", &[1, 2, 4], &[], |n| cross(n, 7)),
    ("Star 4, Datalog", "rules", &[8, 16, 32, 62], &[], |n| stars::datalog(&FOUR, n, FOUR.last)),
    ("Star 4, existential", "rules", &[8, 16, 32, 62], &[], |n| stars::existential(&FOUR, n)),
    ("Star 4, blockable", "rules", &[1, 2, 4], &[8, 16, 32, 62], |n| stars::blockable(&FOUR, n)),
    ("Star 4, blocked", "rules", &[1, 2, 4], &[8, 16, 32, 62], |n| stars::blocked(&FOUR, n)),
    ("Star 7, Datalog", "rules", &[8, 16, 32, 62], &[], |n| stars::datalog(&SEVEN, n, SEVEN.last)),
    // 46 rules have 508 terms
    ("Star 7, existential", "rules", &[8, 16, 32, 46], &[], |n| stars::existential(&SEVEN, n)),
    ("Star 7, blockable", "rules", &[1, 2, 4, 8], &[16, 32, 62], |n| stars::blockable(&SEVEN, n)),
    ("Star 7, blocked", "rules", &[1, 2, 4, 8], &[16, 32, 62], |n| stars::blocked(&SEVEN, n)),
    ("Star 4, centre", "rules", &[8, 16, 32, 62], &[], |n| stars::datalog(&FOUR, n, 0)),
    ("Star 4, first", "rules", &[8, 16, 32, 62], &[], |n| stars::datalog(&FOUR, n, FOUR.first)),
    ("Star 4, middle", "rules", &[8, 16, 32, 62], &[], |n| stars::datalog(&FOUR, n, 2)),
    ("Path, first", "links", &[4, 8, 16, 31], &[], |n| paths::path(n, 0)),
    ("Path, middle", "links", &[4, 8, 16, 31], &[], |n| paths::path(n, 2)),
    ("Path, last", "links", &[4, 8, 16, 31], &[], |n| paths::path(n, 4)),
    ("Tree", "levels", &[4, 5, 6, 7], &[], paths::tree),
];

fn family(&(name, size, both, alone, book): &Row) -> Family {
    let sizes = both.iter().map(|&n| (n, true)).chain(alone.iter().map(|&n| (n, false)));
    let members = sizes.map(|(n, beside)| Member { size: n, books: vec![book(n).book.bytes()], beside }).collect();
    Family { name: name.to_string(), size, depth: 1, members }
}

const LETTERS: [u8; 4] = [0, 1, 2, 3];

/// A(x) → ∃.. with `new` existential variables in W, and W(x,y,z,w) → T(x) ∧ T(y) ∧ T(z) ∧ T(w). Answers T.
fn crowd_of(draft: &mut Draft, new: usize) -> usize {
    let (a, w, t) = (draft.predicate(1), draft.predicate(4), draft.predicate(1));
    let mut left = new;
    while left > 0 {
        // seven variables need a third atom (document 01: Host)
        let here = left.min(7);
        let places = if here == 7 { 9 } else { 6 };
        let made: Vec<u8> = (0..places).map(|i: usize| 1 + i.min(here - 1) as u8).collect();
        let atoms: Vec<[u8; 4]> = made.chunks(3).map(|c| [0, c[0], c[1], c[2]]).collect();
        let head: Vec<Sketch> = atoms.iter().map(|over| (w, &over[..])).collect();
        draft.rule(&[(a, &[0])], &[&head]);
        left -= here;
    }
    draft.rule(&[(w, &LETTERS)], &[&[(t, &[0]), (t, &[1]), (t, &[2]), (t, &[3])]]);
    t
}

/// Document 01: Crowd.
fn crowd(new: usize) -> Draft {
    let mut draft = Draft::default();
    let t = crowd_of(&mut draft, new);
    let v = draft.predicate(4);
    draft.rule(&[(t, &[0]), (t, &[1]), (t, &[2]), (t, &[3])], &[&[(v, &LETTERS)]]);
    draft
}

/// Document 01: Host.
fn host(new: usize) -> Draft {
    let mut draft = Draft::default();
    let t = crowd_of(&mut draft, new);
    let v = draft.predicate(4);
    draft.rule(&[(t, &[0]), (t, &[1]), (t, &[2])], &[&[(v, &LETTERS)]]);
    draft
}

/// P0(x,y) → ∃z. P1(z,z) ∧ Q(z,x,y), and so on upwards. Answers the last P.
fn doublings(draft: &mut Draft, count: usize) -> usize {
    let q = draft.predicate(3);
    let mut p = draft.predicate(2);
    for _ in 0..count {
        let next = draft.predicate(2);
        draft.rule(&[(p, &[0, 1])], &[&[(next, &[2, 2]), (q, &[2, 0, 1])]]);
        p = next;
    }
    p
}

/// Document 01: Fork.
fn fork(count: usize) -> Draft {
    let mut draft = Draft::default();
    let last = doublings(&mut draft, count);
    let (a, b) = (draft.predicate(1), draft.predicate(1));
    draft.rule(&[(last, &[0, 0])], &[&[(a, &[0])], &[(b, &[0])]]);
    draft
}

/// A term that goes through `count` predicates, one a stage.
fn predicates(count: usize) -> Draft {
    let mut draft = Draft::default();
    let (s, l) = (draft.predicate(1), draft.predicate(2));
    let mut p = draft.predicate(1);
    draft.rule(&[(s, &[0])], &[&[(l, &[0, 1])]]);
    draft.rule(&[(l, &[0, 1])], &[&[(p, &[1])]]);
    while draft.book.arities.len() < count {
        let next = draft.predicate(1);
        draft.rule(&[(p, &[0])], &[&[(next, &[0])]]);
        p = next;
    }
    draft
}

/// L(x,y) ∧ L(y,z) → L′(x,z) from predicate to predicate, over the pairs of five terms: each rule uses two of `count`
/// predicates, and the facts of all the others stand beside theirs.
fn joins(count: usize) -> Draft {
    let mut draft = Draft::default();
    let t = crowd_of(&mut draft, 4);
    let mut l = draft.predicate(2);
    draft.rule(&[(t, &[0]), (t, &[1])], &[&[(l, &[0, 1])]]);
    while draft.book.arities.len() < count {
        let next = draft.predicate(2);
        draft.rule(&[(l, &[0, 1]), (l, &[1, 2])], &[&[(next, &[0, 2])]]);
        l = next;
    }
    draft
}

/// `tops` terms of 31 places, and smaller ones, and a blockable rule over pairs of them, each pair tested with what made
/// its terms.
fn large_terms(tops: usize) -> Draft {
    let mut draft = Draft::default();
    let last = doublings(&mut draft, 3);
    let (e, g, c) = (draft.predicate(4), draft.predicate(1), draft.predicate(2));
    let (a, b) = (draft.predicate(1), draft.predicate(1));
    let mut left = tops;
    while left > 0 {
        let here = left.min(4);
        let over: Vec<u8> = (0..4).map(|i: usize| 2 + i.min(here - 1) as u8).collect();
        draft.rule(&[(last, &[0, 1])], &[&[(e, &over)]]);
        left -= here;
    }
    // the frontier of the rules above is empty without a body variable in the head
    let q = 0;
    for rule in &mut draft.book.rules[3..] {
        rule.disjuncts[0].push(reference::Atom { predicate: q, arity: 3, arguments: [2, 0, 1, 0] });
    }
    draft.rule(&[(e, &LETTERS)], &[&[(g, &[0]), (g, &[1]), (g, &[2]), (g, &[3])]]);
    draft.rule(&[(q as usize, &[0, 1, 2])], &[&[(c, &[1, 0]), (c, &[2, 0])]]);
    draft.rule(&[(c, &[0, 1]), (c, &[1, 2])], &[&[(c, &[0, 2])]]);
    draft.rule(&[(g, &[0]), (g, &[1])], &[&[(a, &[0])], &[(b, &[1])]]);
    draft
}

/// R(a,b) ∧ R(c,d) ∧ R(e,f) ∧ R(g,h) → D(..) over the pairs of `new` terms and ⋆.
fn cross(new: usize, wanted: u8) -> Draft {
    let mut draft = Draft::default();
    let t = crowd_of(&mut draft, new);
    let (r, d) = (draft.predicate(2), draft.predicate(1));
    draft.rule(&[(t, &[0]), (t, &[1])], &[&[(r, &[0, 1])]]);
    draft.rule(&[(r, &[0, 1]), (r, &[2, 3]), (r, &[4, 5]), (r, &[6, 7])], &[&[(d, &[wanted])]]);
    draft
}

/// A Datalog rule from `body` to as many predicates of their own over `over`, at most four.
fn derive(draft: &mut Draft, body: &[Sketch], over: &[u8], count: usize) {
    let derived: Vec<usize> = (0..count).map(|_| draft.predicate(over.len())).collect();
    for four in derived.chunks(4) {
        let head: Vec<Sketch> = four.iter().map(|&p| (p, over)).collect();
        draft.rule(body, &[&head]);
    }
}

fn counts(draft: &Draft) -> (usize, usize) {
    match reference::check(&draft.book.bytes()).verdict {
        reference::Verdict::Accepted { facts, terms, .. } => (facts, terms),
        verdict => panic!("the rule set stays within its limits: {verdict:?}"),
    }
}

/// The first `count` of 64 rules, which together come up to every limit of document 01: 64 predicates, 64 rules, four
/// atoms, four disjuncts, arity 4, eight variables; triggers of 64 places, test sets of 1,024 facts, 2,048 facts and
/// 512 terms.
pub fn limits(count: usize) -> Draft {
    let mut draft = Draft::default();
    let wide = draft.predicate(4);
    // six terms in T: 1,296 facts of four, 216 terms over three
    let t = crowd_of(&mut draft, 5);
    let (v, u) = (draft.predicate(4), draft.predicate(4));
    draft.rule(&[(t, &[0]), (t, &[1]), (t, &[2]), (t, &[3])], &[&[(v, &LETTERS)]]);
    draft.rule(&[(t, &[0]), (t, &[1]), (t, &[2])], &[&[(u, &LETTERS)]]);
    // triggers of 63 places and one
    let last = doublings(&mut draft, 5);
    let (a, b, lone) = (draft.predicate(1), draft.predicate(1), draft.predicate(1));
    draft.rule(&[(last, &[0, 0]), (lone, &[1])], &[&[(a, &[0])], &[(b, &[0])]]);
    // a trigger with eight constants: 512 facts over three of them, 448 over two, the rest over one and the first
    let (s, m, single) = (draft.predicate(4), draft.predicate(1), draft.predicate(1));
    draft.rule(&[(s, &LETTERS)], &[&[(m, &[0]), (m, &[1]), (m, &[2]), (m, &[3])]]);
    let full: &[Sketch] = &[(wide, &LETTERS), (wide, &[4, 5, 6, 7]), (wide, &[7, 0, 6, 1]), (wide, &[5, 2, 4, 3])];
    let body: &[Sketch] = &[(s, &LETTERS), (s, &[4, 5, 6, 7]), (single, &[0]), (single, &[0])];
    let heads: &[&[Sketch]] = &[full, full, full, full];
    draft.rule(body, heads);
    derive(&mut draft, &[(m, &[0]), (m, &[1]), (m, &[2])], &LETTERS[..3], 1);
    derive(&mut draft, &[(m, &[0]), (m, &[1])], &LETTERS[..2], 7);
    let missing = 1_024 - reference::check(&draft.book.bytes()).seen.test_set;
    derive(&mut draft, &[(m, &[0])], &[0], missing / 8);
    derive(&mut draft, &[(single, &[0])], &[0], missing % 8);
    // terms up to 512, by sevens; a third atom makes a fact more
    let extra = draft.book.rules.len();
    loop {
        let new = (512 - counts(&draft).1).min(7);
        if new == 0 {
            break;
        }
        let over: Vec<u8> = (0..8).map(|i| if i < new { i as u8 + 1 } else { 0 }).collect();
        draft.rule(&[(lone, &[0])], &[&[(wide, &over[..4]), (wide, &over[4..])]]);
    }
    // facts up to 2,048; a predicate that is not used has one
    let room = |draft: &Draft| 2_048 - counts(draft).0 - draft.predicates_left();
    for arity in [3, 2, 1] {
        let body: Vec<[u8; 1]> = LETTERS[..arity].iter().map(|&x| [x]).collect();
        let body: Vec<Sketch> = body.iter().map(|x| (t, &x[..])).collect();
        let count = (room(&draft) / (6usize.pow(arity as u32) - 1)).min(draft.predicates_left());
        derive(&mut draft, &body, &LETTERS[..arity], count);
    }
    for k in 0..room(&draft) {
        let atom = draft.atom((wide, &[1, 1, 1, 1]));
        draft.book.rules[extra + k].disjuncts[0].push(atom);
    }
    while draft.predicates_left() > 0 {
        draft.predicate(4);
    }
    while draft.rules_left() > 0 {
        draft.rule(body, heads);
    }
    let seen = reference::check(&draft.book.bytes()).seen;
    assert_eq!((counts(&draft), seen.places, seen.test_set), ((2_048, 512), 64, 1_024));
    draft.book.rules.truncate(count);
    draft
}

/// Lines of three generations: A(x) → ∃y. B(x,y); B(x,y) ∧ C(x) → A(y); B(x,y) ∧ B(y,z) ∧ C(x) → A(z). Accepted at depth 3
/// and not before.
fn pedigrees(lines: usize) -> Draft {
    let mut draft = Draft::default();
    for _ in 0..lines {
        let (a, b, c) = (draft.predicate(1), draft.predicate(2), draft.predicate(1));
        draft.rule(&[(a, &[0])], &[&[(b, &[0, 1])]]);
        draft.rule(&[(b, &[0, 1]), (c, &[0])], &[&[(a, &[1])]]);
        draft.rule(&[(b, &[0, 1]), (b, &[1, 2]), (c, &[0])], &[&[(a, &[2])]]);
    }
    draft
}

/// A family of one size.
fn single(name: &'static str, size: &'static str, count: usize, books: Vec<Vec<u8>>) -> Family {
    let members = vec![Member { size: count, books, beside: true }];
    Family { name: name.to_string(), size, depth: 1, members }
}

/// The rule sets of a folder of vectors, cut as the program cuts its input.
fn vectors(folder: &str) -> std::io::Result<Family> {
    let mut names: Vec<_> =
        std::fs::read_dir(folder)?.map(|entry| entry.map(|e| e.path())).collect::<Result<_, _>>()?;
    names.retain(|name| name.extension().is_some_and(|extension| extension == "book"));
    names.sort();
    let mut books = Vec::new();
    for name in names {
        let mut bytes = std::fs::read(name)?;
        bytes.truncate(reference::print::HANDED);
        books.push(bytes);
    }
    Ok(single("Vectors", "rule sets", books.len(), books))
}

/// One vector, for the blocking tests that it stands for; its size counts them.
fn tests(name: &'static str, folder: &str, file: &str) -> std::io::Result<Family> {
    let bytes = std::fs::read(format!("{folder}/{file}.book"))?;
    let count = reference::check(&bytes).seen.tested;
    Ok(single(name, "tests", count, vec![bytes]))
}

/// A rule set of the differential test, by its number.
fn generated(number: usize) -> Family {
    let (_, book) = generate(&mut Random::new(1115, number as u64));
    single("Generated, slowest", "of seed 1115", number, vec![book])
}

/// The families that are timed in both versions.
fn in_both(name: &str) -> bool {
    ["Predicates", "Joins", "Limits", "Vectors"].contains(&name)
}

/// What the name of a family in version 2 ends with.
pub const UPGRADED: &str = ", upgraded";

/// The same rule sets in version 2; those that do not convert as they were.
fn upgraded(family: &Family) -> Family {
    let book = |book: &Vec<u8>| {
        let mut out = vec![0; reference::convert::ROOM];
        let length = upgrade(book, &mut out);
        length.map_or_else(|_| book.clone(), |length| out[..length].to_vec())
    };
    let member = |member: &Member| Member { books: member.books.iter().map(book).collect(), ..*member };
    let members = family.members.iter().map(member).collect();
    Family { name: format!("{}{UPGRADED}", family.name), members, ..*family }
}

pub fn families(folder: &str) -> std::io::Result<Vec<Family>> {
    let mut families: Vec<Family> = ROWS.iter().map(family).collect();
    families.push(Family { depth: 3, ..family(&("Pedigrees, depth 3", "lines", &[5, 10, 20], &[], pedigrees)) });
    families.push(tests("Tests of up to 63 places", folder, "fork-5")?);
    families.push(tests("Test of 1,024 facts", folder, "test-set-1024")?);
    // of the first 20,000, at depth 1
    families.extend([13916, 11204, 2408].map(generated));
    families.push(vectors(folder)?);
    let upgrades: Vec<Family> = families.iter().filter(|family| in_both(&family.name)).map(upgraded).collect();
    families.extend(upgrades);
    Ok(families)
}
