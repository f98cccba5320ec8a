//! A book in the notation. To compile it gives the same bytes: each predicate is declared in its order, and a rule whose
//! variables are not numbered by first use has their numbers as names.

use crate::book::{Atom, Book};
use crate::names::Names;

fn atoms(book: &Book, names: &Names, rule: usize, atoms: &[Atom]) -> String {
    let one = |atom: &Atom| {
        let variables: Vec<String> = atom.variables.iter().map(|&v| variable(book, names, rule, v)).collect();
        format!("{}({})", names.predicate(atom.predicate), variables.join(", "))
    };
    atoms.iter().map(one).collect::<Vec<_>>().join(", ")
}

/// A variable with its `?`, or `!` if it is existential.
pub fn variable(book: &Book, names: &Names, rule: usize, variable: usize) -> String {
    let mark = if book.rules[rule].in_body(variable) { '?' } else { '!' };
    format!("{mark}{}", names.variable(rule, variable))
}

/// One rule, as a line without its end.
pub fn rule(book: &Book, names: &Names, number: usize) -> String {
    let rule = &book.rules[number];
    let head: Vec<String> = rule.disjuncts.iter().map(|disjunct| atoms(book, names, number, disjunct)).collect();
    format!("{} :- {} .", head.join(" | "), atoms(book, names, number, &rule.body))
}

pub fn book(book: &Book, names: &Names) -> String {
    let mut out = String::new();
    for (number, arity) in book.arities.iter().enumerate() {
        out.push_str(&format!("@declare {}({arity}) .\n", names.predicate(number)));
    }
    for number in 0..book.rules.len() {
        out.push_str(&rule(book, names, number));
        out.push('\n');
    }
    out
}
