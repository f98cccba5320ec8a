//! The saturation of a rule set without rule constants as an answer set program.
//!
//! Where no trigger is blocked, the last stage of an accepted rule set is what its rules derive from the critical
//! instance as Horn clauses, with Skolem terms for existential variables. There is a clause for each atom of each
//! disjunct, since a stage has the outputs of all of them.

use reference::rules::{members, Rule, RuleSet};
use reference::{Atom, Book};

fn literal(atom: &Atom, name: impl Fn(u8) -> String) -> String {
    let arguments: Vec<String> = atom.arguments().iter().map(|&v| name(v)).collect();
    format!("p{}({})", atom.predicate, arguments.join(","))
}

fn variable(v: u8) -> String {
    format!("V{v}")
}

/// A head variable: itself, or its Skolem function over the frontier.
fn term(rule: &Rule, v: u8) -> String {
    match rule.marks[v as usize] {
        0 => variable(v),
        mark => {
            let frontier: Vec<String> = rule.frontier.iter().map(|&x| variable(x)).collect();
            format!("f{mark}({})", frontier.join(","))
        }
    }
}

/// `head` from the body. A variable that the clause has once is anonymous, so that the grounder may project it away.
fn clause(rule: &Rule, head: &Atom) -> String {
    let made = members(head.set()).any(|v| rule.marks[v as usize] > 0);
    let used = if made { head.set() | rule.frontier_set } else { head.set() };
    let count = |v: u8| rule.body.iter().flat_map(Atom::arguments).filter(|&&other| other == v).count();
    let name = |v: u8| if used >> v & 1 == 0 && count(v) == 1 { "_".to_string() } else { variable(v) };
    let body: Vec<String> = rule.body.iter().map(|atom| literal(atom, name)).collect();
    format!("{} :- {}.\n", literal(head, |v| term(rule, v)), body.join(", "))
}

pub fn program(book: &Book) -> String {
    let critical = |(predicate, &arity): (usize, &u8)| {
        let atom = Atom { predicate: predicate as u16, arity, arguments: [0; 4] };
        literal(&atom, |_| "star".to_string()) + ".\n"
    };
    let rules = RuleSet::new(book).rules;
    let heads = |rule: &'_ Rule| -> String { rule.disjuncts.iter().flatten().map(|head| clause(rule, head)).collect() };
    let facts: String = book.arities.iter().enumerate().map(critical).collect();
    facts + &rules.iter().map(heads).collect::<String>()
}
