//! The library's verdict in words. Nothing here decides anything.

use crate::book::Function;
use crate::compile::Compiled;
use crate::fault::Faults;
use crate::json::{list, text, Json};
use crate::names::Names;
use crate::show;
use crate::source::Source;
use crate::terms::{term_of, Listing, Speller, Term};
use rulfjen::{Depth, Refusal, Tables, Verdict};
use std::fmt::Write;

/// A verdict with what the library left in the tables.
pub struct Judged {
    pub verdict: Verdict,
    pub depth: Depth,
    pub listing: Listing,
    /// The cyclic term.
    pub shown: Option<Term>,
}

pub fn judge(compiled: &Compiled, depth: Depth) -> Judged {
    let mut tables = Tables::default();
    let verdict = rulfjen::check(&compiled.bytes, depth, &mut tables);
    let listed = |terms, facts| Listing::of_tables(&compiled.book, &tables, terms, facts);
    let (listing, shown) = match verdict {
        Verdict::Accepted { facts, terms, .. } => (listed(terms, facts), None),
        Verdict::Cyclic { facts, terms, .. } => (listed(terms, facts), Some(term_of(&tables, terms))),
        Verdict::Refused(_) => (Listing::default(), None),
    };
    Judged { verdict, depth, listing, shown }
}

/// What an exit status says.
pub fn status(verdict: &Verdict) -> u8 {
    match verdict {
        Verdict::Accepted { .. } => 0,
        Verdict::Cyclic { .. } => 1,
        Verdict::Refused(_) => 2,
    }
}

/// A number with a comma before each three digits.
pub fn figure(number: u64) -> String {
    let digits = number.to_string();
    let mut out = String::new();
    for (place, digit) in digits.chars().enumerate() {
        if place > 0 && (digits.len() - place).is_multiple_of(3) {
            out.push(',');
        }
        out.push(digit);
    }
    out
}

pub fn counted(count: usize, one: &str) -> String {
    format!("{} {one}{}", figure(count as u64), if count == 1 { "" } else { "s" })
}

/// What a refusal's number means.
pub fn condition(number: u8) -> &'static str {
    match number {
        1 => "a list that the caller lends is too short",
        2 => "there are under four bytes, or the stated length is not the count of bytes behind it",
        3 => "the version is not 1 or 2",
        4 => "the count of predicates is not 1 to 64 (version 2: 1 to 1,024), or an arity is not 1 to 4",
        5 => "there are more than 64 rules",
        6 => "a count of atoms or of alternatives is not 1 to 4",
        7 => "a predicate is not declared, or a variable is over 7",
        8 => "a new variable stands in two alternatives of a rule",
        9 => "an alternative has no variable of the body",
        10 => "the bytes end too early, or some are left over",
        11 => "a match of a divided rule has over 64 places",
        12 => "the closed set of a match of a divided rule has over 1,024 facts",
        13 => "it has over 2,048 facts",
        14 => "it has over 512 terms",
        18 => "the depth is not 1, 2 or 3",
        _ => "the library says no more",
    }
}

/// A refusal's two or three lines. Numbers from 11 on are those of a sound book.
pub fn refused(file: &str, refusal: Refusal) -> String {
    let Refusal { number, place } = refusal;
    let says = condition(number);
    match number {
        11..=14 => format!(
            "{file}: refused ({number})\nThe book is sound, but too large for this check, which gives no verdict on it.\n\
             Stage {place} could not be made: {says}.\n"
        ),
        _ => format!("{file}: refused ({number})\nThese bytes are not a book.\nAt byte {place}: {says}.\n"),
    }
}

/// What a Skolem function makes.
pub fn legend(compiled: &Compiled, functions: &[Function], out: &mut String) {
    let Compiled { book, names, .. } = compiled;
    for &function in functions {
        let variable = show::variable(book, names, function.rule, function.variable);
        let place = names.rule(function.rule);
        _ = writeln!(out, "  {} is what {variable} of {place} makes", names.function(function));
    }
}

/// Of which fillings the library says that they end.
const FILLED: &str =
    "(Filled so that Datalog rules go first, and no rule steps where one of its alternatives holds already.)\n";

pub fn words(compiled: &Compiled, judged: &Judged, facts: bool) -> String {
    let file = &compiled.names.file;
    let mut out = String::new();
    let mut speller = Speller::new(&compiled.book, &compiled.names, &judged.listing.terms);
    let depth = judged.depth.number();
    match judged.verdict {
        Verdict::Accepted { stage, facts, terms } => {
            _ = writeln!(out, "{file}: accepted");
            out.push_str("Every archive that is filled by these rules comes to an end.\n");
            out.push_str(FILLED);
            let (facts, terms) = (counted(facts, "fact"), counted(terms, "term"));
            _ = writeln!(out, "DMFA at depth {depth}: stage {stage} is the last, with {facts} and {terms}.");
        }
        Verdict::Cyclic { stage, facts, terms } => {
            _ = writeln!(out, "{file}: cyclic");
            out.push_str(
                "The check cannot promise that filling ends: these rules make a new thing out of one that the\n",
            );
            out.push_str("same rule made. It does not say that filling never ends; it may end all the same.\n");
            let (facts, terms) = (counted(facts, "fact"), counted(terms, "term"));
            _ = writeln!(
                out,
                "DMFA at depth {depth}: the last stage made is {}, with {facts} and {terms}.",
                stage.saturating_sub(1)
            );
            if let Some(term) = &judged.shown {
                let function = speller.function(term);
                let number = speller.push(term.clone());
                let name = function.map_or(String::new(), |function| compiled.names.function(function));
                let text = speller.term(number);
                _ = writeln!(out, "Stage {stage} has {text}, in which one way down meets {name} {} times.", depth + 1);
                speller.meanings([number]).iter().for_each(|line| _ = writeln!(out, "  {line}"));
                legend(compiled, &speller.functions_in([number]), &mut out);
            }
            out.push_str("`rulebook why` tells how it came to be.\n");
        }
        Verdict::Refused(refusal) => {
            out.push_str(&refused(file, refusal));
            out.push_str("`rulebook why` tells what was large.\n");
        }
    }
    if facts && status(&judged.verdict) < 2 {
        listed(compiled, judged, &speller, &mut out);
    }
    out
}

/// The facts of the last stage made.
fn listed(compiled: &Compiled, judged: &Judged, speller: &Speller, out: &mut String) {
    let Listing { facts, .. } = &judged.listing;
    out.push_str("Facts, with ⋆ for each name of the archive:\n");
    for fact in facts {
        _ = writeln!(out, "  {}", speller.fact(fact));
    }
    let used = || facts.iter().flat_map(|fact| fact.arguments.iter().copied());
    let (meanings, functions) = (speller.meanings(used()), speller.functions_in(used()));
    if !meanings.is_empty() || !functions.is_empty() {
        out.push_str("where\n");
    }
    meanings.iter().for_each(|line| _ = writeln!(out, "  {line}"));
    legend(compiled, &functions, out);
}

fn function_json(names: &Names, function: Function) -> Vec<(&'static str, Json)> {
    vec![
        ("function", text(names.function(function))),
        ("rule", Json::Number(function.rule)),
        ("line", names.rules.get(function.rule).and_then(|rule| rule.line).into()),
        ("alternative", Json::Number(function.disjunct)),
        ("variable", text(names.variable(function.rule, function.variable))),
    ]
}

fn term_json(names: &Names, speller: &Speller, number: Option<usize>, term: &Term) -> Json {
    let mut members: Vec<(&'static str, Json)> = Vec::new();
    if let Some(number) = number {
        members.push(("term", Json::Number(number)));
    }
    if let Some(function) = speller.function(term) {
        members.extend(function_json(names, function));
    }
    members.push(("arguments", list(&term.arguments, |&a| Json::Number(a))));
    Json::Object(members)
}

/// The verdict for programs. Terms are numbers, as in the library's tables.
pub fn json(compiled: &Compiled, judged: &Judged, facts: bool) -> Json {
    let names = &compiled.names;
    let speller = Speller::new(&compiled.book, names, &judged.listing.terms);
    let depth = Json::Number(judged.depth.number());
    let head = |verdict: &str| vec![("file", text(&names.file)), ("verdict", text(verdict)), ("depth", depth)];
    let counts = |stage, facts, terms| {
        [("stage", Json::Number(stage)), ("facts", Json::Number(facts)), ("terms", Json::Number(terms))]
    };
    let mut members = match judged.verdict {
        Verdict::Accepted { stage, facts, terms } => {
            let mut members = head("accepted");
            members.extend(counts(stage, facts, terms));
            members
        }
        Verdict::Cyclic { stage, facts, terms } => {
            let mut members = head("cyclic");
            members.extend(counts(stage, facts, terms));
            if let Some(term) = &judged.shown {
                members.push(("loop", term_json(names, &speller, None, term)));
            }
            members
        }
        Verdict::Refused(Refusal { number, place }) => {
            let mut members = head("refused");
            members.push(("number", Json::Number(number.into())));
            members.push(("place", Json::Number(place)));
            members.push(("words", text(condition(number))));
            return Json::Object(members);
        }
    };
    if facts {
        let terms = judged.listing.terms.iter().enumerate();
        members.push(("term_list", list(terms, |(number, term)| term_json(names, &speller, Some(number), term))));
        members.push((
            "fact_list",
            list(&judged.listing.facts, |fact| {
                Json::Object(vec![
                    ("predicate", text(names.predicate(fact.predicate))),
                    ("arguments", list(&fact.arguments, |&a| Json::Number(a))),
                ])
            }),
        ));
    }
    Json::Object(members)
}

/// Bytes that the library does not read, for programs.
pub fn json_refused(file: &str, depth: Depth, refusal: Refusal) -> Json {
    Json::Object(vec![
        ("file", text(file)),
        ("verdict", text("refused")),
        ("depth", Json::Number(depth.number())),
        ("number", Json::Number(refusal.number.into())),
        ("place", Json::Number(refusal.place)),
        ("words", text(condition(refusal.number))),
    ])
}

/// The faults of a text, for programs.
pub fn json_faults(source: &Source, faults: &Faults) -> Json {
    let fault = |fault: &crate::fault::Fault| {
        let position = source.position(fault.at.start);
        Json::Object(vec![
            ("line", Json::Number(position.line)),
            ("column", Json::Number(position.column)),
            ("says", text(&fault.says)),
            ("expected", text(&fault.expected)),
            ("number", fault.refusal.map(usize::from).into()),
        ])
    };
    Json::Object(vec![
        ("file", text(&source.name)),
        ("verdict", text("faulty")),
        ("faults", list(&faults.kept, fault)),
        ("more", Json::Number(faults.more)),
    ])
}

#[cfg(test)]
mod tests {
    use super::*;

    #[test]
    fn figures() {
        assert_eq!([0, 999, 1_000, 2_048_000].map(figure), ["0", "999", "1,000", "2,048,000"]);
        assert_eq!((counted(1, "fact"), counted(2_048, "fact")), ("1 fact".into(), "2,048 facts".into()));
    }
}
