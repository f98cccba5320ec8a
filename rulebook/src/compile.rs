//! From a text to a book: names become numbers, and the library says what it refuses of each rule.

use crate::book::{Atom, Book, Rule, Unwritten};
use crate::fault::{Fault, Faults};
use crate::names::{Names, RuleNames};
use crate::parser::{self, parse, Statement, Variable};
use crate::source::{printable, Source, Span};
use rulfjen::Refusal;
use std::collections::HashMap;

/// A book with its bytes, which the library has read, and its names.
#[derive(Clone, PartialEq, Eq, Debug)]
pub struct Compiled {
    pub book: Book,
    pub bytes: Vec<u8>,
    pub names: Names,
}

struct Predicate<'a> {
    name: &'a str,
    arity: usize,
    at: Span,
}

/// Predicates in the order of their numbers: that of declaration or first use, of a rule's atoms the body's first.
#[derive(Default)]
struct Predicates<'a> {
    list: Vec<Predicate<'a>>,
    numbers: HashMap<&'a str, usize>,
}

impl<'a> Predicates<'a> {
    /// The number of a predicate with so many arguments. `at` is where a fault of their count stands.
    fn number(&mut self, name: &'a str, at: Span, arity: usize, fault_at: Span) -> Result<usize, Fault> {
        if let Some(&number) = self.numbers.get(name) {
            let first = &self.list[number];
            if first.arity == arity {
                return Ok(number);
            }
            let says = format!("`{}` with {}", short(name), arguments(arity));
            let fault = Fault::new(fault_at, says, arguments(first.arity));
            return Err(fault.noted(first.at, format!("`{}` is declared here", short(name))));
        }
        self.numbers.insert(name, self.list.len());
        self.list.push(Predicate { name, arity, at });
        Ok(self.list.len() - 1)
    }
}

fn arguments(count: usize) -> String {
    if count == 1 {
        "1 argument".to_string()
    } else {
        format!("{count} arguments")
    }
}

fn short(name: &str) -> String {
    printable(&name.chars().take(40).collect::<String>())
}

/// The variables of one rule. In a rule either all of them have numbers for names, or none has.
#[derive(Default)]
struct Variables<'a> {
    numbers: HashMap<&'a str, usize>,
    /// Those of the body, each where it stands first.
    body: HashMap<&'a str, Span>,
    /// Whether the first variable is a number, and where it stands.
    numbered: Option<(bool, Span)>,
}

impl<'a> Variables<'a> {
    fn number(&mut self, variable: &Variable<'a>) -> Result<usize, Fault> {
        let Variable { name, at, .. } = *variable;
        let numbered = name.starts_with(|c: char| c.is_numeric());
        let (first, first_at) = *self.numbered.get_or_insert((numbered, at));
        if first != numbered {
            let fault = Fault::new(at, "numbers and names for variables in one rule", "one or the other in a rule");
            return Err(fault.noted(first_at, "the first variable of the rule"));
        }
        if numbered {
            if name.len() != 1 || !name.is_ascii() {
                return Err(Fault::new(at, "this is no variable", "a name, or one number from 0 to 7"));
            }
            let number = usize::from(name.as_bytes()[0] - b'0');
            self.numbers.insert(name, number);
            return Ok(number);
        }
        let next = self.numbers.len();
        Ok(*self.numbers.entry(name).or_insert(next))
    }

    fn names(&self) -> [String; 8] {
        let mut names: [String; 8] = Default::default();
        for (name, &number) in &self.numbers {
            if let Some(place) = names.get_mut(number) {
                *place = name.to_string();
            }
        }
        names
    }
}

/// Numbers the names of one rule. Its faults are told; then there is no rule.
fn number<'a>(
    rule: &parser::Rule<'a>,
    predicates: &mut Predicates<'a>,
    faults: &mut Faults,
) -> Option<(Rule, RuleNames)> {
    let mut variables = Variables::default();
    let mut sound = true;
    let mut tell = |fault: Fault| {
        faults.push(fault);
        sound = false;
    };
    let mut groups = Vec::with_capacity(rule.disjuncts.len() + 1);
    for (place, group) in std::iter::once(&rule.body).chain(&rule.disjuncts).enumerate() {
        let in_body = place == 0;
        let mut atoms = Vec::with_capacity(group.len());
        for atom in group {
            let predicate = predicates.number(atom.name, atom.at, atom.arguments.len(), atom.whole);
            let mut numbers = Vec::with_capacity(atom.arguments.len());
            for variable in &atom.arguments {
                if in_body {
                    variables.body.entry(variable.name).or_insert(variable.at);
                }
                if let Some(fault) = misplaced(variable, in_body, &variables) {
                    tell(fault);
                }
                match variables.number(variable) {
                    Ok(number) => numbers.push(number),
                    Err(fault) => tell(fault),
                }
            }
            match predicate {
                Ok(predicate) => atoms.push(Atom { predicate, variables: numbers }),
                Err(fault) => tell(fault),
            }
        }
        groups.push(atoms);
    }
    if !sound {
        return None;
    }
    let disjuncts = groups.split_off(1);
    let names = RuleNames { variables: variables.names(), line: None };
    Some((Rule { body: groups.pop().unwrap_or_default(), disjuncts }, names))
}

/// A new variable in the body, one in the head that is not new, or one that is not marked as new.
fn misplaced(variable: &Variable, in_body: bool, variables: &Variables) -> Option<Fault> {
    let Variable { name, existential, at } = *variable;
    let known = variables.body.get(name);
    let name = short(name);
    match (in_body, known, existential) {
        (true, _, true) => {
            Some(Fault::new(at, format!("`!{name}` is a new variable, and stands in the body"), format!("`?{name}`")))
        }
        (false, Some(&first), true) => {
            let fault = Fault::new(at, format!("`!{name}` is not new: the body has it"), format!("`?{name}`"));
            Some(fault.noted(first, "in the body"))
        }
        // a rule without a body is refused as such
        (false, None, false) if !variables.body.is_empty() => {
            let expected = format!("a variable of the body, or `!{name}` for a new one");
            Some(Fault::new(at, format!("`?{name}` is not in the body"), expected))
        }
        _ => None,
    }
}

fn parser_variables<'a, 'b>(atoms: &'b [parser::Atom<'a>]) -> impl Iterator<Item = &'b Variable<'a>> {
    atoms.iter().flat_map(|atom| &atom.arguments)
}

/// What a byte of a rule says.
#[derive(Clone, Copy)]
enum Role {
    BodyCount(usize),
    DisjunctCount(usize),
    AtomCount(usize),
    Predicate,
    Variable,
}

/// What each byte of a rule says, and where that stands in the text.
fn bytes_of(rule: &parser::Rule) -> Vec<(Role, Span)> {
    let whole = |atoms: &[parser::Atom]| match (atoms.first(), atoms.last()) {
        (Some(first), Some(last)) => first.whole.to(last.whole),
        _ => rule.arrow,
    };
    let mut bytes = Vec::new();
    let group = |atoms: &[parser::Atom], role: Role, bytes: &mut Vec<(Role, Span)>| {
        bytes.push((role, atoms.get(4).map_or(whole(atoms), |fifth| fifth.whole)));
        for atom in atoms {
            bytes.push((Role::Predicate, atom.at));
            bytes.extend(atom.arguments.iter().map(|variable| (Role::Variable, variable.at)));
        }
    };
    group(&rule.body, Role::BodyCount(rule.body.len()), &mut bytes);
    let fifth = rule.disjuncts.get(4).map_or(rule.arrow, |fifth| whole(fifth));
    bytes.push((Role::DisjunctCount(rule.disjuncts.len()), fifth));
    for disjunct in &rule.disjuncts {
        group(disjunct, Role::AtomCount(disjunct.len()), &mut bytes);
    }
    bytes
}

/// The book that has this rule alone, and the predicates that it names.
fn alone(rule: &Rule, text: &parser::Rule) -> Book {
    let mut numbers = HashMap::new();
    let mut arities = Vec::new();
    let mut atoms = |atoms: &[Atom], texts: &[parser::Atom]| -> Vec<Atom> {
        let mut renumbered = Vec::with_capacity(atoms.len());
        for (atom, text) in atoms.iter().zip(texts) {
            let predicate = *numbers.entry(atom.predicate).or_insert_with(|| {
                arities.push(text.arguments.len());
                arities.len() - 1
            });
            renumbered.push(Atom { predicate, variables: atom.variables.clone() });
        }
        renumbered
    };
    let body = atoms(&rule.body, &text.body);
    let disjuncts = rule.disjuncts.iter().zip(&text.disjuncts).map(|(d, text)| atoms(d, text)).collect();
    Book { arities, rules: vec![Rule { body, disjuncts }] }
}

/// What the library refuses of a rule, in the words of the text.
fn refused(rule: &Rule, text: &parser::Rule) -> Option<Fault> {
    let mut book = alone(rule, text);
    // a rule of counts out of range may name no predicate, or more than version 1 has; the places below are that version's
    book.arities.resize(book.arities.len().clamp(1, 64), 1);
    let Refusal { number, place } = match book.write() {
        Ok(_) => return None,
        Err(refusal) if refusal.number == 4 => return None,
        Err(refusal) => refusal,
    };
    // the length, the version, the count of predicates, their arities, the count of rules
    let first = 4 + 1 + 1 + book.arities.len() + 1;
    let at = place.checked_sub(first).and_then(|at| bytes_of(text).get(at).copied());
    let fault = match (number, at) {
        (6, Some((role, at))) => match role {
            Role::BodyCount(0) => Fault::new(at, "a rule without a body", "1 to 4 atoms behind `:-`"),
            Role::BodyCount(count) => Fault::new(at, format!("{count} atoms in a body"), "at most 4"),
            Role::DisjunctCount(0) => {
                Fault::new(at, "a rule without a head", "1 to 4 alternatives; a book has no rules that forbid")
            }
            Role::DisjunctCount(count) => Fault::new(at, format!("{count} alternatives in a head"), "at most 4"),
            Role::AtomCount(count) => Fault::new(at, format!("{count} atoms in an alternative"), "at most 4"),
            _ => Fault::new(at, "a count out of range", "1 to 4"),
        },
        (7, Some((Role::Variable, at))) => {
            Fault::new(at, "a variable over 7", "variables 0 to 7: a rule has at most 8 of them")
        }
        (8, _) => twice(rule, text),
        (9, _) => {
            let bare = rule.disjuncts.iter().position(|d| !crate::book::variables(d).any(|v| rule.in_body(v)));
            let at = bare.and_then(|d| Some(text.disjuncts[d].first()?.whole.to(text.disjuncts[d].last()?.whole)));
            let says = "an alternative without a variable of the body";
            Fault::new(at.unwrap_or(text.at), says, "at least one `?` variable in each alternative")
        }
        _ => Fault::new(text.at, format!("the library refuses this rule with {number}"), "a rule that it reads"),
    };
    Some(fault.refused(number))
}

/// An existential variable that stands in two alternatives.
fn twice(rule: &Rule, text: &parser::Rule) -> Fault {
    let mut first: HashMap<&str, (usize, Span)> = HashMap::new();
    for (place, disjunct) in text.disjuncts.iter().enumerate() {
        for variable in parser_variables(disjunct).filter(|variable| variable.existential) {
            let (other, at) = *first.entry(variable.name).or_insert((place, variable.at));
            if other != place {
                let says = format!("the new variable `!{}` stands in two alternatives", short(variable.name));
                return Fault::new(variable.at, says, "another name for it here").noted(at, "in another alternative");
            }
        }
    }
    debug_assert!(rule.disjuncts.len() > 1);
    Fault::new(text.at, "a new variable stands in two alternatives", "another name in each")
}

/// What the library refuses of the predicates and of the count of rules.
fn refused_counts(predicates: &Predicates, rules: &[(Span, Rule)], faults: &mut Faults) {
    let refusal = |book: Book| book.write().err().map(|refusal| refusal.number);
    for predicate in &predicates.list {
        if let Some(number) = refusal(Book { arities: vec![predicate.arity], rules: vec![] }) {
            let says = format!("`{}` with {}", short(predicate.name), arguments(predicate.arity));
            faults.push(Fault::new(predicate.at, says, "1 to 4 arguments").refused(number));
        }
    }
    let count = predicates.list.len();
    if let Some(number) = refusal(Book { arities: vec![1; count], rules: vec![] }) {
        match predicates.list.get(1_024) {
            Some(predicate) => {
                let says = format!("{count} predicates, of which this is the 1,025th");
                faults.push(Fault::new(predicate.at, says, "at most 1,024 predicates in a book").refused(number));
            }
            None if faults.is_empty() => {
                let says = "a book without a predicate";
                faults.push(Fault::new(Span::default(), says, "a rule, or `@declare batch(1) .`").refused(number));
            }
            None => {}
        }
    }
    if let Some(number) = refusal(Book { arities: vec![1], rules: vec![Rule::default(); rules.len()] }) {
        if let (5, Some((at, _))) = (number, rules.get(64)) {
            faults.push(Fault::new(*at, "the 65th rule", "at most 64 rules in a book").refused(number));
        }
    }
}

/// Compiles a text, or tells all its faults.
pub fn compile(source: &Source) -> Result<Compiled, Faults> {
    let mut faults = Faults::default();
    let mut predicates = Predicates::default();
    let mut rules = Vec::new();
    let mut names = Names { file: source.name.clone(), ..Names::default() };
    for statement in parse(&source.text, &mut faults) {
        match statement {
            Statement::Declaration { name, at, arity, arity_at } => {
                if let Err(fault) = predicates.number(name, at, arity, arity_at) {
                    faults.push(fault);
                }
            }
            Statement::Rule(text) => {
                let numbered = number(&text, &mut predicates, &mut faults);
                if let Some(fault) = numbered.as_ref().and_then(|(rule, _)| refused(rule, &text)) {
                    faults.push(fault);
                }
                let (rule, rule_names) = numbered.unwrap_or_default();
                rules.push((text.at, rule));
                names.rules.push(RuleNames { line: Some(source.line_of(text.at.start)), ..rule_names });
            }
        }
    }
    refused_counts(&predicates, &rules, &mut faults);
    if faults.is_empty() {
        let book = Book {
            arities: predicates.list.iter().map(|predicate| predicate.arity).collect(),
            rules: rules.into_iter().map(|(_, rule)| rule).collect(),
        };
        names.predicates = predicates.list.iter().map(|predicate| predicate.name.to_string()).collect();
        match book.compile() {
            Ok(bytes) => return Ok(Compiled { book, bytes, names }),
            Err(unwritten) => faults.push(whole(unwritten, source)),
        }
    }
    faults.cut();
    Err(faults)
}

/// The library refuses a book each of whose parts it takes: no text is known that does this.
fn whole(unwritten: Unwritten, source: &Source) -> Fault {
    let at = Span { start: 0, end: source.text.lines().next().map_or(0, str::len) };
    match unwritten {
        Unwritten::Refused(Refusal { number, place }) => {
            let says = format!("the library refuses the book with {number} at its byte {place}");
            Fault::new(at, says, "a book that it reads").refused(number)
        }
        Unwritten::ReadOtherwise => Fault::new(at, "the library reads another book", "this one: a fault of rulebook"),
    }
}

#[cfg(test)]
mod tests {
    use super::*;

    fn compiled(text: &str) -> Result<Compiled, Vec<(usize, Option<u8>, String)>> {
        compile(&Source::new("a.rules", text.as_bytes())).map_err(|faults| {
            faults.kept.into_iter().map(|fault| (fault.at.start, fault.refusal, fault.says)).collect()
        })
    }

    #[test]
    fn numbers_follow_the_bytes() {
        let text = "transfer(?x, !y) :- batch(?x) .\nclosed(?y) | batch(?y) :- transfer(?x, ?y) .";
        let Compiled { book, names, .. } = compiled(text).unwrap();
        assert_eq!(names.predicates, ["batch", "transfer", "closed"]);
        assert_eq!(book.arities, [1, 2, 1]);
        assert_eq!(book.rules[1].body[0].variables, [0, 1]);
        assert_eq!(names.rules[1].variables[1], "y");
        assert_eq!(names.rules[1].line, Some(2));
    }

    #[test]
    fn declarations_and_numbers() {
        let text = "@declare z(1) .\n@declare a(2) .\na(?5, !2) :- b(?5) .\n@declare a(2) .";
        let Compiled { book, names, .. } = compiled(text).unwrap();
        assert_eq!(names.predicates, ["z", "a", "b"]);
        assert_eq!(book.rules[0].disjuncts[0][0].variables, [5, 2]);
        assert_eq!(names.rules[0].variables[2], "2");
    }

    #[test]
    fn faults_of_names() {
        for (text, at, says) in [
            ("p(?z) :- q(?x) .", 2, "`?z` is not in the body"),
            ("p(!x) :- q(?x) .", 2, "not new"),
            ("p(?x) :- q(!x) .", 11, "stands in the body"),
            ("p(?x, ?1) :- q(?x) .", 6, "numbers and names"),
            ("p(?11) :- q(?1) .", 2, "no variable"),
            ("p(?3) :- q(?1) .", 2, "`?3` is not in the body"),
            ("p(?1, !1) :- q(?1) .", 6, "not new"),
            ("p(?x) :- p(?x, ?x) .", 0, "`p` with 1 argument"),
            ("@declare p(2) . p(?x) :- q(?x) .", 16, "`p` with 1 argument"),
        ] {
            let faults = compiled(text).unwrap_err();
            assert!(faults.iter().any(|fault| fault.0 == at && fault.2.contains(says)), "{text}: {faults:?}");
        }
    }

    #[test]
    fn refusals_of_the_library() {
        let many = |count: usize, text: &str, between: &str| vec![text; count].join(between);
        let nine = (0..9).map(|v| format!("q(?v{v})")).collect::<Vec<_>>();
        for (text, at, number) in [
            (String::new(), 0, 4),
            ("p() :- q(?x) .".into(), 0, 4),
            ("@declare p(5) .".into(), 9, 4),
            (format!("p(?x) :- {} .", many(5, "q(?x)", ",")), 33, 6),
            (format!("{} :- q(?x) .", many(5, "p(?x)", "|")), 24, 6),
            (format!("{} :- q(?x) .", many(5, "p(?x)", ",")), 24, 6),
            ("p(?x) :- .".into(), 6, 6),
            (":- q(?x) .".into(), 0, 6),
            ("r(!a,!b,!c,!d), r(!e,!f,!g,!h), r(?x,!a,!a,!a) :- q(?x) .".into(), 27, 7),
            ("p(?8) :- q(?8) .".into(), 11, 7),
            ("r(?x, !y) | s(?x, !y) :- q(?x) .".into(), 18, 8),
            ("p(?x) | p(!y) :- q(?x) .".into(), 8, 9),
        ] {
            let faults = compiled(&text).unwrap_err();
            let found: Vec<_> = faults.iter().map(|fault| (fault.0, fault.1)).collect();
            assert_eq!(found, [(at, Some(number))], "{text}: {faults:?}");
        }
        let faults = compiled(&format!("p(?v0) :- {} .", nine.join(","))).unwrap_err();
        assert_eq!(faults[0].1, Some(6));
        let rules = many(65, "p(?x) :- q(?x) .", "\n");
        assert_eq!(compiled(&rules).unwrap_err()[0].1, Some(5));
        assert!(compiled(&many(64, "p(?x) :- q(?x) .", "\n")).is_ok());
        let declared = |count: usize| (0..count).map(|p| format!("@declare p{p}(1) .\n")).collect::<String>();
        assert_eq!(compiled(&declared(1_025)).unwrap_err()[0].1, Some(4));
        assert!(compiled(&declared(1_024)).is_ok());
    }

    #[test]
    fn the_version_follows_the_count_of_predicates() {
        let declared = |count: usize| (0..count).map(|p| format!("@declare p{p}(1) .\n")).collect::<String>();
        for (count, version) in [(1, 1), (64, 1), (65, 2), (255, 2), (256, 2), (257, 2), (1_024, 2)] {
            let Compiled { book, bytes, .. } = compiled(&declared(count)).unwrap();
            assert_eq!((book.arities.len(), bytes[4]), (count, version));
        }
        // a rule behind them, over the last
        let text = declared(1_023) + "p1022(?x), late(?x, !y) :- p300(?x) .";
        let Compiled { book, bytes, .. } = compiled(&text).unwrap();
        assert_eq!((bytes[4], book.rules[0].disjuncts[0][1].predicate), (2, 1_023));
        assert!(bytes.ends_with(&[1, 1, 1, 44, 0, 1, 2, 3, 254, 0, 3, 255, 0, 1]));
        // its faults are told at their places
        let faults = compiled(&(declared(1_023) + "p1(?x) | p1(!y) :- p300(?x) .")).unwrap_err();
        assert_eq!((faults.len(), faults[0].1), (1, Some(9)));
    }
}
