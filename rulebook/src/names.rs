//! What a book's predicates, variables and rules are called.

use crate::book::{Book, Function, Rule};
use crate::fault::{Fault, Faults};
use crate::lexer::{is_name, LONGEST_NAME};
use crate::source::{printable, Source, Span};
use std::collections::HashMap;

/// Variables of a rule that has them numbered by first use.
const LETTERS: [&str; 8] = ["x", "y", "z", "u", "v", "w", "s", "t"];

#[derive(Clone, PartialEq, Eq, Debug, Default)]
pub struct RuleNames {
    /// By number; a variable that the rule lacks has no name.
    pub variables: [String; 8],
    /// Its line in the file, where there is one.
    pub line: Option<usize>,
}

#[derive(Clone, PartialEq, Eq, Debug, Default)]
pub struct Names {
    pub file: String,
    pub predicates: Vec<String>,
    pub rules: Vec<RuleNames>,
}

/// The numbers of the rule's variables are those of their first use, body first.
fn by_first_use(rule: &Rule) -> bool {
    let mut count = 0;
    rule.variables().all(|variable| {
        count += (variable == count) as usize;
        variable < count
    })
}

fn of_rule(rule: &Rule) -> RuleNames {
    let mut names = RuleNames::default();
    let letters = by_first_use(rule);
    for variable in rule.variables() {
        if let Some(name) = names.variables.get_mut(variable) {
            *name = if letters { LETTERS[variable].to_string() } else { variable.to_string() };
        }
    }
    names
}

impl Names {
    /// The names of a book that came as bytes: p0, p1, .. and letters, or the variables' own numbers.
    pub fn of_book(file: &str, book: &Book) -> Names {
        Names {
            file: printable(file),
            predicates: (0..book.arities.len()).map(|number| format!("p{number}")).collect(),
            rules: book.rules.iter().map(of_rule).collect(),
        }
    }

    pub fn variable(&self, rule: usize, variable: usize) -> &str {
        self.rules.get(rule).and_then(|names| names.variables.get(variable)).map_or("", String::as_str)
    }

    pub fn predicate(&self, number: usize) -> &str {
        self.predicates.get(number).map_or("", String::as_str)
    }

    /// A Skolem function: its variable and its rule's number.
    pub fn function(&self, function: Function) -> String {
        format!("{}@{}", self.variable(function.rule, function.variable), function.rule)
    }

    /// A rule's number, and where it stands.
    pub fn rule(&self, number: usize) -> String {
        match self.rules.get(number).and_then(|rule| rule.line) {
            Some(line) => format!("rule {number} ({}:{line})", self.file),
            None => format!("rule {number}"),
        }
    }
}

/// Reads a file of names: one in each line, in the order of the predicates; `%` begins a comment.
pub fn predicates(source: &Source, count: usize) -> Result<Vec<String>, Faults> {
    let mut names: Vec<String> = Vec::new();
    let mut known: HashMap<&str, Span> = HashMap::new();
    let mut faults = Faults::default();
    let mut start = 0;
    for line in source.text.split_inclusive('\n') {
        let word = line.split('%').next().unwrap_or("");
        let name = word.trim().trim_start_matches('\u{feff}');
        let from = start + (word.len() - word.trim_start().len());
        let at = Span { start: from, end: from + word.trim().len() };
        start += line.len();
        if name.is_empty() {
            continue;
        }
        if !is_name(name) {
            let expected = format!("letters, digits and `_`, no digit first, at most {LONGEST_NAME}");
            faults.push(Fault::new(at, "this is no name of a predicate", expected));
        } else if let Some(&first) = known.get(name) {
            let fault = Fault::new(at, format!("`{name}` names two predicates"), "another name");
            faults.push(fault.noted(first, "the first one"));
        } else {
            known.insert(name, at);
        }
        names.push(name.to_string());
    }
    if faults.is_empty() && names.len() != count {
        let at = Span { start: source.text.len(), end: source.text.len() };
        let says = format!("{} names for a book of {count} predicates", names.len());
        faults.push(Fault::new(at, says, format!("{count} names, one in each line")));
    }
    faults.cut();
    if faults.is_empty() {
        Ok(names)
    } else {
        Err(faults)
    }
}

#[cfg(test)]
mod tests {
    use super::*;

    #[test]
    fn a_file_of_names() {
        let read = |text: &str, count| predicates(&Source::new("names", text.as_bytes()), count);
        assert_eq!(read("% three\nbatch\n transfer % moves\r\n\nclosed", 3).unwrap(), ["batch", "transfer", "closed"]);
        assert_eq!(read("batch\n", 2).unwrap_err().kept[0].expected, "2 names, one in each line");
        assert_eq!(read("batch\nbatch\n", 2).unwrap_err().kept[0].at.start, 6);
        assert_eq!(read("  2a\nb c\n", 2).unwrap_err().kept.len(), 2);
    }
}
