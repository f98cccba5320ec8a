//! Faults of a text: what is wrong, where, and what was expected.

use crate::source::{Source, Span};
use std::fmt::Write;

/// Faults that are kept of one text.
const KEPT: usize = 20;

#[derive(Clone, PartialEq, Eq, Debug)]
pub struct Fault {
    pub at: Span,
    pub says: String,
    pub expected: String,
    /// The library's refusal, where the fault is one.
    pub refusal: Option<u8>,
    /// Another place that belongs to it.
    pub note: Option<(Span, String)>,
}

impl Fault {
    pub fn new(at: Span, says: impl Into<String>, expected: impl Into<String>) -> Fault {
        Fault { at, says: says.into(), expected: expected.into(), refusal: None, note: None }
    }

    pub fn refused(mut self, number: u8) -> Fault {
        self.refusal = Some(number);
        self
    }

    pub fn noted(mut self, at: Span, says: impl Into<String>) -> Fault {
        self.note = Some((at, says.into()));
        self
    }
}

/// The faults of one text in its order, the first of them in full and the others as a count.
#[derive(Clone, PartialEq, Eq, Debug, Default)]
pub struct Faults {
    pub kept: Vec<Fault>,
    pub more: usize,
}

impl Faults {
    pub fn push(&mut self, fault: Fault) {
        self.kept.push(fault);
        if self.kept.len() > 4 * KEPT {
            self.cut();
        }
    }

    /// Sorted by place, and no more than are shown.
    pub fn cut(&mut self) {
        self.kept.sort_by_key(|fault| (fault.at.start, fault.at.end));
        self.more += self.kept.len().saturating_sub(KEPT);
        self.kept.truncate(KEPT);
    }

    pub fn is_empty(&self) -> bool {
        self.kept.is_empty()
    }

    pub fn render(&self, source: &Source) -> String {
        let mut out = String::new();
        for fault in &self.kept {
            render(source, fault, &mut out);
        }
        let count = self.kept.len() + self.more;
        match (count, self.more) {
            (1, _) => out.push_str("1 fault\n"),
            (_, 0) => _ = writeln!(out, "{count} faults"),
            (_, more) => _ = writeln!(out, "{count} faults, {more} of them not shown"),
        }
        out
    }
}

fn render(source: &Source, fault: &Fault, out: &mut String) {
    let place = |at: Span, word: &str, says: &str, below: &str, out: &mut String| {
        let position = source.position(at.start);
        let (line, carets) = source.excerpt(at);
        let number = position.line.to_string();
        let gap = " ".repeat(number.len());
        _ = writeln!(out, "{}:{}:{}: {word}: {says}", source.name, position.line, position.column);
        _ = writeln!(out, "  {number} | {line}");
        _ = writeln!(out, "  {gap} | {carets}{below}");
    };
    let word = match fault.refusal {
        Some(number) => format!("refused ({number})"),
        None => "fault".to_string(),
    };
    place(fault.at, &word, &fault.says, &format!(" expected {}", fault.expected), out);
    if let Some((at, says)) = &fault.note {
        place(*at, "note", says, "", out);
    }
}

#[cfg(test)]
mod tests {
    use super::*;

    #[test]
    fn a_fault_shows_its_line() {
        let source = Source::new("a.rules", b"p(?x) :- q(?x)\nr(?x) :- q(?x) .");
        let mut faults = Faults::default();
        faults
            .push(Fault::new(Span { start: 15, end: 16 }, "found `r`", "`.`").noted(Span { start: 0, end: 1 }, "here"));
        faults.cut();
        let text = "a.rules:2:1: fault: found `r`\n  2 | r(?x) :- q(?x) .\n    | ^ expected `.`\n\
                    a.rules:1:1: note: here\n  1 | p(?x) :- q(?x)\n    | ^\n1 fault\n";
        assert_eq!(faults.render(&source), text);
    }

    #[test]
    fn the_first_faults_are_kept() {
        let mut faults = Faults::default();
        for start in (0..1_000).rev() {
            faults.push(Fault::new(Span { start, end: start }, "", ""));
        }
        faults.cut();
        assert_eq!((faults.kept.len(), faults.more), (KEPT, 980));
        assert_eq!(faults.kept[0].at.start, 0);
    }
}
