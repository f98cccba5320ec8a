//! The words of the notation. Blanks, line ends and comments from `%` to the end of a line stand between them.

use crate::fault::{Fault, Faults};
use crate::source::Span;

/// Characters of the longest name.
pub const LONGEST_NAME: usize = 255;

#[derive(Clone, Copy, PartialEq, Eq, Debug)]
pub enum Kind {
    /// `transfer`
    Name,
    /// `?x`, `?3`
    Universal,
    /// `!y`, `!3`
    Existential,
    /// `2`
    Number,
    /// `@declare`
    Directive,
    Open,
    Close,
    Comma,
    Bar,
    Arrow,
    Dot,
    End,
}

#[derive(Clone, Copy, PartialEq, Eq, Debug)]
pub struct Token {
    pub kind: Kind,
    pub at: Span,
    /// It is the first of its line.
    pub first: bool,
    /// Characters before it were a fault, so that a further one here is most likely no other.
    pub damaged: bool,
}

pub struct Lexer<'a> {
    text: &'a str,
    at: usize,
    fresh_line: bool,
}

fn begins_name(c: char) -> bool {
    c.is_alphabetic() || c == '_'
}

pub fn continues_name(c: char) -> bool {
    c.is_alphanumeric() || c == '_'
}

/// A text that is one name.
pub fn is_name(text: &str) -> bool {
    text.starts_with(begins_name) && text.chars().all(continues_name) && text.chars().count() <= LONGEST_NAME
}

impl<'a> Lexer<'a> {
    pub fn new(text: &'a str) -> Lexer<'a> {
        Lexer { text, at: if text.starts_with('\u{feff}') { 3 } else { 0 }, fresh_line: true }
    }

    fn rest(&self) -> &'a str {
        &self.text[self.at..]
    }

    fn skip_blanks(&mut self) {
        while let Some(c) = self.rest().chars().next() {
            match c {
                '\n' => self.fresh_line = true,
                '%' => {
                    self.at += self.rest().find('\n').unwrap_or(self.rest().len());
                    continue;
                }
                c if c.is_whitespace() => {}
                _ => return,
            }
            self.at += c.len_utf8();
        }
    }

    /// The length of what follows `skip` bytes and belongs to a name.
    fn word(&self, skip: usize) -> usize {
        let rest = &self.rest()[skip..];
        skip + rest.find(|c| !continues_name(c)).unwrap_or(rest.len())
    }

    /// The next word. Characters that begin none are a fault, and passed over.
    pub fn next(&mut self, faults: &mut Faults) -> Token {
        let mut damaged = false;
        loop {
            self.skip_blanks();
            let first = std::mem::take(&mut self.fresh_line);
            let Some(c) = self.rest().chars().next() else {
                return Token { kind: Kind::End, at: Span { start: self.at, end: self.at }, first, damaged };
            };
            let (kind, length) = match c {
                '(' => (Kind::Open, 1),
                ')' => (Kind::Close, 1),
                ',' => (Kind::Comma, 1),
                '|' => (Kind::Bar, 1),
                '.' => (Kind::Dot, 1),
                ':' if self.rest().starts_with(":-") => (Kind::Arrow, 2),
                '@' => (Kind::Directive, self.word(1)),
                '?' => (Kind::Universal, self.word(1)),
                '!' => (Kind::Existential, self.word(1)),
                c if c.is_ascii_digit() => (Kind::Number, self.word(0)),
                c if begins_name(c) => (Kind::Name, self.word(0)),
                _ => {
                    self.unknown(faults);
                    self.fresh_line = first;
                    damaged = true;
                    continue;
                }
            };
            let at = Span { start: self.at, end: self.at + length };
            self.at += length;
            if length > 1 && kind != Kind::Arrow && self.text[at.start..at.end].chars().count() > LONGEST_NAME + 1 {
                let says = format!("a name of more than {LONGEST_NAME} characters");
                faults.push(Fault::new(at, says, "a shorter one"));
            }
            return Token { kind, at, first, damaged };
        }
    }

    /// One fault for a run of characters that the notation lacks.
    fn unknown(&mut self, faults: &mut Faults) {
        let known = |c: char| c.is_whitespace() || continues_name(c) || "()|,.:@?!%".contains(c);
        let run = self.rest().char_indices().skip(1).find(|&(_, c)| known(c));
        let length = run.map_or(self.rest().len(), |(at, _)| at);
        let at = Span { start: self.at, end: self.at + length };
        let (says, expected) = match &self.rest()[..length] {
            "\u{fffd}" => ("bytes that are not UTF-8".to_string(), "a text in UTF-8"),
            run => {
                let expected = match run {
                    ":" | "<-" | "←" => "`:-` between head and body",
                    "->" | "→" => "the head first, then `:-` and the body",
                    "∨" | ";" | "\\/" => "`|` between alternatives, `,` between atoms",
                    "∧" | "&" | "/\\" => "`,` between atoms",
                    "∃" => "`!` before a new variable, as in `!y`",
                    "~" | "¬" => "an atom; a book has no negation",
                    "=" | "≠" => "an atom; a book has no equality",
                    "\"" | "'" | "<" => "a variable; a book has no fixed names",
                    "#" | "//" => "`%` before a comment",
                    _ => "a name, a variable, or one of `( ) , | :- . % @declare`",
                };
                let short: String = run.chars().take(20).collect();
                (format!("`{}` is no part of the notation", crate::source::printable(&short)), expected)
            }
        };
        faults.push(Fault::new(at, says, expected));
        self.at += length;
    }
}

#[cfg(test)]
mod tests {
    use super::*;

    fn kinds(text: &str) -> (Vec<Kind>, usize) {
        let (mut lexer, mut faults, mut kinds) = (Lexer::new(text), Faults::default(), Vec::new());
        loop {
            let token = lexer.next(&mut faults);
            if token.kind == Kind::End {
                return (kinds, faults.kept.len());
            }
            kinds.push(token.kind);
        }
    }

    #[test]
    fn words() {
        use Kind::*;
        let text = "\u{feff}@declare røye(2) . % a comment\r\n?x!y3|,:- ?7";
        let words =
            vec![Directive, Name, Open, Number, Close, Dot, Universal, Existential, Bar, Comma, Arrow, Universal];
        assert_eq!(kinds(text), (words, 0));
    }

    #[test]
    fn a_run_of_unknown_characters_is_one_fault() {
        assert_eq!(kinds("p →→→ q"), (vec![Kind::Name, Kind::Name], 1));
        assert_eq!(kinds("; ; :"), (vec![], 3));
    }

    #[test]
    fn names() {
        assert!(is_name("p0") && is_name("_") && is_name("røye_2"));
        assert!(!is_name("") && !is_name("0p") && !is_name("a b") && !is_name("a-b") && !is_name(&"a".repeat(256)));
    }

    #[test]
    fn the_first_word_of_a_line_is_known() {
        let (mut lexer, mut faults) = (Lexer::new("a b % c\n d"), Faults::default());
        let firsts: Vec<bool> = (0..3).map(|_| lexer.next(&mut faults).first).collect();
        assert_eq!(firsts, [true, false, true]);
    }
}
