//! The grammar of `NOTATION.md`: a file as its statements. Behind a fault the parser goes on with the next statement.

use crate::fault::{Fault, Faults};
use crate::lexer::{Kind, Lexer, Token};
use crate::source::{printable, Span};

#[derive(Clone, PartialEq, Eq, Debug)]
pub struct Variable<'a> {
    /// Without its `?` or `!`.
    pub name: &'a str,
    pub existential: bool,
    pub at: Span,
}

#[derive(Clone, PartialEq, Eq, Debug)]
pub struct Atom<'a> {
    pub name: &'a str,
    pub at: Span,
    pub whole: Span,
    pub arguments: Vec<Variable<'a>>,
}

#[derive(Clone, PartialEq, Eq, Debug)]
pub struct Rule<'a> {
    pub at: Span,
    pub disjuncts: Vec<Vec<Atom<'a>>>,
    pub body: Vec<Atom<'a>>,
    /// Where the body begins, also an empty one.
    pub arrow: Span,
}

#[derive(Clone, PartialEq, Eq, Debug)]
pub enum Statement<'a> {
    Declaration { name: &'a str, at: Span, arity: usize, arity_at: Span },
    Rule(Rule<'a>),
}

/// Rules that are kept of a file: one more than a book may have.
pub const KEPT_RULES: usize = 65;

struct Parser<'a, 'b> {
    text: &'a str,
    lexer: Lexer<'a>,
    token: Token,
    /// The end of the word before `token`.
    behind: usize,
    faults: &'b mut Faults,
}

/// A fault was found and told; what is left of the statement is to be passed over.
struct Lost;

type Parsed<T> = Result<T, Lost>;

/// The statements of a text that are well-formed.
pub fn parse<'a>(text: &'a str, faults: &mut Faults) -> Vec<Statement<'a>> {
    let mut lexer = Lexer::new(text);
    let token = lexer.next(faults);
    let mut parser = Parser { text, lexer, token, behind: 0, faults };
    let mut statements = Vec::new();
    let mut rules = 0;
    while parser.token.kind != Kind::End {
        match parser.statement() {
            Ok(Statement::Rule(_)) if rules == KEPT_RULES => {}
            Ok(statement) => {
                rules += matches!(statement, Statement::Rule(_)) as usize;
                statements.push(statement);
            }
            Err(Lost) => parser.skip(),
        }
    }
    statements
}

impl<'a> Parser<'a, '_> {
    fn slice(&self, at: Span) -> &'a str {
        &self.text[at.start..at.end]
    }

    fn take(&mut self) -> Token {
        let token = self.token;
        self.behind = token.at.end;
        self.token = self.lexer.next(self.faults);
        token
    }

    fn has(&mut self, kind: Kind) -> bool {
        let here = self.token.kind == kind;
        if here {
            self.take();
        }
        here
    }

    fn skip(&mut self) {
        while !matches!(self.token.kind, Kind::End | Kind::Directive) {
            if self.take().kind == Kind::Dot {
                return;
            }
        }
    }

    fn tell(&mut self, fault: Fault) {
        if !self.token.damaged {
            self.faults.push(fault);
        }
    }

    /// Something else stands where `expected` should be.
    fn lost<T>(&mut self, expected: &str) -> Parsed<T> {
        let token = self.token;
        let (at, says) = match token.kind {
            Kind::End => (Span { start: self.behind, end: self.behind }, "the file ends here".to_string()),
            _ => (token.at, format!("found `{}`", self.shown(token.at))),
        };
        self.tell(Fault::new(at, says, expected));
        Err(Lost)
    }

    fn shown(&self, at: Span) -> String {
        printable(&self.slice(at).chars().take(40).collect::<String>())
    }

    fn expect(&mut self, kind: Kind, expected: &str) -> Parsed<Token> {
        if self.token.kind == kind {
            return Ok(self.take());
        }
        self.lost(expected)
    }

    /// A statement ends here by its `.`, or, with a fault, before a word that most likely begins the next one.
    fn end(&mut self, expected: &str) -> Parsed<()> {
        if self.has(Kind::Dot) {
            return Ok(());
        }
        if self.begins_next() {
            let at = Span { start: self.behind, end: self.behind };
            self.tell(Fault::new(at, "the statement does not end before the next one", expected));
            return Ok(());
        }
        self.lost(expected)
    }

    /// A name that begins a line most likely begins a statement.
    fn begins_next(&self) -> bool {
        self.token.kind == Kind::Directive || self.token.kind == Kind::Name && self.token.first
    }

    fn statement(&mut self) -> Parsed<Statement<'a>> {
        match self.token.kind {
            Kind::Directive => self.declaration(),
            Kind::Name | Kind::Arrow => self.rule().map(Statement::Rule),
            _ => self.lost("a rule, as in `closed(?x) :- batch(?x) .`, or `@declare`"),
        }
    }

    fn declaration(&mut self) -> Parsed<Statement<'a>> {
        if self.slice(self.token.at) != "@declare" {
            let says = format!("found `{}`", self.shown(self.token.at));
            self.faults.push(Fault::new(self.token.at, says, "`@declare`, as in `@declare transfer(2) .`"));
            self.take();
            return Err(Lost);
        }
        self.take();
        let name = self.expect(Kind::Name, "the name of a predicate")?;
        self.expect(Kind::Open, "`(` and the count of arguments, as in `@declare transfer(2) .`")?;
        let number = self.expect(Kind::Number, "the count of arguments, 1 to 4")?;
        let Ok(arity) = self.slice(number.at).parse() else {
            let says = format!("`{}` is no count of arguments", self.shown(number.at));
            self.faults.push(Fault::new(number.at, says, "a number, 1 to 4"));
            return Err(Lost);
        };
        self.expect(Kind::Close, "`)`")?;
        self.end("`.` behind the declaration")?;
        Ok(Statement::Declaration { name: self.slice(name.at), at: name.at, arity, arity_at: number.at })
    }

    fn rule(&mut self) -> Parsed<Rule<'a>> {
        let start = self.token.at;
        let mut disjuncts = Vec::new();
        if self.token.kind != Kind::Arrow {
            disjuncts.push(self.atoms()?);
            while self.has(Kind::Bar) {
                disjuncts.push(self.atoms()?);
            }
        }
        if self.token.kind == Kind::Dot {
            let says = "a statement without a body";
            let expected = "`:-` and the body; facts are no part of a book";
            self.faults.push(Fault::new(self.token.at, says, expected));
            return Err(Lost);
        }
        let arrow = self.expect(Kind::Arrow, "`,` and an atom, `|` and an alternative, or `:-` and the body")?.at;
        let body = if self.token.kind == Kind::Dot { Vec::new() } else { self.atoms()? };
        if self.token.kind == Kind::Bar {
            return self.lost("`,` or `.`; alternatives stand in the head only");
        }
        self.end("`,` and an atom, or `.` behind the rule")?;
        Ok(Rule { at: Span { start: start.start, end: self.behind }, disjuncts, body, arrow })
    }

    fn atoms(&mut self) -> Parsed<Vec<Atom<'a>>> {
        let mut atoms = vec![self.atom()?];
        while self.has(Kind::Comma) {
            atoms.push(self.atom()?);
        }
        Ok(atoms)
    }

    fn atom(&mut self) -> Parsed<Atom<'a>> {
        let name = self.expect(Kind::Name, "an atom, as in `batch(?x)`")?;
        if self.token.kind != Kind::Open {
            return self.lost("`(` and the arguments of the predicate");
        }
        self.take();
        let mut arguments = Vec::new();
        if self.token.kind != Kind::Close {
            arguments.push(self.variable()?);
            while self.has(Kind::Comma) {
                arguments.push(self.variable()?);
            }
        }
        let close = self.expect(Kind::Close, "`,` and a variable, or `)`")?;
        Ok(Atom { name: self.slice(name.at), at: name.at, whole: name.at.to(close.at), arguments })
    }

    fn variable(&mut self) -> Parsed<Variable<'a>> {
        match self.token.kind {
            Kind::Universal | Kind::Existential if self.token.at.end - self.token.at.start > 1 => {
                let Token { kind, at, .. } = self.take();
                Ok(Variable { name: &self.slice(at)[1..], existential: kind == Kind::Existential, at })
            }
            Kind::Name | Kind::Number => self.lost("a variable, as in `?x`; a book has no fixed names"),
            _ => self.lost("a variable, as in `?x`, or `!y` for a new one"),
        }
    }
}

#[cfg(test)]
mod tests {
    use super::*;

    fn faults(text: &str) -> Vec<(usize, String)> {
        let mut faults = Faults::default();
        parse(text, &mut faults);
        faults.cut();
        faults.kept.into_iter().map(|fault| (fault.at.start, fault.expected)).collect()
    }

    #[test]
    fn a_rule_and_a_declaration() {
        let mut faults = Faults::default();
        let text = "@declare unused(3) .\nclosed(?y), t(!z) | batch(?y) :- transfer(?x, ?y) .";
        let statements = parse(text, &mut faults);
        assert!(faults.is_empty());
        let [Statement::Declaration { name: "unused", arity: 3, .. }, Statement::Rule(rule)] = &statements[..] else {
            panic!("{statements:?}")
        };
        assert_eq!(rule.disjuncts.iter().map(Vec::len).collect::<Vec<_>>(), [2, 1]);
        assert_eq!(rule.body[0].arguments[1].name, "y");
        assert!(rule.disjuncts[0][1].arguments[0].existential);
    }

    #[test]
    fn what_was_expected() {
        for (text, at, part) in [
            ("p(?x) .", 6, "`:-`"),
            ("p(?x)", 5, "`:-`"),
            ("p(?x) :- q(?x)", 14, "`.`"),
            ("p(x) :- q(?x) .", 2, "fixed names"),
            ("p(?x :- q(?x) .", 5, "`)`"),
            ("p(?) :- q(?x) .", 2, "a variable"),
            ("p :- q(?x) .", 2, "`(`"),
            ("p(?x) :- q(?x) | r(?x) .", 15, "head only"),
            ("@declare p(x) .", 11, "count"),
            ("@declare p(99999999999999999999999) .", 11, "number"),
            ("@prefix p .", 0, "`@declare`"),
            (", p(?x) :- q(?x) .", 0, "a rule"),
        ] {
            let found = faults(text);
            assert!(found.len() == 1 && found[0].0 == at && found[0].1.contains(part), "{text}: {found:?}");
        }
    }

    #[test]
    fn all_faults_of_a_file() {
        let text = "p(?x) :- q(?x)\nr(?x) :- s(x) .\nt(?x) | :- u(?x) .\nv(?x) :- w(?x) .\n@declare (1) .\n";
        assert_eq!(faults(text).iter().map(|fault| fault.0).collect::<Vec<_>>(), [14, 26, 39, 76]);
    }
}
