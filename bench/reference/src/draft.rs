//! Rule sets under construction, for those who make them by hand or by lot.

use crate::book::{Atom, Book, Rule, Version, MOST_RULES};

/// An atom as a predicate and its arguments.
pub type Sketch<'a> = (usize, &'a [u8]);

#[derive(Clone, Default)]
pub struct Draft {
    pub book: Book,
}

impl Draft {
    /// Of version 2.
    pub fn wide() -> Draft {
        Draft { book: Book { version: Version::Two, ..Book::default() } }
    }

    /// Of version 3, with so many rule constants.
    pub fn fixed(constants: usize) -> Draft {
        Draft { book: Book { version: Version::Three, constants: constants as u8, ..Book::default() } }
    }

    /// Declares a predicate.
    pub fn predicate(&mut self, arity: usize) -> usize {
        self.book.arities.push(arity as u8);
        self.book.arities.len() - 1
    }

    /// How many terms stage 0 has: ⋆ and the rule constants.
    pub fn plain_terms(&self) -> usize {
        1 + self.book.constants as usize
    }

    pub fn predicates_left(&self) -> usize {
        self.book.version.most_predicates().saturating_sub(self.book.arities.len())
    }

    pub fn rules_left(&self) -> usize {
        MOST_RULES.saturating_sub(self.book.rules.len())
    }

    pub fn atom(&self, sketch: Sketch) -> Atom {
        let (predicate, over) = sketch;
        let mut arguments = [0; 4];
        arguments[..over.len()].copy_from_slice(over);
        assert_eq!(over.len(), self.book.arities[predicate] as usize);
        Atom { predicate: predicate as u16, arity: over.len() as u8, arguments }
    }

    pub fn rule(&mut self, body: &[Sketch], disjuncts: &[&[Sketch]]) {
        let atoms = |sketches: &[Sketch]| sketches.iter().map(|&sketch| self.atom(sketch)).collect::<Vec<_>>();
        let rule = Rule { body: atoms(body), disjuncts: disjuncts.iter().map(|&d| atoms(d)).collect() };
        self.book.rules.push(rule);
    }
}
