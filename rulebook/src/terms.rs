//! The check's tables in words: terms and facts with the book's own names.

use crate::book::{Book, Function};
use crate::names::Names;
use rulfjen::Tables;

/// A term: its Skolem function, 0 for ⋆, and the numbers of its arguments, which are lower than its own.
#[derive(Clone, PartialEq, Eq, Debug)]
pub struct Term {
    pub function: usize,
    pub arguments: Vec<usize>,
}

#[derive(Clone, PartialEq, Eq, Debug)]
pub struct Fact {
    pub predicate: usize,
    pub arguments: Vec<usize>,
}

/// Places of the largest term that is written out. A larger one stands as its number, since terms that share their parts
/// have no bound that could be printed.
const WRITTEN: u64 = 24;

/// What a check left in the tables.
#[derive(Clone, PartialEq, Eq, Debug, Default)]
pub struct Listing {
    pub terms: Vec<Term>,
    pub facts: Vec<Fact>,
}

pub fn term_of(tables: &Tables, number: usize) -> Term {
    let (function, arguments) = tables.term(number);
    Term { function: function as usize, arguments: arguments.iter().map(|&a| a as usize).collect() }
}

impl Listing {
    pub fn of_tables(book: &Book, tables: &Tables, terms: usize, facts: usize) -> Listing {
        let fact = |number| {
            let (predicate, arguments) = tables.fact(number);
            let predicate = predicate as usize;
            let arity = book.arities.get(predicate).copied().unwrap_or(0);
            Fact { predicate, arguments: arguments.iter().take(arity).map(|&a| a as usize).collect() }
        };
        Listing {
            terms: (0..terms).map(|number| term_of(tables, number)).collect(),
            facts: (0..facts).map(fact).collect(),
        }
    }
}

/// Places of a term above those of its arguments (document 01), at most `u64::MAX`.
pub fn size(term: &Term, sizes: &[u64]) -> u64 {
    term.arguments.iter().fold(1u64, |sum, &a| sum.saturating_add(sizes.get(a).copied().unwrap_or(1)))
}

/// Writes terms and facts out. A term that is too large stands as `#` and its number, and `used` says which did.
pub struct Speller<'a> {
    names: &'a Names,
    functions: Vec<Function>,
    terms: Vec<Term>,
    /// The text of each term where it is not too large.
    texts: Vec<Option<String>>,
    sizes: Vec<u64>,
}

impl<'a> Speller<'a> {
    pub fn new(book: &Book, names: &'a Names, terms: &[Term]) -> Speller<'a> {
        let functions = book.functions();
        let mut speller = Speller { names, functions, terms: Vec::new(), texts: Vec::new(), sizes: Vec::new() };
        for term in terms {
            speller.push(term.clone());
        }
        speller
    }

    /// One more term, behind the others: its number.
    pub fn push(&mut self, term: Term) -> usize {
        let size = size(&term, &self.sizes);
        self.texts.push((size <= WRITTEN).then(|| self.written(&term)));
        self.sizes.push(size);
        self.terms.push(term);
        self.terms.len() - 1
    }

    pub fn function(&self, term: &Term) -> Option<Function> {
        self.functions.get(term.function.checked_sub(1)?).copied()
    }

    pub fn size(&self, number: usize) -> u64 {
        self.sizes.get(number).copied().unwrap_or(1)
    }

    /// A term over its arguments, these as short as they have to be.
    pub fn written(&self, term: &Term) -> String {
        match self.function(term) {
            None => "⋆".to_string(),
            Some(function) => format!("{}({})", self.names.function(function), self.list(&term.arguments)),
        }
    }

    fn list(&self, numbers: &[usize]) -> String {
        numbers.iter().map(|&number| self.term(number)).collect::<Vec<_>>().join(", ")
    }

    pub fn term(&self, number: usize) -> String {
        match self.texts.get(number) {
            Some(Some(text)) => text.clone(),
            _ => format!("#{number}"),
        }
    }

    pub fn fact(&self, fact: &Fact) -> String {
        format!("{}({})", self.names.predicate(fact.predicate), self.list(&fact.arguments))
    }

    /// What the numbers in a text stand for: each large term among `numbers` and below them, in rising order.
    pub fn meanings(&self, numbers: impl IntoIterator<Item = usize>) -> Vec<String> {
        let mut wanted = vec![false; self.terms.len()];
        for number in numbers {
            if let Some(place) = wanted.get_mut(number) {
                *place = true;
            }
        }
        for number in (0..wanted.len()).rev() {
            wanted[number] &= self.texts[number].is_none();
            if wanted[number] {
                self.terms[number].arguments.iter().for_each(|&a| wanted[a] = true);
            }
        }
        let meaning = |number: usize| format!("#{number} = {}", self.written(&self.terms[number]));
        (0..wanted.len()).filter(|&number| wanted[number]).map(meaning).collect()
    }

    /// The Skolem functions of these terms and of all below them, in rising order.
    pub fn functions_in(&self, numbers: impl IntoIterator<Item = usize>) -> Vec<Function> {
        let mut wanted = vec![false; self.terms.len()];
        for number in numbers {
            if let Some(place) = wanted.get_mut(number) {
                *place = true;
            }
        }
        let mut found = vec![false; self.functions.len() + 1];
        for number in (0..wanted.len()).rev().filter(|&number| self.terms[number].function > 0) {
            if wanted[number] {
                self.terms[number].arguments.iter().for_each(|&a| wanted[a] = true);
                if let Some(place) = found.get_mut(self.terms[number].function) {
                    *place = true;
                }
            }
        }
        (1..found.len()).filter(|&number| found[number]).map(|number| self.functions[number - 1]).collect()
    }
}
