//! Terms in the order of their arrival: ⋆ is 0, rule constants are 1 up, a Skolem term is a function over earlier terms.

use crate::hash::Map;
use std::hash::{Hash, Hasher};

/// The mark of the first rule constant, in place of a Skolem function.
const CONSTANT_MARK: u16 = 60_001;

/// A Skolem function and its arguments, one at least, unused ones 0. ⋆ and the rule constants have none.
#[derive(Clone, Copy, PartialEq, Eq, Debug)]
pub struct Term {
    pub mark: u16,
    pub arity: u16,
    pub arguments: [u16; 8],
}

impl Hash for Term {
    fn hash<H: Hasher>(&self, state: &mut H) {
        let [a, b, c, d, e, f, g, h] = self.arguments;
        state.write_u64((a as u64) | (b as u64) << 16 | (c as u64) << 32 | (d as u64) << 48);
        state.write_u64((e as u64) | (f as u64) << 16 | (g as u64) << 32 | (h as u64) << 48);
        state.write_u16(self.mark);
    }
}

impl Term {
    pub const STAR: Term = Term { mark: 0, arity: 0, arguments: [0; 8] };

    pub fn new(mark: u16, over: impl Iterator<Item = u16>) -> Term {
        let mut term = Term { mark, ..Term::STAR };
        for argument in over {
            term.arguments[term.arity as usize] = argument;
            term.arity += 1;
        }
        term
    }

    pub fn arguments(&self) -> &[u16] {
        &self.arguments[..self.arity as usize]
    }

    /// The ten numbers of its record.
    pub fn record(&self) -> [u16; 10] {
        let mut record = [0; 10];
        record[0] = self.mark;
        record[1] = self.arity;
        record[2..].copy_from_slice(&self.arguments);
        record
    }
}

/// Skolem functions as bits, from 1 on: at most 64 rules of seven.
pub type Marks = [u64; 7];

pub struct Terms {
    pub all: Vec<Term>,
    numbers: Map<Term, u16>,
    /// Places of each term: one, and those of its arguments.
    sizes: Vec<u64>,
    /// The Skolem functions that stand on one way down each term: once in the first list, twice in the next, as far as
    /// the depth.
    marks: Vec<Vec<Marks>>,
}

pub fn holds(marks: &Marks, mark: u16) -> bool {
    let bit = mark - 1;
    marks[bit as usize / 64] >> (bit % 64) & 1 == 1
}

impl Terms {
    /// ⋆ and so many rule constants, at a depth from 1 on.
    pub fn critical(constants: u8, depth: usize) -> Terms {
        let marks = vec![Vec::new(); depth];
        let mut terms = Terms { all: Vec::new(), numbers: Map::default(), sizes: Vec::new(), marks };
        terms.insert(Term::STAR);
        for constant in 0..constants as u16 {
            terms.insert(Term { mark: CONSTANT_MARK + constant, ..Term::STAR });
        }
        terms
    }

    pub fn len(&self) -> usize {
        self.all.len()
    }

    pub fn is_empty(&self) -> bool {
        self.all.is_empty()
    }

    pub fn number(&self, term: &Term) -> Option<u16> {
        self.numbers.get(term).copied()
    }

    pub fn size(&self, number: u16) -> u64 {
        self.sizes[number as usize]
    }

    /// The Skolem functions that stand on one way down a term as often as the depth allows.
    pub fn full(&self, number: u16) -> &Marks {
        &self.marks[self.marks.len() - 1][number as usize]
    }

    /// Whether a term over terms that are not cyclic is cyclic.
    pub fn cyclic(&self, term: &Term) -> bool {
        term.arguments().iter().any(|&argument| holds(self.full(argument), term.mark))
    }

    pub fn insert(&mut self, term: Term) -> u16 {
        let number = self.all.len() as u16;
        let mut size: u64 = 1;
        for &argument in term.arguments() {
            size = size.saturating_add(self.size(argument));
        }
        // its own function stands once more than below it
        let mut met = term.arity > 0;
        for level in &mut self.marks {
            let mut marks = [0; 7];
            for &argument in term.arguments() {
                for (word, of_argument) in marks.iter_mut().zip(&level[argument as usize]) {
                    *word |= of_argument;
                }
            }
            let below = met && holds(&marks, term.mark);
            if met {
                let bit = term.mark - 1;
                marks[bit as usize / 64] |= 1 << (bit % 64);
            }
            met = below;
            level.push(marks);
        }
        self.all.push(term);
        self.numbers.insert(term, number);
        self.sizes.push(size);
        number
    }
}
