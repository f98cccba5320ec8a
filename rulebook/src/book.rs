//! Books as rules, as forms and as bytes. The bytes are those of the library's writer, and its reader takes them back
//! before anything else does.

use rulfjen::{Refusal, BOOK, FORM};

/// Places of a form (docs/DECISIONS.md, "The form").
const RULE: usize = 106;
const GROUP: usize = 21;
const ATOM: usize = 5;
const RULES: usize = 64;
const ARITIES: usize = 2 + RULES * RULE;
const VERSION: usize = ARITIES + 1_024;

/// How a book's bytes number its predicates: in version 1 a byte each, in version 2 two.
#[derive(Clone, Copy, PartialEq, Eq, Debug)]
pub enum Version {
    One = 1,
    Two = 2,
}

/// Where the count of predicates stands in a book's bytes.
const COUNT: usize = 5;

#[derive(Clone, PartialEq, Eq, Debug)]
pub struct Atom {
    pub predicate: usize,
    pub variables: Vec<usize>,
}

#[derive(Clone, PartialEq, Eq, Debug, Default)]
pub struct Rule {
    pub body: Vec<Atom>,
    pub disjuncts: Vec<Vec<Atom>>,
}

#[derive(Clone, PartialEq, Eq, Debug, Default)]
pub struct Book {
    pub arities: Vec<usize>,
    pub rules: Vec<Rule>,
}

/// The variables of atoms, in their order.
pub fn variables(atoms: &[Atom]) -> impl Iterator<Item = usize> + '_ {
    atoms.iter().flat_map(|atom| atom.variables.iter().copied())
}

impl Rule {
    /// The variables in the order of the bytes: body first.
    pub fn variables(&self) -> impl Iterator<Item = usize> + '_ {
        variables(&self.body).chain(self.disjuncts.iter().flat_map(|disjunct| variables(disjunct)))
    }

    pub fn in_body(&self, variable: usize) -> bool {
        variables(&self.body).any(|v| v == variable)
    }

    /// The body variables that stand in the head, in rising number.
    pub fn frontier(&self) -> Vec<usize> {
        let mut frontier: Vec<usize> =
            self.disjuncts.iter().flat_map(|disjunct| variables(disjunct)).filter(|&v| self.in_body(v)).collect();
        frontier.sort_unstable();
        frontier.dedup();
        frontier
    }

    /// The existential variables of a disjunct, in rising number.
    pub fn existential(&self, disjunct: usize) -> Vec<usize> {
        let mut new: Vec<usize> = variables(&self.disjuncts[disjunct]).filter(|&v| !self.in_body(v)).collect();
        new.sort_unstable();
        new.dedup();
        new
    }

    pub fn is_datalog(&self) -> bool {
        self.disjuncts.len() == 1 && self.existential(0).is_empty()
    }

    /// Document 01: divided.
    pub fn is_blockable(&self) -> bool {
        self.disjuncts.len() > 1 && (0..self.disjuncts.len()).any(|disjunct| self.existential(disjunct).is_empty())
    }
}

/// A Skolem function (document 01: mark): the existential variable that it stands for.
#[derive(Clone, Copy, PartialEq, Eq, Debug)]
pub struct Function {
    pub rule: usize,
    pub disjunct: usize,
    pub variable: usize,
}

/// Why a book has no bytes.
#[derive(Clone, Copy, PartialEq, Eq, Debug)]
pub enum Unwritten {
    Refused(Refusal),
    /// The library reads another book out of them. It is proved not to; then the fault is this program's.
    ReadOtherwise,
}

/// A number as a form holds it. What does not fit is out of every range, as 65,535 is.
fn narrow(number: usize) -> u16 {
    u16::try_from(number).unwrap_or(u16::MAX)
}

/// A count and atoms. Of more than four only the count is put, which is refused.
fn put_group(places: &mut [u16], atoms: &[Atom]) {
    places[0] = narrow(atoms.len());
    for (atom, places) in atoms.iter().zip(places[1..].chunks_exact_mut(ATOM)) {
        places[0] = narrow(atom.predicate);
        for (place, &variable) in places[1..].iter_mut().zip(&atom.variables) {
            *place = narrow(variable);
        }
    }
}

fn group(places: &[u16], arities: &[usize]) -> Vec<Atom> {
    let atoms = places[1..].chunks_exact(ATOM).take(places[0] as usize);
    atoms
        .map(|places| {
            let predicate = places[0] as usize;
            let arity = arities.get(predicate).copied().unwrap_or(0);
            Atom { predicate, variables: places[1..].iter().take(arity).map(|&v| v as usize).collect() }
        })
        .collect()
}

impl Book {
    /// The form that says this book in a version. What a form has no place for is left out, and its count says so.
    pub fn form(&self, version: Version) -> Box<[u16; FORM]> {
        let mut form = Box::new([0; FORM]);
        form[0] = narrow(self.arities.len());
        form[1] = narrow(self.rules.len());
        for (rule, places) in self.rules.iter().zip(form[2..ARITIES].chunks_exact_mut(RULE)) {
            places[0] = narrow(rule.disjuncts.len());
            let groups = std::iter::once(&rule.body).chain(&rule.disjuncts);
            for (atoms, places) in groups.zip(places[1..].chunks_exact_mut(GROUP)) {
                put_group(places, atoms);
            }
        }
        for (place, &arity) in form[ARITIES..VERSION].iter_mut().zip(&self.arities) {
            *place = narrow(arity);
        }
        form[VERSION] = version as u16;
        form
    }

    fn of_form(form: &[u16; FORM]) -> Book {
        let arities: Vec<usize> = form[ARITIES..VERSION].iter().take(form[0] as usize).map(|&a| a as usize).collect();
        let rules = form[2..ARITIES].chunks_exact(RULE).take(form[1] as usize);
        let rules = rules
            .map(|places| {
                let mut groups = places[1..].chunks_exact(GROUP).map(|places| group(places, &arities));
                let body = groups.next().unwrap_or_default();
                Rule { body, disjuncts: groups.take(places[0] as usize).collect() }
            })
            .collect();
        Book { arities, rules }
    }

    /// A book from its bytes, of either version, by the library's reader.
    pub fn read(bytes: &[u8]) -> Result<Book, Refusal> {
        let mut form = Box::new([0; FORM]);
        rulfjen::read(bytes, &mut form)?;
        Ok(Book::of_form(&form))
    }

    /// The book's bytes in a version, by the library's writer, or its refusal.
    pub fn write_as(&self, version: Version) -> Result<Vec<u8>, Refusal> {
        let mut bytes = [0; BOOK];
        let length = rulfjen::write(&self.form(version), &mut bytes)?;
        Ok(bytes[..length].to_vec())
    }

    /// The book's bytes in version 1, or in version 2 where the library refuses version 1 the count of predicates.
    pub fn write(&self) -> Result<Vec<u8>, Refusal> {
        match self.write_as(Version::One) {
            Err(Refusal { number: 4, place: COUNT }) => self.write_as(Version::Two),
            written => written,
        }
    }

    /// The book's bytes, once the library has read them back as this same book.
    pub fn compile(&self) -> Result<Vec<u8>, Unwritten> {
        let bytes = self.write().map_err(Unwritten::Refused)?;
        match Book::read(&bytes).map_err(Unwritten::Refused)? {
            book if book == *self => Ok(bytes),
            _ => Err(Unwritten::ReadOtherwise),
        }
    }

    /// The Skolem functions, the first of which has the number 1: by rule, disjunct and variable.
    pub fn functions(&self) -> Vec<Function> {
        let mut functions = Vec::new();
        for (number, rule) in self.rules.iter().enumerate() {
            for disjunct in 0..rule.disjuncts.len() {
                let new = rule.existential(disjunct).into_iter();
                functions.extend(new.map(|variable| Function { rule: number, disjunct, variable }));
            }
        }
        functions
    }
}

#[cfg(test)]
mod tests {
    use super::*;

    fn atom(predicate: usize, variables: &[usize]) -> Atom {
        Atom { predicate, variables: variables.to_vec() }
    }

    fn river() -> Book {
        let rule = |body: Atom, disjuncts: &[Atom]| Rule {
            body: vec![body],
            disjuncts: disjuncts.iter().map(|atom| vec![atom.clone()]).collect(),
        };
        Book {
            arities: vec![1, 2, 1],
            rules: vec![
                rule(atom(0, &[0]), &[atom(1, &[0, 1])]),
                rule(atom(1, &[0, 1]), &[atom(2, &[1]), atom(0, &[1])]),
                rule(atom(1, &[0, 1]), &[atom(2, &[1])]),
            ],
        }
    }

    #[test]
    fn river_has_its_bytes() {
        let bytes = [
            0, 0, 0, 0x21, 1, 3, 1, 2, 1, 3, 1, 0, 0, 1, 1, 1, 0, 1, 1, 1, 0, 1, 2, 1, 2, 1, 1, 0, 1, 1, 1, 0, 1, 1, 1,
            2, 1,
        ];
        assert_eq!(river().compile().unwrap(), bytes);
        assert_eq!(Book::read(&bytes).unwrap(), river());
    }

    #[test]
    fn river_has_its_bytes_in_version_2() {
        let bytes = [
            0, 0, 0, 0x29, 2, 0, 3, 1, 2, 1, 3, 1, 0, 0, 0, 1, 1, 0, 1, 0, 1, 1, 0, 1, 0, 1, 2, 1, 0, 2, 1, 1, 0, 0, 1,
            1, 0, 1, 0, 1, 1, 1, 0, 2, 1,
        ];
        assert_eq!(river().write_as(Version::Two).unwrap(), bytes);
        assert_eq!(Book::read(&bytes).unwrap(), river());
    }

    #[test]
    fn what_a_form_has_no_place_for_is_refused() {
        let refusal = |book: &Book| book.write().unwrap_err().number;
        let mut book = river();
        book.arities.resize(1_025, 1);
        assert_eq!(refusal(&book), 4);
        book.arities.resize(1 << 20, 1);
        assert_eq!(refusal(&book), 4);
        let mut book = river();
        book.arities[2] = 1 << 20;
        assert_eq!(refusal(&book), 4);
        let mut book = river();
        book.rules.resize(65, book.rules[2].clone());
        assert_eq!(refusal(&book), 5);
        let mut book = river();
        book.rules[2].body.resize(5, atom(0, &[0]));
        assert_eq!(refusal(&book), 6);
        let mut book = river();
        book.rules[2].disjuncts.resize(5, vec![atom(0, &[0])]);
        assert_eq!(refusal(&book), 6);
        let mut book = river();
        book.rules[2].body[0].variables[0] = 256;
        assert_eq!(refusal(&book), 7);
    }

    #[test]
    fn functions_are_numbered_by_rule_disjunct_and_variable() {
        let mut book = river();
        book.rules[1].disjuncts = vec![vec![atom(1, &[1, 7]), atom(1, &[5, 0])], vec![atom(1, &[0, 2])]];
        let functions: Vec<_> = book.functions().iter().map(|f| (f.rule, f.disjunct, f.variable)).collect();
        assert_eq!(functions, [(0, 0, 1), (1, 0, 5), (1, 0, 7), (1, 1, 2)]);
        assert_eq!(book.rules[1].frontier(), [0, 1]);
    }
}
