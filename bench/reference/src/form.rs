//! The form of a rule set (document 01: book form), as docs/DECISIONS.md lays it out: the counts of predicates and of
//! rules, 64 rules of 106 numbers, 1,024 arities, the version, and the count of rule constants, which version 3 alone
//! states. A rule is the count of its disjuncts and five groups of atoms, the body first; a group is its count and four
//! atoms of five numbers, where a rule constant is 8 and its own number.

use crate::book::{
    byte_of, put, read, refuse, Atom, Refusal, Rule, Version, FIRST_CONSTANT, MOST_CONSTANTS, MOST_RULES,
};

pub const LENGTH: usize = 7_812;
pub const RULE: usize = 106;
const GROUP: usize = 21;
pub const ARITIES: usize = 2 + MOST_RULES * RULE;
pub const VERSION: usize = ARITIES + 1_024;
pub const CONSTANTS: usize = VERSION + 1;

fn put_group(atoms: &[Atom], form: &mut [u16]) {
    form[0] = atoms.len() as u16;
    for (k, atom) in atoms.iter().enumerate() {
        form[1 + k * 5] = atom.predicate;
        for (i, &argument) in atom.arguments().iter().enumerate() {
            form[2 + k * 5 + i] = argument as u16;
        }
    }
}

/// Reads `bytes` into the front of `form`: the count of bytes, or a refusal that leaves the form as it was.
pub fn read_form(bytes: &[u8], form: &mut [u16]) -> Result<usize, Refusal> {
    if form.len() < LENGTH {
        return refuse(1, 0);
    }
    let book = read(bytes)?;
    form[..LENGTH].fill(0);
    form[0] = book.arities.len() as u16;
    form[1] = book.rules.len() as u16;
    for (r, rule) in book.rules.iter().enumerate() {
        let at = 2 + r * RULE;
        form[at] = rule.disjuncts.len() as u16;
        put_group(&rule.body, &mut form[at + 1..]);
        for (d, disjunct) in rule.disjuncts.iter().enumerate() {
            put_group(disjunct, &mut form[at + 1 + (d + 1) * GROUP..]);
        }
    }
    for (p, arity) in book.arities.iter().enumerate() {
        form[ARITIES + p] = *arity as u16;
    }
    form[VERSION] = book.version.number() as u16;
    form[CONSTANTS] = book.constants as u16;
    Ok(bytes.len())
}

/// Writes a form's numbers as bytes, from left to right; a place that the form lacks is 0.
struct Writer<'a> {
    form: &'a [u16],
    out: Vec<u8>,
    version: Version,
    constants: u8,
}

impl Writer<'_> {
    /// The form's number at `at` if it is within `least..=most`, else refusal `number` where its bytes would begin.
    fn within(&self, at: usize, least: u16, most: u16, number: u8) -> Result<u16, Refusal> {
        let n = self.form.get(at).copied().unwrap_or(0);
        if n < least || n > most {
            return refuse(number, self.out.len());
        }
        Ok(n)
    }

    /// It as the next byte.
    fn number(&mut self, at: usize, least: u16, most: u16, number: u8) -> Result<u8, Refusal> {
        let n = self.within(at, least, most, number)? as u8;
        self.out.push(n);
        Ok(n)
    }

    /// It as the next byte or two: a count of predicates, or a predicate.
    fn predicate(&mut self, at: usize, least: usize, most: usize, number: u8) -> Result<u16, Refusal> {
        let n = self.within(at, least as u16, most as u16, number)?;
        put(n, self.version.width(), &mut self.out);
        Ok(n)
    }

    /// It as the byte of a variable or of a rule constant.
    fn argument(&mut self, at: usize) -> Result<u8, Refusal> {
        let argument = self.within(at, 0, (FIRST_CONSTANT - 1 + self.constants) as u16, 7)? as u8;
        self.out.push(byte_of(argument));
        Ok(argument)
    }

    fn group(&mut self, at: usize, arities: &[u8]) -> Result<Vec<Atom>, Refusal> {
        let count = self.number(at, 1, 4, 6)? as usize;
        let mut atoms = Vec::with_capacity(count);
        for k in 0..count {
            let predicate = self.predicate(at + 1 + k * 5, 0, arities.len() - 1, 7)?;
            let arity = arities[predicate as usize];
            let mut arguments = [0; 4];
            for (i, argument) in arguments.iter_mut().enumerate().take(arity as usize) {
                *argument = self.argument(at + 2 + k * 5 + i)?;
            }
            atoms.push(Atom { predicate, arity, arguments });
        }
        Ok(atoms)
    }

    fn rule(&mut self, at: usize, arities: &[u8]) -> Result<(), Refusal> {
        let start = self.out.len();
        let body = self.group(at + 1, arities)?;
        let count = self.number(at, 1, 4, 6)? as usize;
        let mut disjuncts = Vec::with_capacity(count);
        for d in 0..count {
            disjuncts.push(self.group(at + 1 + (d + 1) * GROUP, arities)?);
        }
        match (Rule { body, disjuncts }).fault() {
            Some(number) => refuse(number, start),
            None => Ok(()),
        }
    }
}

/// Writes the bytes of a form into the front of `out`, in the version that it states: their count, or the first of
/// refusals 3 to 9 that they would meet, or 1 for a list shorter than they are. A refusal leaves the list as it was.
pub fn write_form(form: &[u16], out: &mut [u8]) -> Result<usize, Refusal> {
    let Some(version) = Version::of(form.get(VERSION).copied().unwrap_or(0)) else {
        return refuse(3, 4);
    };
    let mut writer = Writer { form, out: vec![0, 0, 0, 0, version.number()], version, constants: 0 };
    let predicates = writer.predicate(0, 1, version.most_predicates(), 4)? as usize;
    let mut arities = Vec::with_capacity(predicates);
    for p in 0..predicates {
        arities.push(writer.number(ARITIES + p, 1, 4, 4)?);
    }
    if version == Version::Three {
        writer.constants = writer.number(CONSTANTS, 0, MOST_CONSTANTS as u16, 4)?;
    }
    let rules = writer.number(1, 0, MOST_RULES as u16, 5)? as usize;
    for r in 0..rules {
        writer.rule(2 + r * RULE, &arities)?;
    }
    let mut bytes = writer.out;
    let length = bytes.len() as u32 - 4;
    bytes[..4].copy_from_slice(&length.to_be_bytes());
    if out.len() < bytes.len() {
        return refuse(1, 0);
    }
    out[..bytes.len()].copy_from_slice(&bytes);
    Ok(bytes.len())
}
