//! Rule sets (document 01: books) and their bytes, in the versions of document 01, of C-15 and of C-16.

pub const MOST_RULES: usize = 64;
pub const VARIABLES: usize = 8;
/// The most rule constants (C-16: fixed names).
pub const MOST_CONSTANTS: usize = 3;
/// What can be an argument of an atom, here and in a form: the variables, and behind them the rule constants.
pub const ARGUMENTS: usize = VARIABLES + MOST_CONSTANTS;
pub const FIRST_CONSTANT: u8 = VARIABLES as u8;
/// The byte of the first rule constant.
const CONSTANT_BYTE: u8 = 128;
/// Bytes of the longest rule set of any version.
pub const LONGEST: usize = Version::Three.longest();

/// How a rule set's bytes are to be read.
#[derive(Clone, Copy, PartialEq, Eq, Debug, Default)]
pub enum Version {
    #[default]
    One = 1,
    Two = 2,
    /// With rule constants.
    Three = 3,
}

impl Version {
    pub const ALL: [Version; 3] = [Version::One, Version::Two, Version::Three];

    pub fn number(self) -> u8 {
        self as u8
    }

    pub fn of(number: u16) -> Option<Version> {
        Version::ALL.into_iter().find(|version| version.number() as u16 == number)
    }

    pub fn most_predicates(self) -> usize {
        match self {
            Version::One => 64,
            Version::Two | Version::Three => 1_024,
        }
    }

    /// The bytes of a count of predicates and of a predicate's number.
    pub fn width(self) -> usize {
        match self {
            Version::One => 1,
            Version::Two | Version::Three => 2,
        }
    }

    /// The bytes of the longest rule set.
    pub const fn longest(self) -> usize {
        match self {
            Version::One => 6_855,
            Version::Two => 9_096,
            Version::Three => 9_097,
        }
    }
}

/// A refusal's number, and its place.
#[derive(Clone, Copy, PartialEq, Eq, Debug)]
pub struct Refusal {
    pub number: u8,
    pub place: usize,
}

pub fn refuse<T>(number: u8, place: usize) -> Result<T, Refusal> {
    Err(Refusal { number, place })
}

/// A predicate and as many arguments as its arity, the others 0: variables, and rule constants from 8 on.
#[derive(Clone, Copy, PartialEq, Eq, Debug)]
pub struct Atom {
    pub predicate: u16,
    pub arity: u8,
    pub arguments: [u8; 4],
}

impl Atom {
    pub fn arguments(&self) -> &[u8] {
        &self.arguments[..self.arity as usize]
    }

    /// Its variables as a set of eight bits.
    pub fn set(&self) -> u8 {
        self.arguments().iter().fold(0, |set, &argument| set | bit(argument))
    }
}

/// A variable's bit in a set. A rule constant has none.
pub fn bit(argument: u8) -> u8 {
    (1u16 << argument) as u8
}

/// The byte of an argument.
pub fn byte_of(argument: u8) -> u8 {
    match argument {
        0..FIRST_CONSTANT => argument,
        _ => argument - FIRST_CONSTANT + CONSTANT_BYTE,
    }
}

pub fn set_of(atoms: &[Atom]) -> u8 {
    atoms.iter().fold(0, |set, atom| set | atom.set())
}

#[derive(Clone, PartialEq, Eq, Debug, Default)]
pub struct Rule {
    pub body: Vec<Atom>,
    /// The head's disjuncts (document 01: alternatives).
    pub disjuncts: Vec<Vec<Atom>>,
}

impl Rule {
    /// 8 for an existential variable in two disjuncts, then 9 for a disjunct without a body variable.
    pub fn fault(&self) -> Option<u8> {
        let body = set_of(&self.body);
        let mut existential = 0;
        for disjunct in &self.disjuncts {
            let own = set_of(disjunct) & !body;
            if own & existential != 0 {
                return Some(8);
            }
            existential |= own;
        }
        if self.disjuncts.iter().any(|disjunct| set_of(disjunct) & body == 0) {
            return Some(9);
        }
        None
    }
}

#[derive(Clone, PartialEq, Eq, Debug, Default)]
pub struct Book {
    pub version: Version,
    pub arities: Vec<u8>,
    /// How many rule constants there are: of version 3 alone.
    pub constants: u8,
    pub rules: Vec<Rule>,
}

/// Reads from left to right; past the end is refusal 10.
struct Reader<'a> {
    bytes: &'a [u8],
    at: usize,
    version: Version,
    constants: u8,
}

impl Reader<'_> {
    /// The next `width` bytes, big-endian, if their number is within `least..=most`, else refusal `number` at the first.
    fn wide(&mut self, width: usize, least: u16, most: u16, number: u8) -> Result<u16, Refusal> {
        let Some(bytes) = self.bytes.get(self.at..self.at + width) else {
            return refuse(10, self.bytes.len());
        };
        let n = bytes.iter().fold(0, |n, &byte| n << 8 | byte as u16);
        if n < least || n > most {
            return refuse(number, self.at);
        }
        self.at += width;
        Ok(n)
    }

    fn byte(&mut self, least: u8, most: u8, number: u8) -> Result<u8, Refusal> {
        self.wide(1, least as u16, most as u16, number).map(|n| n as u8)
    }

    /// A count of predicates, or a predicate.
    fn predicate(&mut self, least: usize, most: usize, number: u8) -> Result<u16, Refusal> {
        self.wide(self.version.width(), least as u16, most as u16, number)
    }

    /// A variable, or one of the rule constants.
    fn argument(&mut self) -> Result<u8, Refusal> {
        let at = self.at;
        match self.byte(0, u8::MAX, 7)? {
            variable @ 0..FIRST_CONSTANT => Ok(variable),
            byte @ CONSTANT_BYTE.. if byte - CONSTANT_BYTE < self.constants => {
                Ok(byte - CONSTANT_BYTE + FIRST_CONSTANT)
            }
            _ => refuse(7, at),
        }
    }

    fn atoms(&mut self, arities: &[u8]) -> Result<Vec<Atom>, Refusal> {
        let count = self.byte(1, 4, 6)?;
        let mut atoms = Vec::with_capacity(count as usize);
        for _ in 0..count {
            let predicate = self.predicate(0, arities.len() - 1, 7)?;
            let arity = arities[predicate as usize];
            let mut arguments = [0; 4];
            for argument in arguments.iter_mut().take(arity as usize) {
                *argument = self.argument()?;
            }
            atoms.push(Atom { predicate, arity, arguments });
        }
        Ok(atoms)
    }

    fn rule(&mut self, arities: &[u8]) -> Result<Rule, Refusal> {
        let start = self.at;
        let body = self.atoms(arities)?;
        let count = self.byte(1, 4, 6)?;
        let mut disjuncts = Vec::with_capacity(count as usize);
        for _ in 0..count {
            disjuncts.push(self.atoms(arities)?);
        }
        let rule = Rule { body, disjuncts };
        match rule.fault() {
            Some(number) => refuse(number, start),
            None => Ok(rule),
        }
    }
}

/// A rule set from its bytes, or the first of refusals 2 to 10.
pub fn read(bytes: &[u8]) -> Result<Book, Refusal> {
    read_as(bytes, &Version::ALL, usize::MAX)
}

/// A rule set of one of these versions and of at most so many predicates.
pub fn read_as(bytes: &[u8], versions: &[Version], most_predicates: usize) -> Result<Book, Refusal> {
    if bytes.len() < 4 {
        return refuse(2, 0);
    }
    let stated = u32::from_be_bytes([bytes[0], bytes[1], bytes[2], bytes[3]]);
    if stated as usize != bytes.len() - 4 {
        return refuse(2, 0);
    }
    let mut reader = Reader { bytes, at: 4, version: Version::One, constants: 0 };
    let number = reader.byte(0, u8::MAX, 3)?;
    reader.version = match Version::of(number as u16) {
        Some(version) if versions.contains(&version) => version,
        _ => return refuse(3, 4),
    };
    let predicates = reader.predicate(1, most_predicates.min(reader.version.most_predicates()), 4)?;
    let mut arities = Vec::with_capacity(predicates as usize);
    for _ in 0..predicates {
        arities.push(reader.byte(1, 4, 4)?);
    }
    if reader.version == Version::Three {
        reader.constants = reader.byte(0, MOST_CONSTANTS as u8, 4)?;
    }
    let count = reader.byte(0, MOST_RULES as u8, 5)?;
    let mut rules = Vec::with_capacity(count as usize);
    for _ in 0..count {
        rules.push(reader.rule(&arities)?);
    }
    if reader.at < bytes.len() {
        return refuse(10, reader.at);
    }
    Ok(Book { version: reader.version, arities, constants: reader.constants, rules })
}

/// The last `width` of a number's two bytes.
pub fn put(n: u16, width: usize, out: &mut Vec<u8>) {
    out.extend_from_slice(&n.to_be_bytes()[2 - width..]);
}

fn write_atoms(atoms: &[Atom], width: usize, out: &mut Vec<u8>) {
    out.push(atoms.len() as u8);
    for atom in atoms {
        put(atom.predicate, width, out);
        out.extend(atom.arguments().iter().map(|&argument| byte_of(argument)));
    }
}

impl Book {
    /// Its bytes. Whoever builds a book by hand answers for its being well-formed: `read` tells.
    pub fn bytes(&self) -> Vec<u8> {
        let width = self.version.width();
        let mut out = vec![0, 0, 0, 0, self.version.number()];
        put(self.arities.len() as u16, width, &mut out);
        out.extend_from_slice(&self.arities);
        if self.version == Version::Three {
            out.push(self.constants);
        }
        out.push(self.rules.len() as u8);
        for rule in &self.rules {
            write_atoms(&rule.body, width, &mut out);
            out.push(rule.disjuncts.len() as u8);
            for disjunct in &rule.disjuncts {
                write_atoms(disjunct, width, &mut out);
            }
        }
        let length = out.len() as u32 - 4;
        out[..4].copy_from_slice(&length.to_be_bytes());
        out
    }
}
