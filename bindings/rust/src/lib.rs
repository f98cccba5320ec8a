//! Rulfjen for Rust: whether every archive filled by a book of rules comes to an end, by disjunctive model-faithful
//! acyclicity (`rulfjen.h`, docs/PROMISES.md).
//!
//! The library behind this crate is proved; the crate itself is not. It holds the only `unsafe` blocks, each a call with
//! the pointers and lengths of slices. Rust sees to it that these are right and that no two lists overlap. Functions at the
//! root take lists of the lengths that are asked for; those of `lists` take any slices, and a short one is refusal 1.

#[cfg(feature = "books")]
pub mod books;
#[cfg(feature = "columns")]
pub mod columns;

/// Numbers in the terms of an answer: 513 records of ten.
pub const TERMS: usize = 5_130;
/// Numbers in the facts of an answer: 2,048 records of five.
pub const FACTS: usize = 10_240;
/// Numbers in a form.
pub const FORM: usize = 7_812;
/// Bytes of the longest rule set, of any version.
pub const BOOK: usize = 9_096;
/// Bytes of the longest text.
pub const TEXT: usize = 76_863;

/// How often one way down a term may meet one Skolem function; once more, and the term is cyclic. `One` is the program's.
#[derive(Clone, Copy, PartialEq, Eq, PartialOrd, Ord, Hash, Debug, Default)]
pub enum Depth {
    #[default]
    One = 1,
    Two = 2,
    Three = 3,
}

impl Depth {
    pub fn number(self) -> usize {
        self as usize
    }
}

/// A refusal's number, 1 to 14 or 18, and its place.
#[derive(Clone, Copy, PartialEq, Eq, Debug)]
pub struct Refusal {
    pub number: u8,
    pub place: usize,
}

/// What the check answers: the stage, and how many facts and terms the lists hold; or a refusal.
#[derive(Clone, Copy, PartialEq, Eq, Debug)]
pub enum Verdict {
    Accepted {
        stage: usize,
        facts: usize,
        terms: usize,
    },
    /// The cyclic term is the record behind the terms.
    Cyclic {
        stage: usize,
        facts: usize,
        terms: usize,
    },
    Refused(Refusal),
}

/// The lists that the check fills.
#[derive(Clone, PartialEq, Eq, Debug)]
pub struct Tables {
    pub terms: Box<[u16; TERMS]>,
    pub facts: Box<[u16; FACTS]>,
}

impl Default for Tables {
    fn default() -> Tables {
        Tables { terms: Box::new([0; TERMS]), facts: Box::new([0; FACTS]) }
    }
}

impl Tables {
    /// A term's Skolem function, 0 for ⋆, and its arguments.
    pub fn term(&self, number: usize) -> (u16, &[u16]) {
        let record = &self.terms[number * 10..number * 10 + 10];
        (record[0], &record[2..2 + record[1] as usize])
    }

    /// A fact's predicate, and four term numbers, those beyond the arity 0.
    pub fn fact(&self, number: usize) -> (u16, &[u16]) {
        let record = &self.facts[number * 5..number * 5 + 5];
        (record[0], &record[1..])
    }
}

/// Checks the bytes of a rule set at a depth, and leaves the last stage in the tables. Refusals 2 to 10 leave the tables
/// as they were; 11 to 14 leave zeros. A rule set that is accepted at one depth has the same answer and tables at each
/// greater one.
pub fn check(book: &[u8], depth: Depth, tables: &mut Tables) -> Verdict {
    lists::check(book, depth.number(), &mut tables.terms[..], &mut tables.facts[..])
}

/// Reads a rule set of any version into a form: the count of its bytes. A refusal leaves the form as it was.
pub fn read(book: &[u8], form: &mut [u16; FORM]) -> Result<usize, Refusal> {
    lists::read(book, form)
}

/// Writes the bytes of a form's rule set, in the version that the form states (its place 7,810): their count. A refusal
/// leaves the list as it was.
pub fn write(form: &[u16; FORM], book: &mut [u8; BOOK]) -> Result<usize, Refusal> {
    lists::write(form, book)
}

/// The text of the check's answer at a depth.
pub fn print<'a>(book: &[u8], depth: Depth, text: &'a mut [u8; TEXT]) -> &'a str {
    let length = lists::print(book, depth.number(), text).expect("the list is long enough for every text");
    std::str::from_utf8(&text[..length]).expect("a text is ASCII")
}

/// The same functions for a caller's own lists, of any length, and any number for a depth: a short list is refusal 1, a
/// number that is no depth 18, and nothing changes beyond what is asked for.
pub mod lists {
    use super::{Refusal, Verdict};

    /// `TERMS` and `FACTS` numbers, or more.
    pub fn check(book: &[u8], depth: usize, terms: &mut [u16], facts: &mut [u16]) -> Verdict {
        let mut answer = [0; 3];
        // SAFETY: pointers and lengths of slices that live through the call and do not overlap; three places
        let kind = unsafe {
            let (terms, facts) = ((terms.as_mut_ptr(), terms.len()), (facts.as_mut_ptr(), facts.len()));
            super::abi::rulfjen_check(
                book.as_ptr(),
                book.len(),
                depth,
                terms.0,
                terms.1,
                facts.0,
                facts.1,
                answer.as_mut_ptr(),
            )
        };
        let [first, second, third] = answer;
        match kind {
            0 => Verdict::Accepted { stage: first, facts: second, terms: third },
            1 => Verdict::Cyclic { stage: first, facts: second, terms: third },
            2 => Verdict::Refused(refusal(first, second)),
            _ => panic!("no such answer: {kind}"),
        }
    }

    /// `FORM` numbers, or more.
    pub fn read(book: &[u8], form: &mut [u16]) -> Result<usize, Refusal> {
        let mut value = 0;
        // SAFETY: as above; one place
        transfer(&mut value, |value| unsafe {
            super::abi::rulfjen_read(book.as_ptr(), book.len(), form.as_mut_ptr(), form.len(), value)
        })
    }

    /// As many bytes as this rule set has; `BOOK` are always enough. A place that a short form lacks is 0.
    pub fn write(form: &[u16], book: &mut [u8]) -> Result<usize, Refusal> {
        let mut value = 0;
        // SAFETY: as above; one place
        transfer(&mut value, |value| unsafe {
            super::abi::rulfjen_write(form.as_ptr(), form.len(), book.as_mut_ptr(), book.len(), value)
        })
    }

    /// `TEXT` bytes, or more.
    pub fn print(book: &[u8], depth: usize, text: &mut [u8]) -> Result<usize, Refusal> {
        let mut value = 0;
        // SAFETY: as above; one place
        transfer(&mut value, |value| unsafe {
            super::abi::rulfjen_print(book.as_ptr(), book.len(), depth, text.as_mut_ptr(), text.len(), value)
        })
    }

    pub(crate) fn transfer(value: &mut usize, call: impl FnOnce(*mut usize) -> usize) -> Result<usize, Refusal> {
        match call(value) {
            0 => Ok(*value),
            number => Err(refusal(number, *value)),
        }
    }

    fn refusal(number: usize, place: usize) -> Refusal {
        Refusal { number: u8::try_from(number).expect("a refusal's number is small"), place }
    }
}

/// `rulfjen.h`. A slice crosses as a pointer and a count.
mod abi {
    extern "C" {
        pub fn rulfjen_check(
            book: *const u8,
            book_length: usize,
            depth: usize,
            terms: *mut u16,
            terms_length: usize,
            facts: *mut u16,
            facts_length: usize,
            answer: *mut usize,
        ) -> usize;
        pub fn rulfjen_read(
            book: *const u8,
            book_length: usize,
            form: *mut u16,
            form_length: usize,
            value: *mut usize,
        ) -> usize;
        pub fn rulfjen_write(
            form: *const u16,
            form_length: usize,
            book: *mut u8,
            book_length: usize,
            value: *mut usize,
        ) -> usize;
        pub fn rulfjen_print(
            book: *const u8,
            book_length: usize,
            depth: usize,
            text: *mut u8,
            text_length: usize,
            value: *mut usize,
        ) -> usize;
    }
}
