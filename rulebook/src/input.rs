//! What a command is given: a text of rules or a book's bytes, from a file or from standard input.

use crate::book::Book;
use crate::compile::{compile, Compiled};
use crate::fault::Faults;
use crate::names::Names;
use crate::source::{printable, Source, LONGEST};
use rulfjen::Refusal;
use std::ffi::OsStr;
use std::fs::File;
use std::io::Read;

/// How a file is to be read. A book's bytes begin with 0, and no text does.
#[derive(Clone, Copy, PartialEq, Eq, Debug, Default)]
pub enum Reading {
    #[default]
    ByFirstByte,
    Text,
    Book,
}

pub enum Input {
    Sound(Compiled),
    /// A text with faults.
    Faulty(Source, Faults),
    /// Bytes that the library does not read.
    Refused {
        file: String,
        bytes: Vec<u8>,
        refusal: Refusal,
    },
}

pub fn shown(file: &OsStr) -> String {
    match file.to_string_lossy() {
        name if name == "-" => "standard input".to_string(),
        name => printable(&name),
    }
}

/// The bytes of a file, `-` for standard input, or why there are none.
pub fn bytes(file: &OsStr, stdin: &mut dyn Read) -> Result<Vec<u8>, String> {
    let mut bytes = Vec::new();
    let most = LONGEST as u64 + 1;
    let read = match file {
        name if name == "-" => stdin.take(most).read_to_end(&mut bytes),
        name => File::open(name).and_then(|file| file.take(most).read_to_end(&mut bytes)),
    };
    match read {
        Err(error) => Err(format!("{}: {error}", shown(file))),
        Ok(_) if bytes.len() > LONGEST => Err(format!("{}: more than {LONGEST} bytes", shown(file))),
        Ok(_) => Ok(bytes),
    }
}

/// A book's bytes as a book, with names of their own.
pub fn of_book(file: &str, bytes: Vec<u8>) -> Input {
    match Book::read(&bytes) {
        Ok(book) => Input::Sound(Compiled { names: Names::of_book(file, &book), book, bytes }),
        Err(refusal) => Input::Refused { file: file.to_string(), bytes, refusal },
    }
}

pub fn load(file: &str, bytes: Vec<u8>, reading: Reading) -> Input {
    let is_book = match reading {
        Reading::ByFirstByte => bytes.first() == Some(&0),
        Reading::Text => false,
        Reading::Book => true,
    };
    if is_book {
        return of_book(file, bytes);
    }
    let source = Source::new(file, &bytes);
    match compile(&source) {
        Ok(compiled) => Input::Sound(compiled),
        Err(faults) => Input::Faulty(source, faults),
    }
}
