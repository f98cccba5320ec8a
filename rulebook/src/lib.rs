//! Books that people write and read: a notation for rule sets, the library's verdict in words, and why it is so.
//!
//! NOT PROVED. Each verdict is the proved library's, and what is compiled is read back by it before it is used.
//!
//! - `source`, `fault`: a text, where things stand in it, and what is wrong with it
//! - `lexer`, `parser`, `compile`: from a text to a book
//! - `book`, `names`, `show`: a book, its bytes, its names, and back to a text
//! - `terms`, `verdict`, `json`: the library's answer in words, and for programs
//! - `why`, `dot`: how a cyclic term came to be, and what was large
//! - `again`, `blocking`, `facts`: the stages a second time, for `why` alone
//! - `input`, `command`: files and the command line

pub mod again;
pub mod blocking;
pub mod book;
pub mod command;
pub mod compile;
pub mod dot;
pub mod facts;
pub mod fault;
pub mod input;
pub mod json;
pub mod lexer;
pub mod names;
pub mod parser;
pub mod show;
pub mod source;
pub mod terms;
pub mod verdict;
pub mod why;
