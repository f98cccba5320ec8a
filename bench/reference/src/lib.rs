//! Disjunctive model-faithful acyclicity of rule sets, a second time.
//!
//! A TEST INSTRUMENT: nothing here is proved. It is written from document 01, C-11 and C-14 to C-16 alone, by value and with
//! hash tables, to be compared with the proved library and to be the yardstick for its speed.
//!
//! - `book`: rule sets, their bytes, refusals 2 to 10
//! - `convert`: from one version to the other
//! - `draft`: rule sets under construction
//! - `form`: the form that the library's `read` and `write` lend
//! - `rules`: what a rule's variables say of it; Skolem functions; join plans
//! - `facts`, `terms`: tables with hash indices
//! - `matching`: triggers
//! - `blocking`: the blocking test
//! - `stages`: the stages and the verdict
//! - `print`: the text of an answer
//! - `columns`: the store of an answer's records
//! - `cases`: files of cases

pub mod blocking;
pub mod book;
pub mod cases;
pub mod columns;
pub mod convert;
pub mod draft;
pub mod facts;
pub mod form;
pub mod hash;
pub mod matching;
pub mod print;
pub mod rules;
pub mod stages;
pub mod terms;

pub use book::{read, Atom, Book, Refusal, Rule, Version};
pub use print::{print, text};
pub use stages::{check, check_at, check_into, Checked, Verdict};
