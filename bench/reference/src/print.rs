//! The text of an answer.

use crate::book::{refuse, Refusal, Version};
use crate::stages::{check_at, Checked, Verdict, DEPTHS};
use std::fmt::Write;
use std::path::{Path, PathBuf};

/// What the program hands over of its input, at most. C-16 makes it a byte more than the longest rule set of version 3;
/// it follows when the library's program does, by whose vectors it is tried.
pub const HANDED: usize = Version::Two.longest() + 1;
/// The longest text: room for it is asked for whatever the answer.
pub const LONGEST: usize = 76_863;

fn line(text: &mut String, word: &str, numbers: impl IntoIterator<Item = usize>) {
    text.push_str(word);
    for number in numbers {
        write!(text, " {number}").unwrap();
    }
    text.push('\n');
}

pub fn text(checked: &Checked) -> String {
    let mut text = String::new();
    match checked.verdict {
        Verdict::Refused { number, place } => line(&mut text, "refused", [number as usize, place]),
        Verdict::Accepted { stage, facts, terms } => line(&mut text, "accepted", [stage, facts, terms]),
        Verdict::Cyclic { stage, facts, terms } => line(&mut text, "cyclic", [stage, facts, terms]),
    }
    let widen = |n: &u16| *n as usize;
    for (number, term) in checked.terms.iter().enumerate() {
        let arguments = term.arguments().iter().map(widen);
        line(&mut text, "term", [number, term.mark as usize].into_iter().chain(arguments));
    }
    for fact in &checked.facts {
        let arity = checked.arities[fact.predicate as usize] as usize;
        let arguments = fact.terms[..arity].iter().map(widen);
        line(&mut text, "fact", [fact.predicate as usize].into_iter().chain(arguments));
    }
    if let Some(term) = &checked.shown {
        let arguments = term.arguments().iter().map(widen);
        line(&mut text, "loop", [term.mark as usize].into_iter().chain(arguments));
    }
    text
}

/// What the program prints for these bytes.
pub fn print(bytes: &[u8]) -> String {
    print_at(bytes, 1)
}

/// What it would print at another depth.
pub fn print_at(bytes: &[u8], depth: usize) -> String {
    text(&check_at(&bytes[..bytes.len().min(HANDED)], depth))
}

/// The texts that a vector NAME.book stands beside, with their depths: NAME.txt and NAME-depthD.txt.
pub fn expected(book: &Path) -> std::io::Result<Vec<(usize, String)>> {
    let mut texts = Vec::new();
    let plain = book.with_extension("txt");
    if plain.exists() {
        texts.push((1, std::fs::read_to_string(plain)?));
    }
    let stem = book.with_extension("");
    for depth in DEPTHS {
        let deep = PathBuf::from(format!("{}-depth{depth}.txt", stem.display()));
        if deep.exists() {
            texts.push((depth, std::fs::read_to_string(deep)?));
        }
    }
    if texts.is_empty() {
        return Err(std::io::Error::other(format!("no text beside {}", book.display())));
    }
    Ok(texts)
}

/// Leaves the text of the check's answer in the front of `out`: its length, or refusal 1 for a list without room for
/// the longest text, or 18 for a number that is no depth.
pub fn print_into(bytes: &[u8], depth: usize, out: &mut [u8]) -> Result<usize, Refusal> {
    if out.len() < LONGEST {
        return refuse(1, 0);
    }
    if !DEPTHS.contains(&depth) {
        return refuse(18, 0);
    }
    let text = text(&check_at(bytes, depth));
    out[..text.len()].copy_from_slice(text.as_bytes());
    Ok(text.len())
}
