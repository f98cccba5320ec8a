//! Runs files of cases through the reference: `read.cases`, `check.cases`, `upgrade.cases` and `downgrade.cases`, as the
//! README beside them lays them out. A test instrument: unproved.
//!
//!     cases FILE..
//!
//! Cases of a later request are counted apart: those of version 3 with a rule without disjuncts (C-18), which the
//! reference refuses with 6 at their count.

use reference::cases::{cases, Case};
use reference::stages::{FACTS_FRONT, TERMS_FRONT};
use reference::{check_at, convert, form, print, Refusal, Verdict};
use std::path::Path;

fn refused(refusal: Refusal) -> String {
    format!("refused {} {}", refusal.number, refusal.place)
}

/// Reads, and writes what was read: the same bytes.
fn read(book: &[u8]) -> String {
    let mut form = vec![0; form::LENGTH];
    match form::read_form(book, &mut form) {
        Ok(length) => {
            let mut again = vec![0; length];
            let written = form::write_form(&form, &mut again);
            if (written, &again[..]) == (Ok(length), book) { "ok" } else { "written otherwise" }.to_string()
        }
        Err(refusal) => refused(refusal),
    }
}

fn check(book: &[u8], depth: usize) -> String {
    let (mut terms, mut facts) = (vec![0; TERMS_FRONT], vec![0; FACTS_FRONT]);
    match reference::check_into(book, depth, &mut terms, &mut facts) {
        Verdict::Refused { number, place } => refused(Refusal { number, place }),
        _ => print::text(&check_at(book, depth)).trim_end().to_string(),
    }
}

type Converter = fn(&[u8], &mut [u8]) -> Result<usize, Refusal>;

/// The bytes, behind which the list stays as it was.
fn converted(converter: Converter, book: &[u8]) -> String {
    let mut out = vec![0xa5; convert::ROOM + 40];
    match converter(book, &mut out) {
        Ok(length) if out[length..].iter().all(|&byte| byte == 0xa5) => {
            let digits: String = out[..length].iter().map(|byte| format!("{byte:02x}")).collect();
            format!("bytes {digits}")
        }
        Err(refusal) if out.iter().all(|&byte| byte == 0xa5) => refused(refusal),
        _ => "another list".to_string(),
    }
}

fn answer(function: &str, case: &Case) -> String {
    let book = case.book();
    match function {
        "read" => read(&book),
        "check" => check(&book, case.argument("depth").parse().expect("a number")),
        "upgrade" => converted(convert::upgrade, &book),
        "downgrade" => converted(convert::downgrade, &book),
        _ => panic!("no function {function}"),
    }
}

/// Whether the case is one of a later request: of version 3, and refused for a count of 0 that the case lets pass.
fn is_later(case: &Case, found: &str) -> bool {
    let book = case.book();
    let place = found.strip_prefix("refused 6 ").and_then(|place| place.parse().ok());
    book.get(4) == Some(&3) && place.is_some_and(|place: usize| book.get(place) == Some(&0))
}

fn run(file: &Path) -> std::io::Result<bool> {
    let function = file.file_stem().and_then(|stem| stem.to_str()).expect("a file named after a function");
    let (mut passed, mut failed, mut later) = (0, 0, 0);
    for case in cases(&std::fs::read_to_string(file)?) {
        let found = answer(function, &case);
        if found == case.expected {
            passed += 1;
        } else if is_later(&case, &found) {
            later += 1;
        } else {
            let first = |text: &str| text.lines().next().unwrap_or("").chars().take(100).collect::<String>();
            println!("differs: {function} {}: {} and not {}", case.name, first(&found), first(&case.expected));
            failed += 1;
        }
    }
    println!("{function}, reference: {passed} passed, {failed} failed, {later} of a later request");
    Ok(failed == 0 && passed > 0)
}

fn main() -> std::io::Result<()> {
    let mut good = true;
    for file in std::env::args().skip(1) {
        good &= run(Path::new(&file))?;
    }
    std::process::exit(!good as i32);
}
