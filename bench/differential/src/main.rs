//! Compares answers, tables and text of the static library with those of the reference. A test instrument: unproved.
//!
//!     differential vectors FOLDER          the library on NAME.book must print NAME.txt, and NAME-depthD.txt at depth D
//!     differential cases FILE..            the library on the books of files of cases, to which `cases` holds the reference
//!     differential [versions] [SEED [COUNT]]
//!                                          generated rule sets from a seed, 20,000 by default; of versions 1 and 2, and in
//!                                          both where that can be
//!     differential [versions] SEED only INDEX
//!                                          one of them, written to standard output
//!     differential fixed ..                rule sets of version 3 in the same ways, and cases with those of version 3
//!
//! The library does not read version 3 yet. Without the word `fixed` no rule set and no form of it is compared.

use differential::random::Random;
use differential::{compare, fixed, generate, wide};
use reference::{Verdict, Version};
use std::collections::BTreeMap;
use std::io::Write;
use std::time::{Duration, Instant};

fn vectors(folder: &str) -> std::io::Result<bool> {
    let mut names: Vec<_> =
        std::fs::read_dir(folder)?.map(|entry| entry.map(|e| e.path())).collect::<Result<_, _>>()?;
    names.retain(|name| name.extension().is_some_and(|extension| extension == "book"));
    names.sort();
    let (mut passed, mut failed) = (0, 0);
    let mut text = vec![0; rulfjen::TEXT];
    for name in &names {
        let mut bytes = std::fs::read(name)?;
        bytes.truncate(reference::print::HANDED);
        for (depth, expected) in reference::print::expected(name)? {
            let length = rulfjen::lists::print(&bytes, depth, &mut text).expect("a depth, and room for every text");
            if text[..length] == *expected.as_bytes() {
                passed += 1;
            } else {
                println!("differs: {} at depth {depth}", name.display());
                failed += 1;
            }
        }
    }
    println!("vectors, library: {passed} passed, {failed} failed");
    Ok(failed == 0 && passed > 0)
}

/// The books of files of cases, each with lists and depths by lot, some times.
fn cases(files: &[String], versions: &[Version]) -> std::io::Result<bool> {
    let (mut agree, mut differ, mut left_out) = (0, 0, 0);
    for file in files {
        for case in reference::cases::cases(&std::fs::read_to_string(file)?) {
            let book = case.book();
            if compare::is_left_out(&book, versions) {
                left_out += 1;
                continue;
            }
            let compared = (0..10).try_for_each(|index| {
                compare::compare(&book, versions, &mut Random::new(agree + left_out, index))?;
                compare::same_in_both_versions(&book).map(|_| ())
            });
            match compared {
                Ok(()) => agree += 1,
                Err(difference) => {
                    println!("{file}, {}:\n{difference}", case.name);
                    differ += 1;
                }
            }
        }
    }
    println!("books of cases: {agree} agree, {differ} differ{}", and_left_out(left_out));
    Ok(differ == 0 && agree > 0)
}

/// What is said of rule sets that are not compared, if there are any.
fn and_left_out(count: u64) -> String {
    match count {
        0 => String::new(),
        _ => format!(", {count} of version 3 left out"),
    }
}

fn row_of(verdict: Verdict) -> String {
    match verdict {
        Verdict::Accepted { .. } => "accepted".to_string(),
        Verdict::Cyclic { .. } => "cyclic".to_string(),
        Verdict::Refused { number, .. } => format!("refused {number:>2}"),
    }
}

#[derive(Default)]
struct Tally {
    books: usize,
    rows: BTreeMap<String, usize>,
    /// Comparisons with a list too short.
    short: usize,
    /// Checked in both versions.
    both: usize,
    tested: usize,
    blocked: usize,
    with_blocked: usize,
    time: Duration,
}

/// What is compared: rule sets of version 1, of versions 1 and 2, or of version 3.
#[derive(Clone, Copy, PartialEq, Eq)]
enum Subject {
    One,
    Both,
    Fixed,
}

/// A class, with its place among the columns.
type Class = (usize, String);

impl Subject {
    fn generate(self, random: &mut Random) -> (Class, Vec<u8>) {
        match self {
            Subject::One => {
                let (class, book) = generate::generate(random);
                ((class as usize, format!("{class:?}")), book)
            }
            Subject::Both => {
                let (class, book) = wide::generate(random);
                ((class as usize, format!("{class:?}")), book)
            }
            Subject::Fixed => {
                let (class, book) = fixed::generate(random);
                ((class as usize, format!("{class:?}")), book)
            }
        }
    }

    /// The versions that rule sets and forms are compared in.
    fn versions(self) -> &'static [Version] {
        match self {
            Subject::One | Subject::Both => &compare::OF_LIBRARY,
            Subject::Fixed => &Version::ALL,
        }
    }

    /// Compares the library's answers in two versions where a rule set has another; answers whether it has.
    fn same_in_another(self, book: &[u8]) -> Result<bool, String> {
        match self {
            Subject::One => Ok(false),
            Subject::Both => compare::same_in_both_versions(book),
            Subject::Fixed => compare::same_without_constants(book),
        }
    }

    /// The words that name it on the command line.
    fn words(self) -> &'static str {
        match self {
            Subject::One => "differential",
            Subject::Both => "differential versions",
            Subject::Fixed => "differential fixed",
        }
    }
}

fn generated(subject: Subject, seed: u64, count: u64) -> bool {
    println!("seed {seed}, {count} rule sets");
    let mut tallies: BTreeMap<Class, Tally> = BTreeMap::new();
    let (mut differ, mut left_out) = (0, 0);
    let mut slowest = (Duration::ZERO, 0);
    for index in 0..count {
        let mut random = Random::new(seed, index);
        let (class, book) = subject.generate(&mut random);
        if compare::is_left_out(&book, subject.versions()) {
            left_out += 1;
            continue;
        }
        let start = Instant::now();
        let compared = compare::compare(&book, subject.versions(), &mut random)
            .and_then(|(checked, verdict)| Ok((checked, verdict, subject.same_in_another(&book)?)));
        match compared {
            Ok((checked, verdict, both)) => {
                let tally = tallies.entry(class).or_default();
                tally.books += 1;
                *tally.rows.entry(row_of(checked.verdict)).or_default() += 1;
                tally.short += matches!(verdict, Verdict::Refused { number: 1, .. }) as usize;
                tally.both += both as usize;
                tally.tested += checked.seen.tested;
                tally.blocked += checked.seen.blocked;
                tally.with_blocked += (checked.seen.blocked > 0) as usize;
                tally.time += start.elapsed();
            }
            Err(difference) => {
                println!("rule set {index}, {}: {} {seed} only {index}\n{difference}", class.1, subject.words());
                differ += 1;
                if differ == 20 {
                    return false;
                }
            }
        }
        slowest = slowest.max((start.elapsed(), index));
    }
    print_tallies(&tallies);
    println!("the slowest: rule set {}, {:.1?}", slowest.1, slowest.0);
    let agree = count - differ - left_out;
    println!("{}: {agree} agree, {differ} differ{}", subject.words(), and_left_out(left_out));
    differ == 0
}

fn print_tallies(tallies: &BTreeMap<Class, Tally>) {
    let mut rows: Vec<String> = tallies.values().flat_map(|tally| tally.rows.keys().cloned()).collect();
    rows.sort();
    rows.dedup();
    let line = |name: &str, number: &dyn Fn(&Tally) -> String, sum: String| {
        print!("{name:<14}");
        tallies.values().for_each(|tally| print!("{:>10}", number(tally)));
        println!("{sum:>10}");
    };
    let sum = |number: &dyn Fn(&Tally) -> usize| tallies.values().map(number).sum::<usize>().to_string();
    print!("{:<14}", "");
    tallies.keys().for_each(|class| print!("{:>10}", class.1));
    println!("{:>10}", "all");
    for row in &rows {
        let number = |tally: &Tally| tally.rows.get(row).copied().unwrap_or(0);
        line(row, &|tally| number(tally).to_string(), sum(&number));
    }
    line("short lists", &|tally| tally.short.to_string(), sum(&|tally| tally.short));
    if tallies.values().any(|tally| tally.both > 0) {
        line("both versions", &|tally| tally.both.to_string(), sum(&|tally| tally.both));
    }
    line("rule sets", &|tally| tally.books.to_string(), sum(&|tally| tally.books));
    line("with blocked", &|tally| tally.with_blocked.to_string(), sum(&|tally| tally.with_blocked));
    line("tests", &|tally| tally.tested.to_string(), sum(&|tally| tally.tested));
    line("blocked", &|tally| tally.blocked.to_string(), sum(&|tally| tally.blocked));
    line("ms", &|tally| tally.time.as_millis().to_string(), sum(&|tally| tally.time.as_millis() as usize));
}

fn main() -> std::io::Result<()> {
    let mut words: Vec<String> = std::env::args().skip(1).collect();
    let subject = match words.first().map(String::as_str) {
        Some("versions") => Subject::Both,
        Some("fixed") => Subject::Fixed,
        _ => Subject::One,
    };
    if subject != Subject::One {
        words.remove(0);
    }
    let number = |k: usize, default: u64| words.get(k).map_or(default, |word| word.parse().expect("a number"));
    let good = match words.iter().map(String::as_str).collect::<Vec<_>>()[..] {
        ["vectors", folder] => vectors(folder)?,
        ["cases", ..] => cases(&words[1..], subject.versions())?,
        [_, "only", _] => {
            let mut random = Random::new(number(0, 0), number(2, 0));
            let (_, book) = subject.generate(&mut random);
            std::io::stdout().write_all(&book)?;
            true
        }
        _ => {
            let clock = std::time::SystemTime::now().duration_since(std::time::UNIX_EPOCH).map_or(0, |d| d.as_nanos());
            generated(subject, number(0, clock as u64), number(1, 20_000))
        }
    };
    std::process::exit(!good as i32);
}
