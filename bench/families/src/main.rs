//! Times `check` of the static library beside the reference. A test instrument: unproved.
//!
//!     families FOLDER [--only NAME] [--times]
//!     families FOLDER [--only NAME] --books OUT     times nothing and writes the rule sets as files (see `export`)
//!
//! FOLDER has the vectors. --only leaves the families whose names begin so.
//!
//! Both get the bytes and lent lists, and read, check and fill the lists. The lists are not cleared between runs: each
//! check clears their front parts itself. A time is the best of several runs, which take turns; a size whose first run
//! is over the patience is the last of its family. Where the reference would take too long the library is timed alone,
//! and its answer is compared with nothing.

mod asp;
mod books;
mod export;
mod paths;
mod stars;
mod timing;
mod wide;

use books::{Family, UPGRADED};
use reference::Verdict;
use std::time::Duration;
use timing::{Bench, PATIENCE};

/// What was measured at one size.
struct Times {
    size: usize,
    /// As many as the answer says.
    facts: Option<usize>,
    rust: Option<Duration>,
    rattle: Duration,
}

fn over(a: Duration, b: Duration) -> f64 {
    a.as_secs_f64() / b.as_secs_f64()
}

/// How many times longer than at half the size.
fn growth(before: &[Times], size: usize, now: Option<Duration>, of: fn(&Times) -> Option<Duration>) -> String {
    let half = before.iter().find(|times| times.size * 2 == size).and_then(of);
    match (now, half) {
        (None, _) => "-".to_string(),
        (Some(now), Some(half)) => format!("{:.1}", over(now, half)),
        (Some(_), None) => String::new(),
    }
}

/// The power of the facts with which the library's time grew since the size before.
fn power(before: &[Times], now: &Times) -> String {
    let Some(last) = before.last() else { return String::new() };
    match (last.facts, now.facts) {
        (Some(few), Some(many)) if few < many => {
            format!("{:.1}", over(now.rattle, last.rattle).ln() / (many as f64 / few as f64).ln())
        }
        _ => String::new(),
    }
}

fn facts(verdict: Verdict) -> Option<usize> {
    match verdict {
        Verdict::Accepted { facts, .. } | Verdict::Cyclic { facts, .. } => Some(facts),
        Verdict::Refused { .. } => None,
    }
}

fn text(verdict: Verdict) -> String {
    match verdict {
        Verdict::Accepted { stage, facts, terms } => format!("accepted {stage} {facts} {terms}"),
        Verdict::Cyclic { stage, facts, terms } => format!("cyclic {stage} {facts} {terms}"),
        Verdict::Refused { number, place } => format!("refused {number} {place}"),
    }
}

const COLUMNS: [&str; 7] = [
    "family",
    "size",
    "answer",
    "Rattle : Rust",
    "Rust, size doubled",
    "Rattle, size doubled",
    "Rattle, power of the facts",
];

fn line(cells: &[String]) {
    println!("| {} |", cells.join(" | "));
}

/// The table, and whether all answers agree.
struct Table {
    with_times: bool,
    worst: (f64, String),
    /// The library's time for each family and size.
    rattle: Vec<(String, usize, Duration)>,
    good: bool,
}

impl Table {
    fn heading(&self) {
        let times = ["Rust µs", "Rattle µs"];
        let columns = COLUMNS.iter().chain(times.iter().filter(|_| self.with_times));
        let names: Vec<String> = columns.map(|name| name.to_string()).collect();
        line(&names);
        println!("|{}", "---|".repeat(names.len()));
    }

    fn family(&mut self, family: &Family, bench: &mut Bench) {
        let mut before: Vec<Times> = Vec::new();
        for member in &family.members {
            let size = member.size;
            if member.beside && !bench.agree(member, family.depth) {
                println!("{} {size}: the answers differ", family.name);
                self.good = false;
                break;
            }
            let (rust, rattle) = bench.best(member, family.depth);
            let verdict = (member.books.len() == 1).then(|| bench.answer(member, family.depth));
            let now = Times { size, facts: verdict.and_then(facts), rust, rattle };
            self.row(family, &before, &now, verdict.map_or("all".to_string(), text));
            self.rattle.push((family.name.clone(), size, rattle));
            before.push(now);
            if rattle > PATIENCE {
                break;
            }
        }
    }

    fn row(&mut self, family: &Family, before: &[Times], now: &Times, answer: String) {
        let ratio = now.rust.map(|rust| over(now.rattle, rust));
        let mut cells = vec![
            family.name.clone(),
            format!("{} {}", now.size, family.size),
            answer,
            ratio.map_or("-".to_string(), |ratio| format!("{ratio:.2}")),
            growth(before, now.size, now.rust, |times| times.rust),
            growth(before, now.size, Some(now.rattle), |times| Some(times.rattle)),
            power(before, now),
        ];
        if self.with_times {
            let micros = |time: Duration| format!("{:.1}", time.as_secs_f64() * 1e6);
            cells.push(now.rust.map_or("-".to_string(), micros));
            cells.push(micros(now.rattle));
        }
        line(&cells);
        if let Some(ratio) = ratio.filter(|&ratio| ratio > self.worst.0) {
            self.worst = (ratio, format!("{} {}", family.name, now.size));
        }
    }
}

impl Table {
    /// How many times as long as in version 1 the library took for the families that are timed in both.
    fn versions(&self) {
        let one = |name: &str, size: usize| self.rattle.iter().find(|row| (row.0.as_str(), row.1) == (name, size));
        for (name, size, two) in &self.rattle {
            let of_one = name.strip_suffix(UPGRADED).and_then(|name| one(name, *size));
            if let Some((name, _, of_one)) = of_one {
                println!("{name} {size}: {:.2} times as long in version 2", over(*two, *of_one));
            }
        }
    }
}

/// The word behind an option.
fn option<'a>(words: &'a [String], name: &str) -> Option<&'a str> {
    let at = words.iter().position(|word| word == name)?;
    Some(words.get(at + 1).expect("a word behind each option"))
}

fn main() -> std::io::Result<()> {
    let words: Vec<String> = std::env::args().skip(1).collect();
    let folder = words.first().expect("usage: families FOLDER [--only NAME] [--times | --books OUT]");
    let mut families = books::families(folder)?;
    if let Some(name) = option(&words, "--only") {
        families.retain(|family| family.name.starts_with(name));
    }
    if let Some(out) = option(&words, "--books") {
        return export::write(&families, out.as_ref());
    }
    let with_times = words.iter().any(|word| word == "--times");
    let mut table = Table { with_times, worst: (0.0, String::new()), rattle: Vec::new(), good: true };
    let mut bench = Bench::default();
    table.heading();
    for family in &families {
        table.family(family, &mut bench);
    }
    println!("\nThe largest ratio: {:.2}, {}.", table.worst.0, table.worst.1);
    table.versions();
    std::process::exit(!table.good as i32);
}
