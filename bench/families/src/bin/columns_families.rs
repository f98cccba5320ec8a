//! Times `pack` and `unpack` of the static library beside the reference, and lays down what their stores weigh. A test
//! instrument: unproved.
//!
//!     columns_families                     tables that grow, the ratios of the best of several runs
//!     columns_families stores FOLDER OUT   for each FOLDER/NAME.book that is accepted, OUT/NAME.store and, the records as
//!                                          they stand in the lists, OUT/NAME.records
//!     columns_families only FUNCTION SIDE FACTS TIMES
//!                                          pack or unpack by rust or rattle so many times, to count instructions

use reference::columns;
use rulfjen::columns::lists;
use rulfjen::{Tables, Verdict};
use std::time::{Duration, Instant};

const SPAN: Duration = Duration::from_millis(300);
const TIMES: usize = 100;

/// Tables as an answer has them: terms that name earlier ones, facts over few predicates and the terms.
fn tables(facts: usize) -> (usize, Tables) {
    let terms = facts / 4;
    let mut tables = Tables::default();
    for k in 1..terms {
        tables.terms[k * 10] = (k % 7 + 1) as u16;
        tables.terms[k * 10 + 1] = 2;
        tables.terms[k * 10 + 2] = (k / 2) as u16;
        tables.terms[k * 10 + 3] = (k - 1) as u16;
    }
    for k in 0..facts {
        tables.facts[k * 5] = (k * 8 / facts) as u16;
        for argument in 0..3 {
            tables.facts[k * 5 + 1 + argument] = ((k >> argument) % terms.max(1)) as u16;
        }
    }
    (terms, tables)
}

struct Work {
    terms: usize,
    facts: usize,
    tables: Tables,
    store: Vec<u8>,
    length: usize,
}

type Run = fn(&mut Work);

const RUNS: [(&str, Run, Run); 2] = [
    (
        "pack",
        |w| {
            let done = columns::pack(w.terms, w.facts, &w.tables.terms[..], &w.tables.facts[..], &mut w.store);
            std::hint::black_box(done).expect("within the limits");
        },
        |w| {
            let done = lists::pack(w.terms, w.facts, &w.tables.terms[..], &w.tables.facts[..], &mut w.store);
            std::hint::black_box(done).expect("within the limits");
        },
    ),
    (
        "unpack",
        |w| {
            let done = columns::unpack(&w.store[..w.length], &mut w.tables.terms[..], &mut w.tables.facts[..]);
            std::hint::black_box(done).expect("a store");
        },
        |w| {
            let done = lists::unpack(&w.store[..w.length], &mut w.tables.terms[..], &mut w.tables.facts[..]);
            std::hint::black_box(done).expect("a store");
        },
    ),
];

fn work(facts: usize) -> Work {
    let (terms, tables) = tables(facts);
    let mut store = vec![0; columns::STORE];
    let length =
        columns::pack(terms, facts, &tables.terms[..], &tables.facts[..], &mut store).expect("within the limits");
    Work { terms, facts, tables, store, length }
}

fn time(run: Run, work: &mut Work, times: usize) -> Duration {
    let start = Instant::now();
    for _ in 0..times {
        run(work);
    }
    start.elapsed()
}

fn growth(before: Option<Duration>, now: Duration) -> String {
    before.map_or(String::new(), |before| format!("{:.1}", now.as_secs_f64() / before.as_secs_f64()))
}

fn family() {
    println!("| function | facts | bytes | Rattle : Rust | Rust, size doubled | Rattle, size doubled |");
    println!("|---|---|---|---|---|---|");
    for (name, rust, rattle) in RUNS {
        let mut before = (None, None);
        for facts in [64, 128, 256, 512, 1_024, 2_048] {
            let mut work = work(facts);
            let mut best = (Duration::MAX, Duration::MAX);
            let start = Instant::now();
            while start.elapsed() < SPAN {
                best = (best.0.min(time(rust, &mut work, TIMES)), best.1.min(time(rattle, &mut work, TIMES)));
            }
            let ratio = best.1.as_secs_f64() / best.0.as_secs_f64();
            let (of_rust, of_rattle) = (growth(before.0, best.0), growth(before.1, best.1));
            println!("| {name} | {facts} | {} | {ratio:.2} | {of_rust} | {of_rattle} |", work.length);
            before = (Some(best.0), Some(best.1));
        }
    }
}

/// The store and the plain records of each accepted answer.
fn stores(folder: &str, out: &str) -> std::io::Result<()> {
    std::fs::create_dir_all(out)?;
    for entry in std::fs::read_dir(folder)? {
        let path = entry?.path();
        if path.extension().is_none_or(|extension| extension != "book") {
            continue;
        }
        let mut tables = Tables::default();
        let Verdict::Accepted { facts, terms, .. } =
            rulfjen::check(&std::fs::read(&path)?, rulfjen::Depth::One, &mut tables)
        else {
            continue;
        };
        let mut store = vec![0; columns::STORE];
        let length = lists::pack(terms, facts, &tables.terms[..], &tables.facts[..], &mut store).expect("an answer");
        let records = tables.terms[..terms * 10].iter().chain(&tables.facts[..facts * 5]);
        let records: Vec<u8> = records.flat_map(|number| number.to_be_bytes()).collect();
        let name = std::path::Path::new(out).join(path.file_stem().expect("a name"));
        std::fs::write(name.with_extension("store"), &store[..length])?;
        std::fs::write(name.with_extension("records"), records)?;
    }
    Ok(())
}

fn main() -> std::io::Result<()> {
    let words: Vec<String> = std::env::args().skip(1).collect();
    match words.iter().map(String::as_str).collect::<Vec<_>>()[..] {
        ["stores", folder, out] => stores(folder, out)?,
        ["only", function, side, facts, times] => {
            let (_, rust, rattle) = *RUNS.iter().find(|run| run.0 == function).expect("pack or unpack");
            let mut work = work(facts.parse().expect("a number"));
            time(if side == "rust" { rust } else { rattle }, &mut work, times.parse().expect("a number"));
        }
        _ => family(),
    }
    Ok(())
}
