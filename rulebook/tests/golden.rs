//! The program's words on the examples and on texts that are refused or faulty, to the letter.
//!
//! `RULEBOOK_GOLDEN=write cargo test --offline --test golden` writes them anew, to be read before they are kept.

mod support;

use rulebook::compile::compile;
use rulebook::source::Source;
use std::path::Path;
use std::process::Command;
use support::{files, folder};

/// What the program says in a folder, and its exit status.
fn told(folder: &Path, arguments: &[&str], file: &str) -> String {
    let run = Command::new(env!("CARGO_BIN_EXE_rulebook")).args(arguments).arg(file).current_dir(folder).output();
    let run = run.expect("the program runs");
    let text = |bytes: &[u8]| String::from_utf8(bytes.to_vec()).expect("UTF-8");
    let status = run.status.code().expect("no signal ends the program");
    format!("{}{}exit status {status}\n", text(&run.stdout), text(&run.stderr))
}

fn compare(path: &Path, found: &str) {
    if std::env::var_os("RULEBOOK_GOLDEN").is_some_and(|value| value == "write") {
        std::fs::write(path, found).expect("the text is written");
    }
    let expected = std::fs::read_to_string(path).unwrap_or_else(|error| panic!("{}: {error}", path.display()));
    assert_eq!(found, expected, "{}", path.display());
}

fn name(path: &Path) -> &str {
    path.file_name().and_then(|name| name.to_str()).expect("a name")
}

#[test]
fn examples_have_their_verdicts() {
    let examples = folder().join("examples");
    let mut count = 0;
    for path in files(&examples, "rules") {
        let verdict = told(&examples, &["check", "--facts"], name(&path));
        compare(&path.with_extension("verdict"), &verdict);
        if verdict.ends_with("exit status 1\n") {
            compare(&path.with_extension("why"), &told(&examples, &["why"], name(&path)));
        }
        count += 1;
    }
    assert_eq!(count, 8);
    compare(&examples.join("lake.dot.txt"), &told(&examples, &["why", "--dot"], "lake.rules"));
}

#[test]
fn examples_have_the_bytes_of_the_vectors() {
    for (example, vector) in [
        ("river", "river"),
        ("lake", "lake"),
        ("evidence-of-001", "example-1-of-001"),
        ("pizza-of-000", "frozen-pizza-of-000"),
        ("evidence-of-000", "evidence-of-000"),
        ("sibling-of-000", "sibling-of-000"),
        ("../tests/golden/crowd", "crowd"),
        ("../tests/golden/crowd-divided", "crowd-divided"),
        ("../tests/golden/host", "host"),
    ] {
        let text = std::fs::read(folder().join(format!("examples/{example}.rules"))).expect("an example");
        let book =
            std::fs::read(folder().join(format!("../crates/test_vectors/data/{vector}.book"))).expect("a vector");
        let compiled = compile(&Source::new(example, &text)).expect("a sound text");
        assert_eq!(compiled.bytes, book, "{example}");
    }
}

#[test]
fn refused_and_faulty_texts() {
    let golden = folder().join("tests/golden");
    let with = |path: &Path, ending: &str, arguments: &[&str]| {
        compare(&path.with_extension(ending), &told(&golden, arguments, name(path)));
    };
    for path in files(&golden, "rules") {
        with(&path, "check", &["check"]);
        with(&path, "json.txt", &["check", "--json", "--facts"]);
        if told(&golden, &["compile", "-o", "/dev/null"], name(&path)).ends_with("exit status 2\n") {
            continue;
        }
        with(&path, "why", &["why"]);
    }
    with(&golden.join("pedigree.rules"), "why2", &["why", "--depth", "2"]);
    with(&golden.join("pedigree.rules"), "check3", &["check", "--depth=3"]);
    with(&golden.join("pedigree.rules"), "plain", &["check", "--plain", "--depth", "2"]);
}
