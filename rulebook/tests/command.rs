//! The command line as a shell sees it.

mod support;

use rulebook::command::HELP;
use std::io::Write;
use std::process::{Command, Output, Stdio};
use support::folder;

fn run(arguments: &[&str], stdin: &[u8]) -> Output {
    let mut program = Command::new(env!("CARGO_BIN_EXE_rulebook"));
    program.args(arguments).current_dir(folder()).stdin(Stdio::piped()).stdout(Stdio::piped()).stderr(Stdio::piped());
    let mut child = program.spawn().expect("the program runs");
    // a program that does not read its input has closed it
    _ = child.stdin.take().expect("a pipe").write_all(stdin);
    child.wait_with_output().expect("the program ends")
}

fn status(arguments: &[&str]) -> i32 {
    run(arguments, b"").status.code().expect("no signal ends the program")
}

#[test]
fn exit_statuses() {
    for (arguments, expected) in [
        (&["check", "examples/river.rules"][..], 0),
        (&["check", "examples/lake.rules"], 1),
        (&["check", "--json", "examples/lake.rules"], 1),
        (&["check", "--plain", "examples/lake.rules"], 1),
        (&["check", "--depth", "3", "examples/lake.rules"], 1),
        (&["check", "tests/golden/crowd.rules"], 2),
        (&["check", "--json", "tests/golden/faults.rules"], 2),
        (&["check", "--plain", "tests/golden/faults.rules"], 2),
        (&["check", "examples"], 2),
        (&["check", "no such file"], 2),
        (&["check", "--json", "no such file"], 2),
        (&["check", "-"], 2),
        (&["check", "--", "examples/river.rules"], 0),
        (&["why", "examples/river.rules"], 0),
        (&["why", "examples/lake.rules"], 1),
        (&["why", "--dot", "examples/lake.rules"], 1),
        (&["why", "--dot", "examples/river.rules"], 0),
        (&["why", "tests/golden/host.rules"], 2),
        (&["compile", "examples/lake.rules"], 0),
        (&["compile", "tests/golden/faults.rules"], 2),
        (&["compile", "-o", "no such folder/book", "examples/lake.rules"], 2),
        (&["show", "examples/river.rules"], 2),
        (&["show", "--names", "examples/river.names", "../crates/test_vectors/data/river.book"], 0),
        (&["show", "--names", "examples/river.names", "../crates/test_vectors/data/sibling-of-000.book"], 0),
        (&["show", "--names", "examples/river.names", "../crates/test_vectors/data/no-rules.book"], 2),
        (&["check", "../crates/test_vectors/data/lake.book"], 1),
        (&["check", "../crates/test_vectors/data/refusal-7.book"], 2),
        (&["--help"], 0),
        (&["why", "--help"], 0),
        (&["--version"], 0),
        (&[], 64),
        (&["fill", "examples/river.rules"], 64),
        (&["check"], 64),
        (&["check", "a", "b"], 64),
        (&["check", "--depth", "4", "examples/river.rules"], 64),
        (&["check", "--depth"], 64),
        (&["check", "--facts=1", "examples/river.rules"], 64),
        (&["check", "--json", "--plain", "examples/river.rules"], 64),
        (&["check", "--dot", "examples/river.rules"], 64),
        (&["compile", "--json", "examples/river.rules"], 64),
    ] {
        assert_eq!(status(arguments), expected, "{arguments:?}");
    }
}

#[test]
fn plain_is_the_librarys_text() {
    let river = std::fs::read(folder().join("../crates/test_vectors/data/river.txt")).expect("a vector");
    assert_eq!(run(&["check", "--plain", "examples/river.rules"], b"").stdout, river);
    let book = run(&["compile", "examples/river.rules"], b"").stdout;
    assert_eq!(run(&["check", "--plain", "-"], &book).stdout, river);
}

#[test]
fn names_from_a_file() {
    let shown = run(&["show", "--names", "examples/river.names", "../crates/test_vectors/data/river.book"], b"").stdout;
    let shown = String::from_utf8(shown).expect("UTF-8");
    let river = std::fs::read_to_string(folder().join("examples/river.rules")).expect("an example");
    let rules = |text: &str| text.lines().filter(|line| line.contains(":-")).map(str::to_string).collect::<Vec<_>>();
    assert_eq!(rules(&shown), rules(&river));
}

#[test]
fn the_help_shows_every_command_and_option() {
    for word in ["check", "why", "compile", "show", "--depth", "--facts", "--json", "--plain", "--dot", "--names", "-o"]
    {
        assert!(HELP.contains(word), "{word}");
    }
    for command in ["check", "why", "compile", "show"] {
        assert!(HELP.contains(&format!("             rulebook {command} ")), "an example of {command}");
    }
    assert_eq!(run(&["--help"], b"").stdout, HELP.as_bytes());
}

#[test]
fn a_reader_that_leaves_is_no_fault() {
    let command = format!("{} check --facts examples/lake.rules | true", env!("CARGO_BIN_EXE_rulebook"));
    let ended = Command::new("sh").args(["-c", &command]).current_dir(folder()).output().expect("a shell");
    assert!(ended.stderr.is_empty(), "{}", String::from_utf8_lossy(&ended.stderr));
}

#[test]
fn the_readme_begins_with_river() {
    let river = std::fs::read_to_string(folder().join("examples/river.rules")).expect("an example");
    assert_eq!(river.lines().count(), 4);
    let indented = |text: &str| text.lines().map(|line| format!("    {line}\n")).collect::<String>();
    let read = |file: &str| std::fs::read_to_string(folder().join(file)).expect("a README");
    assert!(read("README.md").starts_with(&format!("# rulebook\n\n{}", indented(&river))));
    assert!(read("../README.md").contains(&indented(&river)));
    let says = run(&["check", "examples/river.rules"], b"").stdout;
    let says = String::from_utf8(says).expect("UTF-8").replace("examples/", "rulebook/examples/");
    assert!(read("README.md").contains(&indented(&says)));
}
