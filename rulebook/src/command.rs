//! The command line.

use crate::dot;
use crate::input::{self, bytes, load, shown, Input, Reading};
use crate::json::{text, Json};
use crate::names;
use crate::show;
use crate::source::Source;
use crate::verdict;
use crate::why;
use rulfjen::{Depth, TEXT};
use std::ffi::{OsStr, OsString};
use std::io::Read;

pub const HELP: &str = include_str!("help.txt");

/// Refused or faulty; wrong use.
const REFUSED: u8 = 2;
const WRONG_USE: u8 = 64;

/// What a command says, and its exit status.
#[derive(Clone, PartialEq, Eq, Debug, Default)]
pub struct Said {
    pub out: Vec<u8>,
    pub err: String,
    pub status: u8,
}

impl Said {
    fn out(text: impl Into<Vec<u8>>, status: u8) -> Said {
        Said { out: text.into(), err: String::new(), status }
    }

    fn err(err: impl Into<String>, status: u8) -> Said {
        Said { out: Vec::new(), err: err.into(), status }
    }

    fn json(json: Json, status: u8) -> Said {
        let mut out = String::new();
        json.write(&mut out);
        out.push('\n');
        Said::out(out, status)
    }
}

fn wrong_use(says: impl std::fmt::Display) -> Said {
    Said::err(format!("rulebook: {says}\nTry `rulebook --help`.\n"), WRONG_USE)
}

#[derive(Default)]
struct Options {
    depth: Depth,
    reading: Reading,
    facts: bool,
    json: bool,
    plain: bool,
    dot: bool,
    names: Option<OsString>,
    output: Option<OsString>,
    file: OsString,
}

/// The options that each command takes.
fn allowed(command: &str) -> &'static [&'static str] {
    match command {
        "check" => &["--depth", "--facts", "--json", "--plain", "--text", "--book"],
        "compile" => &["-o"],
        "show" => &["--names", "-o"],
        _ => &["--depth", "--dot", "--text", "--book"],
    }
}

fn depth(value: &OsStr) -> Result<Depth, String> {
    match value.to_str() {
        Some("1") => Ok(Depth::One),
        Some("2") => Ok(Depth::Two),
        Some("3") => Ok(Depth::Three),
        _ => Err(format!("--depth is 1, 2 or 3, not `{}`", shown(value))),
    }
}

fn options(command: &str, arguments: &[OsString]) -> Result<Options, String> {
    let mut options = Options::default();
    let mut files = Vec::new();
    let mut arguments = arguments.iter();
    let mut only_files = false;
    while let Some(argument) = arguments.next() {
        let word = argument.to_string_lossy();
        if only_files || word == "-" || !word.starts_with('-') {
            files.push(argument.clone());
            continue;
        }
        if word == "--" {
            only_files = true;
            continue;
        }
        let (name, inline) = match word.split_once('=') {
            Some((name, value)) => (name.to_string(), Some(OsString::from(value))),
            None => (word.to_string(), None),
        };
        if !allowed(command).contains(&name.as_str()) {
            return Err(format!("{command} takes no `{}`", shown(OsStr::new(&name))));
        }
        let takes_value = matches!(name.as_str(), "--depth" | "--names" | "-o");
        if inline.is_some() && !takes_value {
            return Err(format!("{name} takes no value"));
        }
        let mut value = || inline.clone().or_else(|| arguments.next().cloned()).ok_or(format!("{name} needs a value"));
        match name.as_str() {
            "--depth" => options.depth = depth(&value()?)?,
            "--names" => options.names = Some(value()?),
            "-o" => options.output = Some(value()?),
            "--facts" => options.facts = true,
            "--json" => options.json = true,
            "--plain" => options.plain = true,
            "--dot" => options.dot = true,
            "--text" => options.reading = Reading::Text,
            _ => options.reading = Reading::Book,
        }
    }
    if options.json && options.plain {
        return Err("--json and --plain are two forms of one answer".to_string());
    }
    match files.len() {
        1 => options.file = files.remove(0),
        0 => return Err(format!("{command} needs a file, or `-` for standard input")),
        _ => return Err(format!("{command} takes one file")),
    }
    Ok(options)
}

/// Runs a command line, without the program's own name.
pub fn run(arguments: &[OsString], stdin: &mut dyn Read) -> Said {
    let Some((command, rest)) = arguments.split_first() else {
        return wrong_use("a command is missing: check, compile, show or why");
    };
    let command = command.to_string_lossy();
    let asks = |word: &OsString| word == "--help" || word == "-h";
    match &*command {
        "--help" | "-h" | "help" => return Said::out(HELP, 0),
        "--version" => return Said::out(format!("rulebook {}\n", env!("CARGO_PKG_VERSION")), 0),
        "check" | "compile" | "show" | "why" => {}
        _ => return wrong_use(format!("no command `{}`", shown(OsStr::new(&*command)))),
    }
    if rest.iter().take_while(|word| *word != "--").any(asks) {
        return Said::out(HELP, 0);
    }
    let options = match options(&command, rest) {
        Ok(options) => options,
        Err(says) => return wrong_use(says),
    };
    let given = match bytes(&options.file, stdin) {
        Ok(given) => given,
        Err(says) if options.json => {
            let members = [("file", shown(&options.file)), ("verdict", "faulty".to_string()), ("words", says)];
            return Said::json(Json::Object(members.map(|(name, value)| (name, text(value))).into()), REFUSED);
        }
        Err(says) => return Said::err(format!("{says}\n"), REFUSED),
    };
    let file = shown(&options.file);
    match &*command {
        "check" => check(load(&file, given, options.reading), &options),
        "why" => why(load(&file, given, options.reading), &options),
        "compile" => compile(load(&file, given, Reading::Text), &options),
        _ => show(&file, given, &options, stdin),
    }
}

fn plain(book: &[u8], depth: Depth, status: u8) -> Said {
    let mut text = Box::new([0; TEXT]);
    Said::out(rulfjen::print(book, depth, &mut text), status)
}

fn check(input: Input, options: &Options) -> Said {
    let depth = options.depth;
    match input {
        Input::Faulty(source, faults) if options.json => Said::json(verdict::json_faults(&source, &faults), REFUSED),
        Input::Faulty(source, faults) => Said::err(faults.render(&source), REFUSED),
        Input::Refused { bytes, .. } if options.plain => plain(&bytes, depth, REFUSED),
        Input::Refused { file, refusal, .. } if options.json => {
            Said::json(verdict::json_refused(&file, depth, refusal), REFUSED)
        }
        Input::Refused { file, refusal, .. } => Said::out(verdict::refused(&file, refusal), REFUSED),
        Input::Sound(compiled) => {
            let judged = verdict::judge(&compiled, depth);
            let status = verdict::status(&judged.verdict);
            if options.plain {
                plain(&compiled.bytes, depth, status)
            } else if options.json {
                Said::json(verdict::json(&compiled, &judged, options.facts), status)
            } else {
                Said::out(verdict::words(&compiled, &judged, options.facts), status)
            }
        }
    }
}

fn why(input: Input, options: &Options) -> Said {
    let compiled = match input {
        Input::Faulty(source, faults) => return Said::err(faults.render(&source), REFUSED),
        Input::Refused { file, refusal, .. } => return Said::err(verdict::refused(&file, refusal), REFUSED),
        Input::Sound(compiled) => compiled,
    };
    let judged = verdict::judge(&compiled, options.depth);
    let status = verdict::status(&judged.verdict);
    if !options.dot {
        return Said::out(why::words(&compiled, &judged), status);
    }
    match dot::picture(&compiled, &judged) {
        Some(picture) => Said::out(picture, status),
        // there is nothing to draw
        None => Said::err(why::words(&compiled, &judged), status),
    }
}

/// To a file, if one is named.
fn written(said: Said, output: &Option<OsString>) -> Said {
    let Some(file) = output else { return said };
    match std::fs::write(file, &said.out) {
        Ok(()) => Said { out: Vec::new(), ..said },
        Err(error) => Said::err(format!("{}: {error}\n", shown(file)), REFUSED),
    }
}

fn compile(input: Input, options: &Options) -> Said {
    match input {
        Input::Sound(compiled) => written(Said::out(compiled.bytes, 0), &options.output),
        Input::Faulty(source, faults) => Said::err(faults.render(&source), REFUSED),
        Input::Refused { file, refusal, .. } => Said::err(verdict::refused(&file, refusal), REFUSED),
    }
}

fn show(file: &str, given: Vec<u8>, options: &Options, stdin: &mut dyn Read) -> Said {
    let mut compiled = match input::of_book(file, given) {
        Input::Sound(compiled) => compiled,
        Input::Refused { file, refusal, .. } => return Said::err(verdict::refused(&file, refusal), REFUSED),
        Input::Faulty(source, faults) => return Said::err(faults.render(&source), REFUSED),
    };
    if let Some(file) = &options.names {
        let bytes = match bytes(file, stdin) {
            Ok(bytes) => bytes,
            Err(says) => return Said::err(format!("{says}\n"), REFUSED),
        };
        let source = Source::new(&shown(file), &bytes);
        match names::predicates(&source, compiled.book.arities.len()) {
            Ok(predicates) => compiled.names.predicates = predicates,
            Err(faults) => return Said::err(faults.render(&source), REFUSED),
        }
    }
    written(Said::out(show::book(&compiled.book, &compiled.names), 0), &options.output)
}
