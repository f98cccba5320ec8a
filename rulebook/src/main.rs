//! The program: `command` says what it does.

use std::ffi::OsString;
use std::io::{ErrorKind, Write};
use std::process::ExitCode;

fn main() -> ExitCode {
    let arguments: Vec<OsString> = std::env::args_os().skip(1).collect();
    let said = rulebook::command::run(&arguments, &mut std::io::stdin().lock());
    // nobody is left to tell of a fault here
    _ = std::io::stderr().write_all(said.err.as_bytes());
    let mut out = std::io::stdout().lock();
    match out.write_all(&said.out).and_then(|()| out.flush()) {
        Err(error) if error.kind() != ErrorKind::BrokenPipe => {
            _ = writeln!(std::io::stderr(), "rulebook: standard output: {error}");
            ExitCode::from(2)
        }
        _ => ExitCode::from(said.status),
    }
}
