//! Prints the check's answer on standard input. A test instrument: unproved.

use std::io::{Read, Write};

fn main() -> std::io::Result<()> {
    let mut bytes = Vec::new();
    std::io::stdin().lock().take(reference::print::HANDED as u64).read_to_end(&mut bytes)?;
    std::io::stdout().write_all(reference::print(&bytes).as_bytes())
}
