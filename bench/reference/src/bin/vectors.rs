//! Runs the vectors of a folder through the reference: NAME.book beside NAME.txt at depth 1, and beside NAME-depthD.txt at
//! depth D. A test instrument: unproved.

use std::path::PathBuf;

fn main() -> std::io::Result<()> {
    let folder = PathBuf::from(std::env::args().nth(1).expect("usage: vectors FOLDER"));
    let mut names: Vec<PathBuf> =
        std::fs::read_dir(&folder)?.map(|entry| entry.map(|entry| entry.path())).collect::<Result<_, _>>()?;
    names.retain(|name| name.extension().is_some_and(|extension| extension == "book"));
    names.sort();
    let (mut passed, mut failed) = (0, 0);
    for name in &names {
        let book = std::fs::read(name)?;
        for (depth, expected) in reference::print::expected(name)? {
            if reference::print::print_at(&book, depth) == expected {
                passed += 1;
            } else {
                println!("differs: {} at depth {depth}", name.display());
                failed += 1;
            }
        }
    }
    println!("vectors, reference: {passed} passed, {failed} failed");
    std::process::exit((failed > 0 || passed == 0) as i32);
}
