//! The families as files, for other programs.

use crate::asp;
use crate::books::{Family, Member};
use reference::Verdict;
use std::path::Path;

/// Whether the reference accepts it and blocks no trigger, at the program's depth.
fn is_saturation(book: &[u8]) -> bool {
    let checked = reference::check(book);
    matches!(checked.verdict, Verdict::Accepted { .. }) && checked.seen.blocked == 0
}

/// A family's name and a member's size as the name of a file.
fn stem(family: &Family, member: &Member) -> String {
    let words: Vec<&str> = family.name.split(|c: char| !c.is_alphanumeric()).filter(|word| !word.is_empty()).collect();
    format!("{}-{}", words.join("-").to_lowercase(), member.size)
}

/// Each member of one rule set as NAME-SIZE.book, and beside it NAME-SIZE.lp where it is a saturation: an answer set
/// program. What the reference takes too long for is judged as the size before it; clingo's count of atoms will tell.
pub fn write(families: &[Family], folder: &Path) -> std::io::Result<()> {
    std::fs::create_dir_all(folder)?;
    for family in families {
        let mut saturation = false;
        for member in &family.members {
            let [book] = &member.books[..] else { continue };
            let path = folder.join(stem(family, member));
            std::fs::write(path.with_extension("book"), book)?;
            if member.beside {
                saturation = is_saturation(book);
            }
            if saturation {
                let book = reference::read(book).expect("a rule set that was checked");
                std::fs::write(path.with_extension("lp"), asp::program(&book))?;
            }
        }
    }
    Ok(())
}
