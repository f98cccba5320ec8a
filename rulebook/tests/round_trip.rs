//! To compile what was shown gives the same bytes, or those of version 1 where a book of version 2 has them: every readable
//! vector, and books by lot.

mod support;

use rulebook::book::{Book, Version};
use rulebook::compile::compile;
use rulebook::names::Names;
use rulebook::show;
use rulebook::source::Source;
use support::{book, said, vectors, written, Random};

const BOOKS: usize = 10_000;

/// The text of a book's bytes, after it was compiled back.
fn there_and_back(what: &str, bytes: &[u8], names: impl FnOnce(&mut Names)) -> String {
    let book = Book::read(bytes).expect("a readable book");
    let mut called = Names::of_book(what, &book);
    names(&mut called);
    let text = show::book(&book, &called);
    let compiled = match compile(&Source::new(what, text.as_bytes())) {
        Ok(compiled) => compiled,
        Err(faults) => panic!("{what}:\n{text}\n{}", faults.render(&Source::new(what, text.as_bytes()))),
    };
    assert_eq!(compiled.bytes, written(bytes), "{what}:\n{text}");
    assert_eq!(compiled.book, book, "{what}");
    assert_eq!(show::book(&compiled.book, &compiled.names), text, "{what}: shown again");
    text
}

#[test]
fn vectors_come_back() {
    let mut readable = 0;
    for (name, bytes) in vectors() {
        let shown = said(&["show", "-"], &bytes);
        if Book::read(&bytes).is_err() {
            assert_eq!(shown.status, 2, "{name}");
            continue;
        }
        readable += 1;
        assert_eq!(shown.status, 0, "{name}");
        assert_eq!(there_and_back(&name, &bytes, |_| {}).as_bytes(), shown.out, "{name}");
        assert_eq!(said(&["compile", "-"], &shown.out).out, written(&bytes), "{name}");
    }
    assert!(readable > 100, "{readable}");
    println!("{readable} readable vectors");
}

#[test]
fn books_by_lot_come_back() {
    let mut random = Random(26);
    let (mut by_number, mut divided, mut wide) = (0, 0, 0);
    for number in 0..BOOKS {
        let book = book(&mut random);
        let bytes = book.compile().expect("a book that the library reads");
        let odd = random.once_in(3);
        let text = there_and_back(&format!("book {number}"), &bytes, |names| {
            if odd {
                let odd = |p| format!("{}{p}", ["røye", "_", "a_b_", "P", "p9"][p % 5]);
                names.predicates = (0..names.predicates.len()).map(odd).collect();
            }
        });
        by_number += text.contains("(?0") as usize;
        divided += text.contains(" | ") as usize;
        wide += (bytes[4] == 2) as usize;
    }
    println!("{BOOKS} books, {by_number} with numbers for variables, {divided} with alternatives, {wide} of version 2");
    assert!(by_number > BOOKS / 10 && divided > BOOKS / 10 && wide > BOOKS / 100);
}

/// The text and the verdict of a book do not depend on its version.
#[test]
fn version_2_is_shown_and_checked_alike() {
    let mut both = 0;
    for (name, bytes) in vectors() {
        let Ok(book) = Book::read(&bytes) else { continue };
        let (Ok(one), Ok(two)) = (book.write_as(Version::One), book.write_as(Version::Two)) else { continue };
        assert_ne!(one, two);
        assert_eq!(Book::read(&two).as_ref(), Ok(&book), "{name}");
        let shown = said(&["show", "-"], &two);
        assert_eq!(shown, said(&["show", "-"], &one), "{name}");
        assert_eq!(said(&["compile", "-"], &shown.out).out, one, "{name}");
        assert_eq!(said(&["check", "--plain", "-"], &two), said(&["check", "--plain", "-"], &one), "{name}");
        both += 1;
    }
    assert!(both > 100, "{both}");
}
