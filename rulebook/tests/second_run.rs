//! The second run behind `why` comes to the library's end with the library's tables, wherever it does not take too long.

mod support;

use rulebook::again;
use rulebook::compile::Compiled;
use rulebook::input::{of_book, Input};
use rulebook::verdict::{judge, words};
use rulebook::why;
use rulfjen::Depth;
use support::{book, vectors, Random};

/// Whether the run was ended early.
fn agrees(what: &str, compiled: &Compiled, depth: Depth) -> bool {
    let judged = judge(compiled, depth);
    let told = format!("{}{}", words(compiled, &judged, true), why::words(compiled, &judged));
    assert!(!told.is_empty());
    match again::run(&compiled.book, depth.number()) {
        Ok(_) => assert!(why::run_again(compiled, &judged).is_some(), "{what}: {:?}", judged.verdict),
        Err(_) => return true,
    }
    if let Some(story) = why::story(compiled, &judged) {
        let last = story.levels.last().expect("a cyclic term has levels");
        assert_eq!(last.met, Some(depth.number() + 1), "{what}");
        assert_eq!(last.term + 1, story.terms.len());
        let inner = &story.levels[..story.levels.len() - 1];
        assert!(inner.iter().all(|level| !level.carriers.is_empty()), "{what}: something carries each term");
    }
    false
}

#[test]
fn on_vectors() {
    let (mut runs, mut early) = (0, Vec::new());
    for (name, bytes) in vectors() {
        if let Input::Sound(compiled) = of_book(&name, bytes) {
            for depth in [Depth::One, Depth::Two, Depth::Three] {
                runs += 1;
                if agrees(&name, &compiled, depth) {
                    early.push(name.clone());
                }
            }
        }
    }
    println!("{runs} runs, {} ended early: {early:?}", early.len());
    assert!(early.len() * 10 < runs);
}

#[test]
fn on_books_by_lot() {
    let mut random = Random(14);
    let (mut runs, mut early) = (0, 0);
    for number in 0..2_000 {
        let book = book(&mut random);
        if book.rules.len() > 20 {
            continue;
        }
        let bytes = book.compile().expect("a book that the library reads");
        if let Input::Sound(compiled) = of_book("by lot", bytes) {
            let depth = random.one_of(&[Depth::One, Depth::One, Depth::Two, Depth::Three]);
            runs += 1;
            early += agrees(&format!("book {number}"), &compiled, depth) as usize;
        }
    }
    println!("{runs} runs, {early} ended early");
    assert!(early * 10 < runs);
}
