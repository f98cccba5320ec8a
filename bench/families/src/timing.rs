//! The check of the library and of the reference on the same bytes, compared and timed.

use crate::books::Member;
use reference::Verdict;
use std::time::{Duration, Instant};

const SPAN: Duration = Duration::from_millis(300);
pub const PATIENCE: Duration = Duration::from_secs(20);

struct Lists {
    terms: Vec<u16>,
    facts: Vec<u16>,
}

impl Default for Lists {
    fn default() -> Lists {
        Lists { terms: vec![0; rulfjen::TERMS], facts: vec![0; rulfjen::FACTS] }
    }
}

type Check = fn(&[u8], usize, &mut Lists) -> Verdict;

fn reference_check(book: &[u8], depth: usize, lists: &mut Lists) -> Verdict {
    reference::check_into(book, depth, &mut lists.terms, &mut lists.facts)
}

fn library_check(book: &[u8], depth: usize, lists: &mut Lists) -> Verdict {
    match rulfjen::lists::check(book, depth, &mut lists.terms, &mut lists.facts) {
        rulfjen::Verdict::Accepted { stage, facts, terms } => Verdict::Accepted { stage, facts, terms },
        rulfjen::Verdict::Cyclic { stage, facts, terms } => Verdict::Cyclic { stage, facts, terms },
        rulfjen::Verdict::Refused(refusal) => Verdict::Refused { number: refusal.number, place: refusal.place },
    }
}

fn time(check: Check, books: &[Vec<u8>], depth: usize, lists: &mut Lists) -> Duration {
    let start = Instant::now();
    for book in books {
        std::hint::black_box(check(std::hint::black_box(book), depth, lists));
    }
    start.elapsed()
}

/// The lists that both are lent.
#[derive(Default)]
pub struct Bench {
    rust: Lists,
    rattle: Lists,
}

impl Bench {
    /// The library's answer on the first rule set.
    pub fn answer(&mut self, member: &Member, depth: usize) -> Verdict {
        library_check(&member.books[0], depth, &mut self.rattle)
    }

    /// Whether both give the same answers and lists.
    pub fn agree(&mut self, member: &Member, depth: usize) -> bool {
        member.books.iter().all(|book| {
            reference_check(book, depth, &mut self.rust) == library_check(book, depth, &mut self.rattle)
                && self.rust.terms == self.rattle.terms
                && self.rust.facts == self.rattle.facts
        })
    }

    /// The best times of the reference, where it is timed, and of the library.
    pub fn best(&mut self, member: &Member, depth: usize) -> (Option<Duration>, Duration) {
        let (mut rust, mut rattle) = (None, Duration::MAX);
        let start = Instant::now();
        let mut runs = 0;
        while runs < 5 && start.elapsed() < PATIENCE || start.elapsed() < SPAN {
            if member.beside {
                let now = time(reference_check, &member.books, depth, &mut self.rust);
                rust = Some(rust.map_or(now, |best: Duration| best.min(now)));
            }
            rattle = rattle.min(time(library_check, &member.books, depth, &mut self.rattle));
            runs += 1;
        }
        (rust, rattle)
    }
}
