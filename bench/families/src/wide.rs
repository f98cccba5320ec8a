//! Rule sets of version 2: more predicates than version 1 has.

use reference::draft::{Draft, Sketch};

/// A rule set of 64 predicates among `count`, evenly spread: the same rules and stages, and more facts of stage 0.
pub fn spread(draft: Draft, count: usize) -> Draft {
    let step = (count / draft.book.arities.len()) as u16;
    let mut wide = Draft::wide();
    wide.book.arities = vec![1; count];
    for (&arity, place) in draft.book.arities.iter().zip(wide.book.arities.iter_mut().step_by(step as usize)) {
        *place = arity;
    }
    wide.book.rules = draft.book.rules;
    for rule in &mut wide.book.rules {
        for atom in rule.body.iter_mut().chain(rule.disjuncts.iter_mut().flatten()) {
            atom.predicate *= step;
        }
    }
    wide
}

/// A delivery is of one of several kinds of feed, sixteen to a rule: B(x) → ∃y. L(x,y), and for each sixteen of the other
/// predicates L(x,y) → F1(y) ∧ .. ∧ F4(y) ∨ .. ∨ F13(y) ∧ .. ∧ F16(y).
pub fn feeds(count: usize) -> Draft {
    let mut draft = Draft::wide();
    let (b, l) = (draft.predicate(1), draft.predicate(2));
    draft.rule(&[(b, &[0])], &[&[(l, &[0, 1])]]);
    let kinds: Vec<usize> = (2..count).map(|_| draft.predicate(1)).collect();
    for sixteen in kinds.chunks_exact(16).take(draft.rules_left()) {
        let atoms: Vec<Sketch> = sixteen.iter().map(|&kind| (kind, &[1][..])).collect();
        let disjuncts: Vec<&[Sketch]> = atoms.chunks(4).collect();
        draft.rule(&[(l, &[0, 1])], &disjuncts);
    }
    draft
}
