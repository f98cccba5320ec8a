//! Paths and trees: terms made from terms, and rules that go along their edges.

use reference::draft::{Draft, Sketch};

/// P0(x) → ∃y. E(x,y) ∧ P1(y), and so on, with an edge to each of `children`.
fn generations(draft: &mut Draft, e: usize, count: usize, children: &[u8]) {
    let mut p = draft.predicate(1);
    let edges: Vec<[u8; 2]> = children.iter().map(|&child| [0, child]).collect();
    for _ in 0..count {
        let next = draft.predicate(1);
        let head: Vec<Sketch> = edges.iter().flat_map(|edge| [(e, &edge[..]), (next, &edge[1..])]).collect();
        draft.rule(&[(p, &[0])], &[&head]);
        p = next;
    }
}

/// A chain of `links` existential rules, closed under transitivity.
pub fn chain(links: usize) -> Draft {
    let mut draft = Draft::default();
    let (e, t) = (draft.predicate(2), draft.predicate(2));
    generations(&mut draft, e, links, &[1]);
    draft.rule(&[(e, &[0, 1])], &[&[(t, &[0, 1])]]);
    draft.rule(&[(t, &[0, 1]), (e, &[1, 2])], &[&[(t, &[0, 2])]]);
    draft
}

/// `count` generations of `children`, and E(a,b) ∧ E(b,c) ∧ E(c,d) ∧ E(d,e) → D(`over`).
fn down(count: usize, children: &[u8], over: u8) -> Draft {
    let mut draft = Draft::default();
    let (e, d) = (draft.predicate(2), draft.predicate(1));
    generations(&mut draft, e, count, children);
    draft.rule(&[(e, &[0, 1]), (e, &[1, 2]), (e, &[2, 3]), (e, &[3, 4])], &[&[(d, &[over])]]);
    draft
}

/// A chain, and the term `over` of five in a row, from 0 to 4.
pub fn path(links: usize, over: u8) -> Draft {
    down(links, &[1], over)
}

/// Two children for each term, and the lowest of five in a row.
pub fn tree(levels: usize) -> Draft {
    down(levels, &[1, 2], 4)
}
