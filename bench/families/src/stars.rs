//! Stars: terms around one centre, and a rule over several of them at once.

use reference::draft::{Draft, Sketch};

/// The atoms of a star, all with the centre 0.
pub struct Shape {
    /// What one rule makes.
    made: &'static [&'static [u8]],
    /// The body of the rule over it.
    body: &'static [&'static [u8]],
    pub first: u8,
    pub last: u8,
}

/// S(x) → ∃y,z,w,v. R(x,y) ∧ R(x,z) ∧ R(x,w) ∧ R(x,v), and a body of the same atoms.
pub const FOUR: Shape = Shape {
    made: &[&[0, 1], &[0, 2], &[0, 3], &[0, 4]],
    body: &[&[0, 1], &[0, 2], &[0, 3], &[0, 4]],
    first: 1,
    last: 4,
};

/// S(x) → ∃a,..,g. R(x,a,b) ∧ R(x,c,d) ∧ R(x,e,f) ∧ R(x,g,g), and a body R(x,a,b) ∧ R(x,c,d) ∧ R(x,e,f).
pub const SEVEN: Shape = Shape {
    made: &[&[0, 1, 2], &[0, 3, 4], &[0, 5, 6], &[0, 7, 7]],
    body: &[&[0, 1, 2], &[0, 3, 4], &[0, 5, 6]],
    first: 1,
    last: 6,
};

/// A variable that no body has.
const NEW: u8 = 7;

/// So many rules that make terms. Answers R.
fn made(draft: &mut Draft, shape: &Shape, rules: usize) -> usize {
    let s = draft.predicate(1);
    let r = draft.predicate(shape.made[0].len());
    for _ in 0..rules {
        draft.rule(&[(s, &[0])], &[&atoms(r, shape.made)]);
    }
    r
}

fn atoms<'a>(r: usize, over: &[&'a [u8]]) -> Vec<Sketch<'a>> {
    over.iter().map(|&over| (r, over)).collect()
}

/// The body → A(`over`).
pub fn datalog(shape: &Shape, rules: usize, over: u8) -> Draft {
    let mut draft = Draft::default();
    let r = made(&mut draft, shape, rules);
    let a = draft.predicate(1);
    draft.rule(&atoms(r, shape.body), &[&[(a, &[over])]]);
    draft
}

/// The body → ∃u. Q(v,u), v the last variable.
pub fn existential(shape: &Shape, rules: usize) -> Draft {
    let mut draft = Draft::default();
    let r = made(&mut draft, shape, rules);
    let q = draft.predicate(2);
    draft.rule(&atoms(r, shape.body), &[&[(q, &[shape.last, NEW])]]);
    draft
}

/// The body → A(y) ∨ B(v), y the first variable behind the centre and v the last.
pub fn blockable(shape: &Shape, rules: usize) -> Draft {
    divided(shape, rules).0
}

/// The same beside R(x,y,..) → A(y): every trigger is blocked.
pub fn blocked(shape: &Shape, rules: usize) -> Draft {
    let (mut draft, r, a) = divided(shape, rules);
    draft.rule(&atoms(r, &shape.body[..1]), &[&[(a, &[shape.first])]]);
    draft
}

/// `blockable`, with its R and A.
fn divided(shape: &Shape, rules: usize) -> (Draft, usize, usize) {
    let mut draft = Draft::default();
    let r = made(&mut draft, shape, rules);
    let (a, b) = (draft.predicate(1), draft.predicate(1));
    draft.rule(&atoms(r, shape.body), &[&[(a, &[shape.first])], &[(b, &[shape.last])]]);
    (draft, r, a)
}
