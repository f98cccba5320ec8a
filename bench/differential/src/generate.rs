//! Rule sets of version 1, of several classes, each from its own random numbers.

use crate::random::Random;
use reference::draft::{Draft, Sketch};
use reference::{check, Atom, Book, Checked, Rule, Verdict, Version};

#[derive(Clone, Copy, PartialEq, Eq, PartialOrd, Ord, Debug)]
pub enum Class {
    Small,
    Medium,
    Nested,
    Divided,
    Layered,
    Places,
    TestSet,
    Facts,
    Terms,
    Crowded,
    Long,
    Unsound,
    Damaged,
}

/// How often each class comes, in a hundred.
const SHARES: [(Class, usize); 13] = [
    (Class::Small, 16),
    (Class::Medium, 6),
    (Class::Nested, 12),
    (Class::Divided, 18),
    (Class::Layered, 6),
    (Class::Places, 6),
    (Class::TestSet, 4),
    (Class::Facts, 3),
    (Class::Terms, 3),
    (Class::Crowded, 4),
    (Class::Long, 2),
    (Class::Unsound, 6),
    (Class::Damaged, 14),
];

pub fn generate(random: &mut Random) -> (Class, Vec<u8>) {
    let class = random.by_share(&SHARES);
    (class, of_class(class, random))
}

pub(crate) fn of_class(class: Class, random: &mut Random) -> Vec<u8> {
    match class {
        Class::Small => random_book(random, 5, 5, true).bytes(),
        Class::Medium => random_book(random, 12, 14, true).bytes(),
        Class::Nested => shuffled(nested(random), random).book.bytes(),
        Class::Divided => divided(random).book.bytes(),
        Class::Layered => layered(random).book.bytes(),
        Class::Places => shuffled(places(random), random).book.bytes(),
        Class::TestSet => test_set(random, &Draft::default()).book.bytes(),
        Class::Facts => shuffled(facts(random, &Draft::default()), random).book.bytes(),
        Class::Terms => shuffled(terms(random, &Draft::default()), random).book.bytes(),
        Class::Crowded => shuffled(crowded(random), random).book.bytes(),
        Class::Long => {
            let wide = random.once_in(2);
            let predicates = random.one_of(&[1, 63, 64, 64, 64, 65]);
            long(random, Version::One, predicates, wide).bytes()
        }
        Class::Unsound => random_book(random, 5, 5, false).bytes(),
        Class::Damaged => damaged(random),
    }
}

/// The same up to the numbers of predicates, rules and variables, and the order of atoms and disjuncts.
pub fn shuffled(mut draft: Draft, random: &mut Random) -> Draft {
    let book = &mut draft.book;
    let mut order: Vec<usize> = (0..book.arities.len()).collect();
    random.shuffle(&mut order);
    let mut arities = vec![0; order.len()];
    for (old, &new) in order.iter().enumerate() {
        arities[new] = book.arities[old];
    }
    book.arities = arities;
    random.shuffle(&mut book.rules);
    for rule in &mut book.rules {
        let mut variables: Vec<u8> = (0..8).collect();
        random.shuffle(&mut variables);
        random.shuffle(&mut rule.body);
        random.shuffle(&mut rule.disjuncts);
        rule.disjuncts.iter_mut().for_each(|disjunct| random.shuffle(disjunct));
        for atom in rule.body.iter_mut().chain(rule.disjuncts.iter_mut().flatten()) {
            atom.predicate = order[atom.predicate as usize] as u16;
            for argument in &mut atom.arguments[..atom.arity as usize] {
                // a rule constant stays
                *argument = variables.get(*argument as usize).copied().unwrap_or(*argument);
            }
        }
    }
    draft
}

/// A random atom over arguments of a pool.
fn atom(random: &mut Random, arities: &[u8], pool: &[u8]) -> Atom {
    let predicate = random.within(0, arities.len() - 1);
    let arity = arities[predicate];
    let mut arguments = [0; 4];
    for argument in &mut arguments[..arity as usize] {
        *argument = random.one_of(pool);
    }
    Atom { predicate: predicate as u16, arity, arguments }
}

fn body_variables(body: &[Atom]) -> Vec<u8> {
    let set = reference::book::set_of(body);
    (0..8).filter(|v| set >> v & 1 == 1).collect()
}

/// A random rule. Where it is to be sound, each disjunct has a body variable, and its own existential ones.
pub(crate) fn rule(random: &mut Random, arities: &[u8], most_disjuncts: usize, sound: bool) -> Rule {
    loop {
        let width = random.within(1, 4);
        let mut pool: Vec<u8> = (0..8).collect();
        random.shuffle(&mut pool);
        pool.truncate(width);
        let atoms = random.one_of(&[1, 1, 1, 2, 2, 3, 4]);
        let body: Vec<Atom> = (0..atoms).map(|_| atom(random, arities, &pool)).collect();
        let known = body_variables(&body);
        let mut free: Vec<u8> = (0..8).filter(|v| !known.contains(v)).collect();
        random.shuffle(&mut free);
        let count = if random.once_in(2) { 1 } else { random.within(1, most_disjuncts) };
        let disjuncts = (0..count)
            .map(|_| {
                let mut pool = known.clone();
                if random.once_in(2) {
                    for _ in 0..random.one_of(&[1, 1, 1, 2, 3]) {
                        if let Some(v) = if sound { free.pop() } else { free.first().copied() } {
                            pool.push(v);
                            pool.push(v);
                        }
                    }
                }
                let atoms = random.one_of(&[1, 1, 2, 2, 3, 4]);
                (0..atoms).map(|_| atom(random, arities, &pool)).collect()
            })
            .collect();
        let rule = Rule { body, disjuncts };
        if !sound || rule.fault().is_none() {
            return rule;
        }
    }
}

fn arities(random: &mut Random, most: usize) -> Vec<u8> {
    let count = random.within(1, most);
    (0..count).map(|_| random.one_of(&[1, 1, 1, 2, 2, 2, 3, 4])).collect()
}

fn random_book(random: &mut Random, most_predicates: usize, most_rules: usize, sound: bool) -> Book {
    let arities = arities(random, most_predicates);
    let count = random.within(0, most_rules);
    let rules = (0..count).map(|_| rule(random, &arities, 3, sound)).collect();
    Book { arities, rules, ..Book::default() }
}

/// Existential rules from level to level, Datalog between the levels, now and then a way back.
fn nested(random: &mut Random) -> Draft {
    let mut draft = Draft::default();
    let levels = random.within(2, 7);
    let ways: Vec<usize> = (0..=levels).map(|_| random.within(1, 3)).collect();
    let level: Vec<usize> = ways.iter().map(|&arity| draft.predicate(arity)).collect();
    let link = draft.predicate(2);
    for k in 0..levels {
        let from: Vec<u8> = (0..ways[k] as u8).collect();
        let to: Vec<u8> = (0..ways[k + 1]).map(|_| random.one_of(&[4, 4, 4, 5, 0])).collect();
        let kept = [random.within(0, ways[k] - 1) as u8, 4];
        draft.rule(&[(level[k], &from)], &[&[(level[k + 1], &to), (link, &kept)]]);
    }
    for _ in 0..random.within(0, 2) {
        match random.within(0, 3) {
            0 => draft.rule(&[(link, &[0, 1])], &[&[(link, &[1, 0])]]),
            1 => draft.rule(&[(link, &[0, 1]), (link, &[1, 2])], &[&[(link, &[0, 2])]]),
            2 => {
                let k = random.within(0, levels);
                let over = vec![1; ways[k]];
                draft.rule(&[(link, &[0, 1])], &[&[(level[k], &over)]]);
            }
            _ => {
                let (k, l) = (random.within(0, levels), random.within(0, levels));
                let from: Vec<u8> = (0..ways[k] as u8).collect();
                let to: Vec<u8> = (0..ways[l]).map(|_| random.one_of(&from)).collect();
                draft.rule(&[(level[k], &from)], &[&[(level[l], &to)]]);
            }
        }
    }
    for _ in 0..random.within(0, 2) {
        let k = random.within(0, levels);
        let from: Vec<u8> = (0..ways[k] as u8).collect();
        let left: Vec<u8> = (0..ways[0]).map(|_| random.one_of(&from)).collect();
        let right = [random.one_of(&from), if random.once_in(2) { 7 } else { random.one_of(&from) }];
        draft.rule(&[(level[k], &from)], &[&[(level[0], &left)], &[(link, &right)]]);
    }
    draft
}

/// Blockable rules over what existential rules made, with Datalog rules that may have derived a disjunct before; then
/// perhaps a few changes.
fn divided(random: &mut Random) -> Draft {
    let mut draft = Draft::default();
    let source = draft.predicate(1);
    let link = draft.predicate(2);
    let left = draft.predicate(1);
    let right = draft.predicate(random.within(1, 2));
    let other = draft.predicate(random.within(1, 3));
    let right_over: &[u8] = if draft.book.arities[right] == 1 { &[1] } else { &[1, 0] };
    let other_over = &[1u8, 0, 1][..draft.book.arities[other] as usize];
    // what makes terms
    match random.within(0, 3) {
        0 => draft.rule(&[(source, &[0])], &[&[(link, &[0, 1])]]),
        1 => draft.rule(&[(source, &[0])], &[&[(link, &[0, 1]), (left, &[1])]]),
        2 => draft.rule(&[(source, &[0]), (other, &[3, 2, 2][..other_over.len()])], &[&[(link, &[0, 1])]]),
        _ => draft
            .rule(&[(source, &[0])], &[&[(link, &[0, 1])], &[(right, &[0, 2][..right_over.len()]), (link, &[2, 0])]]),
    }
    // what divides
    let body: &[Sketch] = match random.within(0, 2) {
        0 => &[(link, &[0, 1])],
        1 => &[(link, &[0, 1]), (source, &[0])],
        _ => &[(link, &[0, 1]), (link, &[2, 0])],
    };
    match random.within(0, 4) {
        0 => draft.rule(body, &[&[(left, &[1])], &[(source, &[1])]]),
        1 => draft.rule(body, &[&[(left, &[1]), (right, right_over)], &[(source, &[1])]]),
        2 => draft.rule(body, &[&[(link, &[1, 4]), (source, &[4])], &[(left, &[1])]]),
        3 => draft.rule(body, &[&[(source, &[1])], &[(other, other_over)], &[(right, right_over), (left, &[0])]]),
        _ => draft.rule(body, &[&[(left, &[1]), (left, &[0])], &[(link, &[1, 5]), (link, &[5, 1])]]),
    }
    // what derives
    for _ in 0..random.within(1, 3) {
        match random.within(0, 6) {
            0 => draft.rule(&[(link, &[0, 1])], &[&[(left, &[1])]]),
            1 => draft.rule(&[(link, &[0, 1])], &[&[(right, right_over)]]),
            2 => draft.rule(&[(left, &[1]), (link, &[0, 1])], &[&[(right, right_over)]]),
            3 => draft.rule(&[(right, right_over)], &[&[(left, &[1])]]),
            4 => draft.rule(&[(link, &[0, 1])], &[&[(other, other_over)]]),
            5 => draft.rule(&[(other, other_over), (source, &[1])], &[&[(left, &[1])]]),
            _ => draft.rule(&[(link, &[0, 1]), (link, &[2, 0])], &[&[(left, &[1]), (left, &[0])]]),
        }
    }
    shuffled(changed(random, draft), random)
}

/// Terms made layer by layer, and a blockable rule whose disjunct follows from how the inner terms were made.
fn layered(random: &mut Random) -> Draft {
    let mut draft = Draft::default();
    let layers = random.within(2, 3);
    let on: Vec<usize> = (0..=layers).map(|_| draft.predicate(1)).collect();
    let link: Vec<usize> = (0..layers).map(|_| draft.predicate(2)).collect();
    let good = draft.predicate(1);
    let spare = draft.predicate(2);
    for k in 0..layers {
        let above: &[Sketch] = &[(link[k], &[0, 1]), (on[k + 1], &[1])];
        match random.within(0, 5) {
            0 => draft.rule(&[(on[k], &[0]), (spare, &[2, 3])], &[above]),
            1 => draft.rule(&[(on[k], &[0]), (spare, &[0, 3])], &[above]),
            2 => draft.rule(&[(on[k], &[0])], &[above, &[(spare, &[0, 4])]]),
            _ => draft.rule(&[(on[k], &[0])], &[above]),
        }
    }
    let top = random.within(2, layers);
    let body: Sketch = if random.once_in(2) { (on[top], &[1]) } else { (link[top - 1], &[0, 1]) };
    match random.within(0, 3) {
        0 => draft.rule(&[body], &[&[(good, &[1])], &[(on[0], &[1])]]),
        1 => draft.rule(&[body], &[&[(good, &[1])], &[(link[0], &[1, 5]), (on[0], &[5])]]),
        2 => draft.rule(&[body, (good, &[2])], &[&[(good, &[1])], &[(on[0], &[1])]]),
        _ => draft.rule(&[body], &[&[(good, &[1]), (spare, &[1, 1])], &[(on[0], &[1])]]),
    }
    for _ in 0..random.within(1, 2) {
        let inner = random.within(0, top - 2);
        match random.within(0, 4) {
            0 => draft.rule(&[(link[top - 2], &[0, 1]), (link[top - 1], &[1, 2])], &[&[(good, &[2])]]),
            1 => draft.rule(&[(on[inner], &[0]), (link[inner], &[0, 1]), (link[top - 1], &[3, 2])], &[&[(good, &[2])]]),
            2 => draft.rule(&[(on[inner], &[0]), (on[top], &[1])], &[&[(good, &[1])]]),
            3 => {
                draft.rule(&[(link[top - 2], &[0, 1]), (link[top - 1], &[1, 2])], &[&[(good, &[2]), (spare, &[2, 2])]])
            }
            _ => draft.rule(&[(on[top - 1], &[1]), (link[top - 1], &[1, 2])], &[&[(good, &[2])]]),
        }
    }
    if random.once_in(3) {
        draft = changed(random, draft);
    }
    shuffled(draft, random)
}

/// The rule set with a few changes, or as it was where these are not sound.
fn changed(random: &mut Random, draft: Draft) -> Draft {
    let mut changed = draft.clone();
    for _ in 0..random.one_of(&[0, 0, 1, 1, 2, 3]) {
        change(random, &mut changed.book);
    }
    if changed.book.rules.iter().all(|rule| rule.fault().is_none()) {
        changed
    } else {
        draft
    }
}

/// One random change of a rule set.
fn change(random: &mut Random, book: &mut Book) {
    let arities = book.arities.clone();
    let extra = rule(random, &arities, 3, true);
    let count = book.rules.len();
    let rule = &mut book.rules[random.within(0, count - 1)];
    let known = body_variables(&rule.body);
    match random.within(0, 4) {
        0 => {
            let at = random.within(0, rule.body.len() - 1);
            rule.body[at] = atom(random, &arities, &known);
        }
        1 => {
            let d = random.within(0, rule.disjuncts.len() - 1);
            let at = random.within(0, rule.disjuncts[d].len() - 1);
            rule.disjuncts[d][at] = atom(random, &arities, &known);
        }
        2 if rule.body.len() < 4 => rule.body.push(atom(random, &arities, &known)),
        3 if rule.disjuncts.len() < 4 => rule.disjuncts.push(vec![atom(random, &arities, &known)]),
        _ => book.rules.push(extra),
    }
}

/// Rules that make a term of `size` places, and nothing larger, for a predicate of one argument: at each level a
/// Skolem term over one to four copies of the one below.
fn tower(random: &mut Random, draft: &mut Draft, size: usize) -> usize {
    let mut ways = Vec::new();
    let mut left = size;
    while left > 1 {
        let fitting: Vec<usize> = (1..=4).filter(|m| (left - 1) % m == 0).collect();
        let way = if left > 8 && random.within(0, 9) > 0 { *fitting.last().unwrap() } else { random.one_of(&fitting) };
        ways.push(way);
        left = (left - 1) / way;
    }
    ways.reverse();
    let arities: Vec<usize> = ways.iter().copied().chain([1]).collect();
    let level: Vec<usize> = arities.iter().map(|&arity| draft.predicate(arity)).collect();
    for k in 0..ways.len() {
        let from: Vec<u8> = (0..arities[k] as u8).collect();
        let to = vec![7; arities[k + 1]];
        if random.once_in(3) && draft.predicates_left() > 40 {
            // the frontier must hold the whole body
            let kept = draft.predicate(arities[k]);
            draft.rule(&[(level[k], &from)], &[&[(level[k + 1], &to), (kept, &from)]]);
        } else {
            // a predicate that the level has anyway
            let mut over = from.clone();
            over.rotate_left(1);
            draft.rule(&[(level[k], &from)], &[&[(level[k + 1], &to), (level[k], &over)]]);
        }
    }
    level[ways.len()]
}

/// Triggers of a blockable rule with about 64 places.
fn places(random: &mut Random) -> Draft {
    let size = random.one_of(&[40, 55, 60, 62, 63, 64, 64, 64, 65, 65, 65, 66, 70]);
    loop {
        let mut draft = Draft::default();
        let variables = random.within(1, 3);
        let mut left = size;
        let mut body = Vec::new();
        for v in 0..variables {
            let own = if v + 1 == variables { left } else { random.within(1, left - (variables - v - 1)) };
            left -= own;
            body.push((tower(random, &mut draft, own), [v as u8]));
        }
        if draft.predicates_left() < 4 || draft.rules_left() < 4 {
            continue;
        }
        let sketches: Vec<Sketch> = body.iter().map(|(p, over)| (*p, &over[..])).collect();
        let one = draft.predicate(1);
        let two = draft.predicate(2);
        let last = variables as u8 - 1;
        match random.within(0, 2) {
            0 => draft.rule(&sketches, &[&[(one, &[0])], &[(two, &[0, last])]]),
            1 => draft.rule(&sketches, &[&[(one, &[last])], &[(two, &[0, 5])]]),
            _ => draft.rule(&sketches, &[&[(two, &[last, 0]), (one, &[0])], &[(one, &[last]), (two, &[0, 6])]]),
        }
        match random.within(0, 3) {
            0 => draft.rule(&[sketches[0]], &[&[(one, &[0])]]),
            1 => draft.rule(&[sketches[0]], &[&[(one, &[0]), (two, &[0, 0])]]),
            2 => draft.rule(&[(two, &[0, 1])], &[&[(one, &[0])]]),
            _ => {}
        }
        return draft;
    }
}

pub(crate) const LETTERS: [u8; 4] = [0, 1, 2, 3];

/// Adds Datalog rules that derive all tuples over `base`, of predicates of their own, so that where `base` has `n`
/// facts they add about `room` in all.
pub(crate) fn products(random: &mut Random, draft: &mut Draft, base: usize, n: usize, mut room: usize) {
    for arity in (1..=4usize).rev() {
        let each = n.pow(arity as u32);
        let most =
            (room / each).min(draft.predicates_left().saturating_sub(8)).min(draft.rules_left().saturating_sub(4));
        let count = if arity == 1 || random.once_in(2) { most } else { random.within(0, most) };
        for _ in 0..count {
            let derived = draft.predicate(arity);
            let body: Vec<[u8; 1]> = LETTERS[..arity].iter().map(|&v| [v]).collect();
            let body: Vec<Sketch> = body.iter().map(|over| (base, &over[..])).collect();
            draft.rule(&body, &[&[(derived, &LETTERS[..arity])]]);
            room -= each;
        }
    }
}

/// Test sets of about 1,024 facts, in a draft that begins so.
pub(crate) fn test_set(random: &mut Random, start: &Draft) -> Draft {
    let target = random.one_of(&[900, 1_020, 1_023, 1_024, 1_024, 1_024, 1_025, 1_025, 1_026, 1_030]);
    loop {
        let mut draft = start.clone();
        let wide = random.within(2, 4);
        let source = draft.predicate(wide);
        let each = draft.predicate(1);
        let single = draft.predicate(1);
        let (one, two) = (draft.predicate(1), draft.predicate(1));
        let over: Vec<u8> = (0..wide as u8).collect();
        let unary: Vec<[u8; 1]> = over.iter().map(|&v| [v]).collect();
        let head: Vec<Sketch> = unary.iter().map(|v| (each, &v[..])).collect();
        draft.rule(&[(source, &over)], &[&head]);
        if random.once_in(2) {
            // terms with an origin
            let seed = draft.predicate(1);
            let made: Vec<u8> = (0..wide).map(|_| random.one_of(&[0, 5, 6, 7])).collect();
            draft.rule(&[(seed, &[0])], &[&[(source, &made), (seed, &[0])]]);
        }
        let second: Vec<u8> = (0..wide).map(|i| if random.once_in(3) { i as u8 } else { 4 + i as u8 }).collect();
        let mut body: Vec<Sketch> = vec![(source, &over), (single, &[0])];
        if random.once_in(2) {
            body.push((source, &second));
        }
        if random.once_in(2) {
            draft.rule(&body, &[&[(one, &[0])], &[(two, &[1])]]);
        } else {
            let third = draft.predicate(2);
            draft.rule(&body, &[&[(third, &[0, 1])], &[(one, &[1]), (two, &[0])]]);
        }
        // how many facts a rule over `each` adds
        let before = check(&draft.book.bytes()).seen.test_set;
        let mut probe = draft.clone();
        let derived = probe.predicate(1);
        probe.rule(&[(each, &[0])], &[&[(derived, &[0])]]);
        let n = check(&probe.book.bytes()).seen.test_set.saturating_sub(before);
        if n < 2 || before > target.min(1_024) {
            continue;
        }
        products(random, &mut draft, each, n, target.min(1_024) - before);
        let reached = check(&draft.book.bytes()).seen.test_set;
        let missing = target.saturating_sub(reached);
        if missing > draft.predicates_left().min(draft.rules_left() * 4) {
            continue;
        }
        for k in 0..missing {
            let derived = draft.predicate(1);
            if k % 4 == 0 {
                draft.rule(&[(single, &[0])], &[&[(derived, &[0])]]);
            } else {
                let atom = draft.atom((derived, &[0]));
                draft.book.rules.last_mut().unwrap().disjuncts[0].push(atom);
            }
        }
        return shuffled(draft, random);
    }
}

fn counts(checked: &Checked) -> Option<(usize, usize)> {
    match checked.verdict {
        Verdict::Accepted { facts, terms, .. } => Some((facts, terms)),
        _ => None,
    }
}

/// A few terms in one predicate, made from predicate 0: the predicate, one that holds them some stages later, and their
/// count with ⋆ and the rule constants.
fn crowd(random: &mut Random, draft: &mut Draft) -> (usize, usize, usize) {
    let new = random.within(1, 6);
    let source = draft.predicate(1);
    let wide = draft.predicate(4);
    let each = draft.predicate(1);
    let mut made: Vec<u8> = (1..=new as u8).collect();
    while made.len() % 3 != 0 {
        made.push(random.within(0, new) as u8);
    }
    let atoms: Vec<[u8; 4]> = made.chunks(3).map(|c| [0, c[0], c[1], c[2]]).collect();
    let head: Vec<Sketch> = atoms.iter().map(|over| (wide, &over[..])).collect();
    draft.rule(&[(source, &[0])], &[&head]);
    draft.rule(&[(wide, &[0, 1, 2, 3])], &[&[(each, &[0]), (each, &[1]), (each, &[2]), (each, &[3])]]);
    let mut late = each;
    for _ in 0..random.one_of(&[0, 0, 1, 1, 2]) {
        let later = draft.predicate(1);
        draft.rule(&[(late, &[0])], &[&[(later, &[0])]]);
        late = later;
    }
    (each, late, (new + 1) * draft.plain_terms())
}

/// Many facts and many terms in the same stage, often with a cyclic one among them.
fn crowded(random: &mut Random) -> Draft {
    let mut draft = Draft::default();
    let (each, late, _) = crowd(random, &mut draft);
    let unary: Vec<[u8; 1]> = LETTERS.iter().map(|&v| [v]).collect();
    let wide = draft.predicate(4);
    for _ in 0..random.within(1, 3) {
        let base = random.one_of(&[each, late]);
        let arity = random.within(2, 4);
        let body: Vec<Sketch> = unary[..arity].iter().map(|over| (base, &over[..])).collect();
        let over: Vec<u8> =
            (0..4).map(|i| if i < arity { i as u8 } else { random.within(0, arity - 1) as u8 }).collect();
        match random.within(0, 3) {
            0 => draft.rule(&body, &[&[(wide, &over)]]),
            1 => draft.rule(&body, &[&[(wide, &over), (wide, &[7, 7, 7, 0])]]),
            2 => draft.rule(&body, &[&[(wide, &[5, over[1], over[2], over[3]]), (wide, &[5, 6, over[0], 5])]]),
            _ => draft.rule(&body, &[&[(wide, &[over[0], over[1], over[2], 7])], &[(wide, &[over[3], 6, 6, over[0]])]]),
        }
    }
    for _ in 0..random.within(0, 2) {
        match random.within(0, 3) {
            0 => draft.rule(&[(each, &[0])], &[&[(0, &[0])]]),
            1 => draft.rule(&[(late, &[0])], &[&[(0, &[0])]]),
            2 => draft.rule(&[(wide, &LETTERS)], &[&[(each, &[random.one_of(&LETTERS)])]]),
            _ => draft.rule(&[(late, &[1])], &[&[(each, &[1])], &[(0, &[1])]]),
        }
    }
    draft
}

/// Now and then a way back to the rule that makes terms, or some other change, so that a cyclic term may come first.
fn back(random: &mut Random, mut draft: Draft, each: usize) -> Draft {
    match random.within(0, 9) {
        0..=1 if draft.rules_left() > 0 => draft.rule(&[(each, &[3])], &[&[(0, &[3])]]),
        2 => return changed(random, draft),
        _ => {}
    }
    draft
}

/// Stages of about 2,048 facts, in a draft that begins so.
pub(crate) fn facts(random: &mut Random, start: &Draft) -> Draft {
    let target: usize = random.one_of(&[1_900, 2_047, 2_048, 2_048, 2_048, 2_049, 2_049, 2_060]);
    loop {
        let mut draft = start.clone();
        let (each, late, n) = crowd(random, &mut draft);
        if random.once_in(3) {
            let (lone, one, two) = (draft.predicate(1), draft.predicate(1), draft.predicate(2));
            draft.rule(&[(lone, &[0])], &[&[(one, &[0])], &[(two, &[0, 1])]]);
        }
        let Some((before, _)) = counts(&check(&draft.book.bytes())) else { continue };
        products(random, &mut draft, late, n, target.min(2_048).saturating_sub(before));
        let Some((reached, _)) = counts(&check(&draft.book.bytes())) else { continue };
        if target < reached || target - reached > draft.predicates_left() {
            continue;
        }
        let plain = draft.plain_terms();
        let mut missing = target - reached;
        while missing >= plain {
            let arity = random.within(1, 4);
            let arity = if plain.pow(arity as u32) <= missing { arity } else { 1 };
            draft.predicate(arity);
            missing -= plain.pow(arity as u32);
        }
        return back(random, draft, each);
    }
}

/// Stages of about 512 terms, in a draft that begins so.
pub(crate) fn terms(random: &mut Random, start: &Draft) -> Draft {
    let target: usize = random.one_of(&[450, 511, 512, 512, 512, 513, 513, 514, 520]);
    let plain = start.plain_terms();
    loop {
        let mut draft = start.clone();
        let (each, late, n) = crowd(random, &mut draft);
        let mut left = target - n;
        let sketches: Vec<[u8; 1]> = LETTERS.iter().map(|&v| [v]).collect();
        for arity in (1..=3usize).rev() {
            let most = (left / n.pow(arity as u32)).min(3);
            for _ in 0..random.within(0, most) {
                let derived = draft.predicate(arity + 1);
                let body: Vec<Sketch> = sketches[..arity].iter().map(|over| (late, &over[..])).collect();
                let head: Vec<u8> = (0..=arity as u8).collect();
                draft.rule(&body, &[&[(derived, &head)]]);
                left -= n.pow(arity as u32);
            }
        }
        if left / plain > 7 * draft.rules_left().min(draft.predicates_left()) {
            continue;
        }
        let wide = draft.predicate(4);
        while left >= plain && draft.predicates_left() > 1 && draft.rules_left() > 0 {
            let own = draft.predicate(1);
            let new = (left / plain).min(7) as u8;
            let over: Vec<u8> = (1..=new).chain([0; 8]).collect();
            draft.rule(&[(own, &[0])], &[&[(wide, &over[..4]), (wide, &over[4..8]), (own, &[0])]]);
            left -= new as usize * plain;
        }
        if left < plain {
            return back(random, draft, each);
        }
    }
}

/// As many rules as there may be, or nearly, or one too many, over so many predicates, perhaps all of them of arity 4.
pub(crate) fn long(random: &mut Random, version: Version, predicates: usize, wide: bool) -> Book {
    let arities: Vec<u8> = (0..predicates).map(|_| if wide { 4 } else { random.within(1, 4) as u8 }).collect();
    let count = random.one_of(&[1, 62, 63, 64, 64, 64, 65]);
    let most = if wide { 4 } else { random.within(1, 4) };
    let rules = (0..count)
        .map(|_| loop {
            let full = random.once_in(2);
            let size = |random: &mut Random| if full { most } else { random.within(1, most) };
            let body: Vec<Atom> = (0..size(random)).map(|_| atom(random, &arities, &[0, 1, 2])).collect();
            let known = body_variables(&body);
            let disjuncts = (0..size(random))
                .map(|d| {
                    let mut pool = known.clone();
                    if random.once_in(6) {
                        pool.push(4 + d as u8);
                    }
                    (0..size(random)).map(|_| atom(random, &arities, &pool)).collect()
                })
                .collect();
            let rule = Rule { body, disjuncts };
            if rule.fault().is_none() {
                return rule;
            }
        })
        .collect();
    Book { version, arities, rules, ..Book::default() }
}

/// What a byte of a rule set says. Of a number of two bytes the first has a role of its own.
#[derive(Clone, Copy, PartialEq, Eq)]
pub(crate) enum Role {
    Version,
    PredicatesHigh,
    Predicates,
    Arity,
    Constants,
    Rules,
    Count,
    PredicateHigh,
    Predicate,
    Argument,
}

/// Of each byte behind the length.
pub(crate) fn roles(book: &Book) -> Vec<Role> {
    let high = |role: Role| (book.version.width() == 2).then_some(role);
    let mut roles = vec![Role::Version];
    roles.extend(high(Role::PredicatesHigh));
    roles.push(Role::Predicates);
    roles.extend(book.arities.iter().map(|_| Role::Arity));
    roles.extend((book.version == Version::Three).then_some(Role::Constants));
    roles.push(Role::Rules);
    let atoms = |atoms: &[Atom], roles: &mut Vec<Role>| {
        roles.push(Role::Count);
        for atom in atoms {
            roles.extend(high(Role::PredicateHigh));
            roles.push(Role::Predicate);
            roles.extend(atom.arguments().iter().map(|_| Role::Argument));
        }
    };
    for rule in &book.rules {
        atoms(&rule.body, &mut roles);
        roles.push(Role::Count);
        rule.disjuncts.iter().for_each(|disjunct| atoms(disjunct, &mut roles));
    }
    roles
}

/// A rule set of another class, damaged.
fn damaged(random: &mut Random) -> Vec<u8> {
    let class =
        random.one_of(&[Class::Small, Class::Small, Class::Nested, Class::Divided, Class::Divided, Class::Long]);
    let bytes = of_class(class, random);
    damage(random, bytes)
}

/// The stated length as long as the bytes behind it.
pub(crate) fn mend(bytes: &mut [u8]) {
    let length = bytes.len() as u32 - 4;
    bytes[..4].copy_from_slice(&length.to_be_bytes());
}

/// A role for a byte to be changed: that of any byte, or one that few bytes have.
fn chosen(random: &mut Random, roles: &[Role], version: Version) -> Role {
    use Role::{Argument, Constants, Count, Predicate, PredicateHigh, Predicates, PredicatesHigh, Rules, Version as V};
    let any = roles[random.within(0, roles.len() - 1)];
    match version {
        Version::One => random.one_of(&[any, any, V, Predicates, Rules, Count]),
        Version::Two => random.one_of(&[
            any,
            any,
            V,
            PredicatesHigh,
            Predicates,
            PredicateHigh,
            PredicateHigh,
            Predicate,
            Rules,
            Count,
        ]),
        Version::Three => {
            random.one_of(&[any, any, V, Constants, Constants, Argument, Argument, Argument, Rules, Count])
        }
    }
}

/// A value for a byte of a role, just out of its range, or at its end.
fn value(random: &mut Random, role: Role, book: &Book) -> u8 {
    let count = book.arities.len();
    let beyond = 128 + book.constants;
    match (role, book.version) {
        (Role::Version, Version::One) => random.one_of(&[0, 2, 255]),
        (Role::Version, Version::Two) => random.one_of(&[0, 1, 3, 255]),
        (Role::Version, Version::Three) => random.one_of(&[0, 1, 2, 4, 255]),
        (Role::PredicatesHigh, _) => random.one_of(&[0, 1, 3, 4, 5, 255]),
        (Role::Predicates, _) => random.one_of(&[0, 65, 64, 255, 1]),
        (Role::Arity, _) => random.one_of(&[0, 5, 4, 1]),
        (Role::Constants, _) => random.one_of(&[0, 1, 2, 3, 4, 255]),
        (Role::Rules, _) => random.one_of(&[65, 64, 0, 255]),
        (Role::Count, _) => random.one_of(&[0, 5, 4, 1]),
        (Role::PredicateHigh, _) => {
            let last = ((count - 1) >> 8) as u8;
            random.one_of(&[last, last + 1, 0, 4, 255])
        }
        (Role::Predicate, _) => random.one_of(&[count as u8, (count - 1) as u8, 255]),
        (Role::Argument, Version::Three) => random.one_of(&[beyond, beyond - 1, 128, 131, 127, 8, 7, 0, 255]),
        (Role::Argument, _) => random.one_of(&[8, 7, 0, 255]),
    }
}

/// Some of a rule set's bytes changed, and its stated length mended, or not.
pub(crate) fn damage(random: &mut Random, mut bytes: Vec<u8>) -> Vec<u8> {
    let sound = reference::read(&bytes).ok();
    for _ in 0..random.one_of(&[1, 1, 1, 2, 3]) {
        let last = bytes.len() - 1;
        let at = random.within(4.min(last), last);
        match (random.within(0, 7), &sound) {
            (0..=2, Some(book)) => {
                let roles = roles(book);
                let role = chosen(random, &roles, book.version);
                let places: Vec<usize> = (0..roles.len()).filter(|&k| roles[k] == role).collect();
                let value = value(random, role, book);
                if let Some(byte) =
                    places.get(random.within(0, places.len().max(1) - 1)).and_then(|k| bytes.get_mut(4 + k))
                {
                    *byte = value;
                }
            }
            (3, _) => bytes[at] = random.next() as u8,
            (4, _) => {
                bytes.remove(at);
            }
            (5, _) => bytes.insert(at, random.within(0, 8) as u8),
            (6, _) => bytes.truncate(at),
            _ => bytes.extend((0..random.within(1, 3)).map(|_| 0)),
        }
        if bytes.len() < 4 {
            return bytes;
        }
    }
    if random.once_in(8) {
        let at = random.within(0, 3);
        bytes[at] ^= 1 << random.within(0, 7);
    } else if !random.once_in(10) {
        mend(&mut bytes);
    }
    if random.once_in(30) {
        bytes.truncate(random.within(0, 4));
    }
    bytes
}
