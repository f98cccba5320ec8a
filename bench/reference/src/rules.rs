//! Rules with what their variables say of them, Skolem functions, and the order in which a join takes a body's atoms.

use crate::book::{set_of, Atom, Book, ARGUMENTS, VARIABLES};

#[derive(Clone, Copy, PartialEq, Eq, Debug)]
pub enum Kind {
    /// One disjunct, no existential variable (document 01: plain).
    Datalog,
    /// Two disjuncts or more, some of them without an existential variable (document 01: divided).
    Blockable,
    /// Each disjunct has an existential variable. No trigger of such a rule is blocked: a disjunct holds a Skolem term
    /// over the whole frontier, whose constants are the trigger's own, and the test set holds no term above these. Above
    /// rule constants it may hold one, and C-16 says that no such trigger is blocked either.
    Generating,
}

/// A join that starts with a fact for the atom `first`.
#[derive(Clone, Debug)]
pub struct Plan {
    pub first: usize,
    /// The other atoms in the order of the join.
    pub rest: Vec<usize>,
    /// How many of `rest` bind the variables that a trigger is told apart by; of the others one match is enough.
    pub front: usize,
}

#[derive(Clone, Debug)]
pub struct Rule {
    pub body: Vec<Atom>,
    pub disjuncts: Vec<Vec<Atom>>,
    pub kind: Kind,
    pub body_set: u8,
    pub frontier_set: u8,
    /// The frontier in rising variable number.
    pub frontier: Vec<u8>,
    /// The Skolem function of each existential variable, 0 for other arguments.
    pub marks: [u16; ARGUMENTS],
    /// One for each body atom.
    pub plans: Vec<Plan>,
}

/// Where a Skolem function comes from.
#[derive(Clone, Copy, Debug)]
pub struct Origin {
    pub rule: usize,
    pub disjunct: usize,
}

#[derive(Clone, Debug)]
pub struct RuleSet {
    pub arities: Vec<u8>,
    /// How many rule constants there are.
    pub constants: u8,
    pub rules: Vec<Rule>,
    /// Of Skolem function `m` at `m - 1`.
    pub origins: Vec<Origin>,
    /// For each predicate, the places (rule, plan) where it stands in the body of a Datalog rule.
    pub datalog: Vec<Vec<(usize, usize)>>,
}

pub fn members(set: u8) -> impl Iterator<Item = u8> {
    (0..VARIABLES as u8).filter(move |v| set >> v & 1 == 1)
}

fn plan(body: &[Atom], first: usize, wanted: u8) -> Plan {
    let mut bound = body[first].set();
    let mut left: Vec<usize> = (0..body.len()).filter(|&a| a != first).collect();
    let mut rest = Vec::new();
    let mut front = 0;
    while !left.is_empty() {
        let best = (0..left.len())
            .min_by_key(|&k| {
                let set = body[left[k]].set();
                let fresh = set & !bound;
                (fresh != 0, fresh & wanted == 0, set & bound == 0, fresh.count_ones(), left[k])
            })
            .unwrap();
        let atom = left.remove(best);
        if wanted & !bound != 0 || body[atom].set() & !bound == 0 && front == rest.len() {
            front = rest.len() + 1;
        }
        bound |= body[atom].set();
        rest.push(atom);
    }
    Plan { first, rest, front }
}

impl RuleSet {
    pub fn new(book: &Book) -> RuleSet {
        let mut rules = Vec::with_capacity(book.rules.len());
        let mut origins = Vec::new();
        let mut datalog = vec![Vec::new(); book.arities.len()];
        for (r, rule) in book.rules.iter().enumerate() {
            let body_set = set_of(&rule.body);
            let mut marks = [0; ARGUMENTS];
            let mut head_set = 0;
            let mut plain_disjuncts = 0;
            for (d, disjunct) in rule.disjuncts.iter().enumerate() {
                let set = set_of(disjunct);
                head_set |= set;
                for v in members(set & !body_set) {
                    origins.push(Origin { rule: r, disjunct: d });
                    marks[v as usize] = origins.len() as u16;
                }
                if set & !body_set == 0 {
                    plain_disjuncts += 1;
                }
            }
            let kind = match (rule.disjuncts.len(), plain_disjuncts) {
                (1, 1) => Kind::Datalog,
                (_, 0) => Kind::Generating,
                _ => Kind::Blockable,
            };
            let frontier_set = body_set & head_set;
            let wanted = if kind == Kind::Blockable { body_set } else { frontier_set };
            let plans: Vec<Plan> = (0..rule.body.len()).map(|a| plan(&rule.body, a, wanted)).collect();
            if kind == Kind::Datalog {
                for (a, atom) in rule.body.iter().enumerate() {
                    datalog[atom.predicate as usize].push((r, a));
                }
            }
            rules.push(Rule {
                body: rule.body.clone(),
                disjuncts: rule.disjuncts.clone(),
                kind,
                body_set,
                frontier_set,
                frontier: members(frontier_set).collect(),
                marks,
                plans,
            });
        }
        RuleSet { arities: book.arities.clone(), constants: book.constants, rules, origins, datalog }
    }
}
