//! Why a book is cyclic, from the inside of the term outwards; or what was large where the library refuses a sound book.
//!
//! The term and its levels are the library's. What carried a term from one level to the next, and what was large, is found
//! by a second run (`again`), and told only where that run came to the library's own end.

use crate::again::{self, Again, End, Origin, Trigger};
use crate::book::{Book, Function, Rule};
use crate::compile::Compiled;
use crate::facts::{row, Row, FREE};
use crate::show;
use crate::terms::{Fact, Listing, Speller, Term};
use crate::verdict::{counted, figure, legend, refused, Judged};
use rulfjen::{Refusal, Verdict};
use std::fmt::Write;

/// A fact that carries a term, and what made it.
pub struct Carrier {
    pub fact: Fact,
    pub rule: usize,
    pub disjunct: usize,
}

/// One level of the cyclic term.
pub struct Level {
    /// Its number, the cyclic term being the last.
    pub term: usize,
    pub function: Function,
    /// The frontier's variables and their terms.
    pub over: Vec<(usize, usize)>,
    /// From the fact that has the level's term first to the one that the next level's rule matches.
    pub carriers: Vec<Carrier>,
    /// How often the term's outermost function was met so far, where this level has it.
    pub met: Option<usize>,
}

pub struct Story {
    pub levels: Vec<Level>,
    pub terms: Vec<Term>,
    /// Whether the carriers are known.
    pub carried: bool,
}

/// The numbers of the terms on one way down that meets the outermost function most often, the innermost first.
fn way(terms: &[Term]) -> Vec<usize> {
    let Some(root) = terms.len().checked_sub(1) else { return Vec::new() };
    let function = terms[root].function;
    let mut met = vec![0usize; terms.len()];
    for number in 0..terms.len() {
        let below = terms[number].arguments.iter().map(|&a| met[a]).max().unwrap_or(0);
        met[number] = below + (terms[number].function == function) as usize;
    }
    let mut way = vec![root];
    let mut at = root;
    while let Some(&first) = terms[at].arguments.first() {
        let most = terms[at].arguments.iter().map(|&a| met[a]).max().unwrap_or(0);
        at = terms[at].arguments.iter().copied().find(|&a| met[a] == most).unwrap_or(first);
        way.push(at);
    }
    way.reverse();
    way
}

/// The second run, if its end and its tables are the library's.
pub fn run_again(compiled: &Compiled, judged: &Judged) -> Option<Again> {
    let again = again::run(&compiled.book, judged.depth.number()).ok()?;
    let same = match (&judged.verdict, &again.end) {
        (Verdict::Accepted { stage, .. }, End::Accepted) => {
            *stage == again.stage && same_tables(compiled, judged, &again)
        }
        (Verdict::Cyclic { stage, .. }, End::Cyclic(_, term)) => {
            *stage == again.stage && judged.shown.as_ref() == Some(term) && same_tables(compiled, judged, &again)
        }
        (Verdict::Refused(refusal), end) => {
            let number = match end {
                End::TooManyPlaces(..) => 11,
                End::TestTooLarge(..) => 12,
                End::TooManyFacts => 13,
                End::TooManyTerms => 14,
                _ => 0,
            };
            (refusal.number, refusal.place) == (number, again.stage)
        }
        _ => false,
    };
    same.then_some(again)
}

fn same_tables(compiled: &Compiled, judged: &Judged, again: &Again) -> bool {
    let facts = again.facts.rows.iter().map(|row| fact_of(&compiled.book, row)).collect();
    judged.listing == Listing { terms: again.terms.clone(), facts }
}

fn fact_of(book: &Book, row: &Row) -> Fact {
    Fact { predicate: row.0, arguments: row.1[..book.arities[row.0]].to_vec() }
}

/// The facts of a trigger's body that hold a term: their places, the lowest first.
fn holding(book: &Book, again: &Again, trigger: &Trigger, term: usize) -> Option<usize> {
    let rows = book.rules[trigger.rule].body.iter().map(|atom| (atom, row(atom, &trigger.terms)));
    let with = rows.filter(|(atom, row)| row.1[..atom.variables.len()].contains(&term));
    with.filter_map(|(_, row)| again.facts.place(&row)).min()
}

/// From the fact that has a term first to the one that a trigger matches.
fn carriers(book: &Book, again: &Again, term: usize, trigger: &Trigger) -> Vec<Carrier> {
    let mut carriers = Vec::new();
    let mut trigger = *trigger;
    while let Some(place) = holding(book, again, &trigger, term) {
        let (Some(row), Some(Some(origin))) = (again.facts.rows.get(place), again.origins.get(place)) else { break };
        let Origin { trigger: made, disjunct } = *origin;
        carriers.push(Carrier { fact: fact_of(book, row), rule: made.rule, disjunct });
        trigger = made;
    }
    carriers.reverse();
    carriers
}

/// The trigger that made a term: that of the first fact which holds it.
fn maker(book: &Book, again: &Again, term: usize) -> Option<Trigger> {
    let rows = &again.facts.rows;
    let place = rows.iter().position(|row| row.1[..book.arities[row.0]].contains(&term))?;
    Some((*again.origins.get(place)?)?.trigger)
}

pub fn story(compiled: &Compiled, judged: &Judged) -> Option<Story> {
    let book = &compiled.book;
    let mut terms = judged.listing.terms.clone();
    terms.push(judged.shown.clone()?);
    let again = run_again(compiled, judged);
    let functions = book.functions();
    let way = way(&terms);
    let outermost = terms[terms.len() - 1].function;
    let mut levels: Vec<Level> = Vec::new();
    let mut met = 0;
    for &number in &way {
        let term = &terms[number];
        let Some(&function) = term.function.checked_sub(1).and_then(|function| functions.get(function)) else {
            continue;
        };
        let made = again.as_ref().and_then(|again| match &again.end {
            End::Cyclic(trigger, _) if number + 1 == terms.len() => Some(*trigger),
            _ => maker(book, again, number),
        });
        if let (Some(below), Some(made), Some(again)) = (levels.last_mut(), &made, &again) {
            below.carriers = carriers(book, again, below.term, made);
        }
        let over = book.rules[function.rule].frontier().into_iter().zip(term.arguments.iter().copied()).collect();
        met += (term.function == outermost) as usize;
        let met = (term.function == outermost).then_some(met);
        levels.push(Level { term: number, function, over, carriers: Vec::new(), met });
    }
    Some(Story { levels, terms, carried: again.is_some() })
}

fn bindings(compiled: &Compiled, speller: &Speller, rule: usize, over: &[(usize, usize)]) -> String {
    let one = |&(variable, term): &(usize, usize)| {
        format!("{} = {}", show::variable(&compiled.book, &compiled.names, rule, variable), speller.term(term))
    };
    over.iter().map(one).collect::<Vec<_>>().join(", ")
}

/// A rule, and which of its disjuncts, if it has several.
pub fn source_of(compiled: &Compiled, rule: usize, disjunct: usize) -> String {
    let place = compiled.names.rule(rule);
    match compiled.book.rules[rule].disjuncts.len() {
        1 => place,
        _ => format!("{place}, alternative {disjunct},"),
    }
}

const BETWEEN: &str =
    "(Terms and levels are the library's; what lies between two levels was found by a run that is not proved.)\n";
const SECOND_RUN: &str = "(What follows was found by a second run that is not proved; the verdict is the library's.)\n";

fn cyclic(compiled: &Compiled, judged: &Judged, stage: usize, out: &mut String) {
    let Compiled { book, names, .. } = compiled;
    let depth = judged.depth.number();
    _ = writeln!(out, "{}: cyclic at stage {stage}, depth {depth}", names.file);
    out.push_str(
        "A new thing is made out of one that the same rule made. This does not say that filling never ends.\n",
    );
    let Some(story) = story(compiled, judged) else { return };
    let speller = Speller::new(book, names, &story.terms);
    match story.carried {
        true => out.push_str(BETWEEN),
        false => _ = writeln!(out, "(What lies between two levels {NOT_FOUND}.)"),
    }
    out.push_str("From the inside out, ⋆ being any name of the archive:\n");
    for (place, level) in story.levels.iter().enumerate() {
        let Function { rule, disjunct, variable } = level.function;
        let variable = show::variable(book, names, rule, variable);
        _ = writeln!(out, "{}. {}", place + 1, speller.term(level.term));
        let source = source_of(compiled, rule, disjunct);
        let over = bindings(compiled, &speller, rule, &level.over);
        _ = writeln!(out, "   made by {variable} of {source} with {over}");
        _ = writeln!(out, "     {}", show::rule(book, names, rule));
        match level.met {
            Some(1) => _ = writeln!(out, "   the first {} on this way", names.function(level.function)),
            Some(count) if count > depth => {
                let function = names.function(level.function);
                _ = writeln!(out, "   {function} again, {count} times on one way: cyclic at depth {depth}");
            }
            Some(count) => _ = writeln!(out, "   {} again, {count} times", names.function(level.function)),
            None => {}
        }
        for (number, carrier) in level.carriers.iter().enumerate() {
            let gives = if book.rules[carrier.rule].disjuncts.len() > 1 { "may give" } else { "gives" };
            let source = match number {
                0 => "which".to_string(),
                _ => source_of(compiled, carrier.rule, carrier.disjunct),
            };
            _ = writeln!(out, "   {source} {gives} {}", speller.fact(&carrier.fact));
        }
    }
    let used: Vec<usize> =
        story.levels.iter().flat_map(|level| level.over.iter().map(|o| o.1).chain([level.term])).collect();
    let meanings = speller.meanings(used);
    if !meanings.is_empty() {
        out.push_str("where\n");
        meanings.iter().for_each(|line| _ = writeln!(out, "  {line}"));
    }
}

/// The largest of some counts, with what they are counts of.
fn largest(counts: &[usize], name: impl Fn(usize) -> String, out: &mut String) {
    let mut order: Vec<usize> = (0..counts.len()).filter(|&place| counts[place] > 0).collect();
    order.sort_by_key(|&place| (std::cmp::Reverse(counts[place]), place));
    for &place in order.iter().take(5) {
        _ = writeln!(out, "  {} {}", figure(counts[place] as u64), name(place));
    }
    if let rest @ 1.. = order.iter().skip(5).map(|&place| counts[place]).sum::<usize>() {
        _ = writeln!(out, "  {} others", figure(rest as u64));
    }
}

fn matched(compiled: &Compiled, speller: &Speller, trigger: &Trigger, out: &mut String) {
    let Compiled { book, names, .. } = compiled;
    _ = writeln!(
        out,
        "The rule is {}, which is divided, so that each of its matches is tested:",
        names.rule(trigger.rule)
    );
    _ = writeln!(out, "  {}", show::rule(book, names, trigger.rule));
    out.push_str("The match:\n");
    for (variable, &term) in trigger.terms.iter().enumerate().filter(|(_, &term)| term != FREE) {
        let name = show::variable(book, names, trigger.rule, variable);
        let places = speller.size(term);
        let places = match usize::try_from(places) {
            Ok(places) if places < usize::MAX => counted(places, "place"),
            _ => "more places than can be counted".to_string(),
        };
        _ = writeln!(out, "  {name} = {} ({places})", speller.term(term));
    }
    let used: Vec<usize> = trigger.terms.iter().copied().filter(|&term| term != FREE).collect();
    speller.meanings(used).iter().for_each(|line| _ = writeln!(out, "  {line}"));
}

fn large(compiled: &Compiled, again: &Again, out: &mut String) {
    let Compiled { book, names, .. } = compiled;
    let speller = Speller::new(book, names, &again.terms);
    let least = if again.more { "at least " } else { "" };
    out.push_str(SECOND_RUN);
    match &again.end {
        End::TooManyPlaces(trigger, places) => {
            _ = writeln!(out, "A match has {} places, and may have 64.", figure(*places));
            matched(compiled, &speller, trigger, out);
        }
        End::TestTooLarge(trigger, counts) => {
            out.push_str("What must hold wherever one match holds, its closed set, passes 1,024 facts.\n");
            out.push_str("By then it has, by predicate:\n");
            largest(counts, |predicate| names.predicate(predicate).to_string(), out);
            matched(compiled, &speller, trigger, out);
        }
        End::TooManyFacts | End::TooManyTerms => {
            let (facts, terms) = (counted(again.facts.rows.len(), "fact"), counted(again.terms.len(), "term"));
            _ = writeln!(out, "The stage has {least}{facts} and {terms}; 2,048 and 512 are allowed.");
            out.push_str("Facts by predicate:\n");
            let mut counts = vec![0; book.arities.len()];
            again.facts.rows.iter().for_each(|row| counts[row.0] += 1);
            largest(&counts, |predicate| names.predicate(predicate).to_string(), out);
            out.push_str("Facts by the rule that made them:\n");
            let mut counts = vec![0; book.rules.len()];
            again.origins.iter().flatten().for_each(|origin| counts[origin.trigger.rule] += 1);
            largest(&counts, |rule| names.rule(rule), out);
            if again.end == End::TooManyTerms {
                out.push_str("Terms by their function:\n");
                let functions = book.functions();
                let mut counts = vec![0; functions.len() + 1];
                again.terms.iter().for_each(|term| counts[term.function] += 1);
                let name = |function: usize| match function {
                    0 => "⋆".to_string(),
                    _ => names.function(functions[function - 1]),
                };
                largest(&counts, name, out);
                legend(compiled, &speller.functions_in(0..again.terms.len()), out);
            }
        }
        _ => {}
    }
}

const NOT_FOUND: &str = "was not found: a second run would take too long, or came to another end";

/// What can be said of a refusal without a second run: the rules that the limit is about, where they are not all.
fn concerned(compiled: &Compiled, number: u8, out: &mut String) {
    let Compiled { book, names, .. } = compiled;
    _ = writeln!(out, "What was large {NOT_FOUND}.");
    let (says, concerned): (&str, fn(&Rule) -> bool) = match number {
        11 | 12 => ("Divided rules, whose matches are tested:", Rule::is_blockable),
        14 => ("Rules with new variables:", |rule| (0..rule.disjuncts.len()).any(|d| !rule.existential(d).is_empty())),
        _ => return,
    };
    _ = writeln!(out, "{says}");
    for rule in (0..book.rules.len()).filter(|&rule| concerned(&book.rules[rule])) {
        _ = writeln!(out, "  {}: {}", names.rule(rule), show::rule(book, names, rule));
    }
}

pub fn words(compiled: &Compiled, judged: &Judged) -> String {
    let mut out = String::new();
    match judged.verdict {
        Verdict::Accepted { .. } => {
            _ = writeln!(out, "{}: accepted", compiled.names.file);
            out.push_str("Every archive that is filled by these rules comes to an end: no term is cyclic.\n");
        }
        Verdict::Cyclic { stage, .. } => cyclic(compiled, judged, stage, &mut out),
        Verdict::Refused(refusal @ Refusal { number, .. }) => {
            out.push_str(&refused(&compiled.names.file, refusal));
            match run_again(compiled, judged) {
                Some(again) => large(compiled, &again, &mut out),
                None => concerned(compiled, number, &mut out),
            }
        }
    }
    out
}
