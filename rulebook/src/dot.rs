//! The story of a cyclic term as a picture for Graphviz: terms are ellipses, facts that carry them are boxes.

use crate::compile::Compiled;
use crate::show;
use crate::terms::Speller;
use crate::verdict::Judged;
use crate::why::story;
use std::fmt::Write;

fn quoted(text: &str) -> String {
    let escaped = text.replace('\\', "\\\\").replace('"', "\\\"").replace('\n', "\\n");
    format!("\"{escaped}\"")
}

/// A rule's number, and its place on a second line.
fn rule(compiled: &Compiled, number: usize) -> String {
    match compiled.names.rules.get(number).and_then(|rule| rule.line) {
        Some(line) => format!("rule {number}\n{}:{line}", compiled.names.file),
        None => format!("rule {number}"),
    }
}

/// The picture, where there is a cyclic term.
pub fn picture(compiled: &Compiled, judged: &Judged) -> Option<String> {
    let story = story(compiled, judged)?;
    let names = &compiled.names;
    let speller = Speller::new(&compiled.book, names, &story.terms);
    let mut out = String::from("digraph why {\n  rankdir=BT;\n  node [fontname=\"monospace\"];\n");
    _ = writeln!(out, "  edge [fontname=\"sans-serif\", fontsize=10];");
    _ = writeln!(out, "  label={};", quoted(&format!("{}: cyclic at depth {}", names.file, judged.depth.number())));
    _ = writeln!(out, "  from [label=\"⋆\"];");
    let mut below = "from".to_string();
    for (place, level) in story.levels.iter().enumerate() {
        let node = format!("t{place}");
        let style = if level.met.is_some() { ", color=red, penwidth=2" } else { "" };
        _ = writeln!(out, "  {node} [label={}{style}];", quoted(&speller.term(level.term)));
        let variable = show::variable(&compiled.book, names, level.function.rule, level.function.variable);
        let by = format!("{variable} of {}", rule(compiled, level.function.rule));
        _ = writeln!(out, "  {below} -> {node} [label={}, style=bold];", quoted(&by));
        below = node.clone();
        for (number, carrier) in level.carriers.iter().enumerate() {
            let box_node = format!("f{place}_{number}");
            _ = writeln!(out, "  {box_node} [shape=box, label={}];", quoted(&speller.fact(&carrier.fact)));
            let by = if number == 0 { String::new() } else { rule(compiled, carrier.rule) };
            _ = writeln!(out, "  {below} -> {box_node} [label={}];", quoted(&by));
            below = box_node;
        }
    }
    let again: Vec<usize> = (0..story.levels.len()).filter(|&place| story.levels[place].met.is_some()).collect();
    for pair in again.windows(2) {
        let function = names.function(story.levels[pair[1]].function);
        let label = quoted(&format!("{function} again"));
        _ = writeln!(out, "  t{} -> t{} [label={label}, style=dashed, color=red, constraint=false];", pair[0], pair[1]);
    }
    let used: Vec<usize> =
        story.levels.iter().flat_map(|level| level.over.iter().map(|o| o.1).chain([level.term])).collect();
    let meanings = speller.meanings(used);
    if !meanings.is_empty() {
        _ = writeln!(out, "  where [shape=note, label={}];", quoted(&meanings.join("\n")));
    }
    out.push_str("}\n");
    Some(out)
}
