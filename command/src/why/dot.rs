//! An explanation as a graph for Graphviz, drawn as source 003 draws one: a node for each literal, `+` where its atom
//! holds and `-` where it does not, edges to what it rests on, with the sign of the atom in the rule, and `assume`, `true`
//! and `false` below what rests on nothing else.

use std::collections::BTreeSet;

use super::tree::{Failed, Node, Why};
use super::view::View;

/// What stands under assumptions, facts and atoms without a rule.
const ASSUME: &str = "assume";
const FACT: &str = "true";
const NO_RULE: &str = "false";

/// The graph's text.
pub fn text(view: &View) -> String {
    let mut lines = BTreeSet::new();
    for node in &view.tree.nodes {
        lines.extend(edges(node, view));
    }
    let root = view.tree.nodes.last().map_or(String::new(), |root| drawn(root.literal, view));
    let body: String = lines.iter().map(|line| format!("  {line}\n")).collect();
    format!("digraph why {{\n  node [shape=ellipse];\n  {root} [penwidth=2];\n{body}}}\n")
}

fn quoted(text: &str) -> String {
    format!("\"{}\"", text.replace('\\', "\\\\").replace('"', "\\\""))
}

/// A literal as a node.
fn drawn(literal: i32, view: &View) -> String {
    quoted(&format!("{}{}", view.spelled(literal.abs()), if literal > 0 { "+" } else { "-" }))
}

fn edge(from: &str, to: &str, sign: char) -> String {
    format!("{from} -> {to} [label=\"{sign}\"];")
}

fn edges(node: &Node, view: &View) -> Vec<String> {
    let from = drawn(node.literal, view);
    let literal = |place: usize| view.tree.nodes[place].literal;
    let sign = |positive: bool| if positive { '+' } else { '-' };
    let body = |from: &str, below: &[usize]| -> Vec<String> {
        below.iter().map(|place| edge(from, &drawn(literal(*place), view), sign(literal(*place) > 0))).collect()
    };
    // A literal that fails stands in the rule with the other sign.
    let failing = |fails: &[Failed]| -> Vec<String> {
        let below = fails.iter().flat_map(|failed| &failed.below);
        below.map(|place| edge(&from, &drawn(literal(*place), view), sign(literal(*place) < 0))).collect()
    };
    match &node.why {
        Why::Rule { below, .. } if below.is_empty() => vec![edge(&from, FACT, '+')],
        Why::Rule { below, .. } => body(&from, below),
        Why::Taken { rule, below } => {
            let choice = quoted(&view.names.rule(&view.plain.rules[*rule]));
            let under = if below.is_empty() { vec![edge(&choice, FACT, '+')] } else { body(&choice, below) };
            [vec![format!("{choice} [shape=box];"), edge(&from, &choice, '+')], under].concat()
        }
        Why::Left { .. } | Why::Supposed => vec![edge(&from, ASSUME, sign(node.literal > 0))],
        Why::Fails(fails) if fails.is_empty() => vec![edge(&from, NO_RULE, '-')],
        Why::Fails(fails) => failing(fails),
        Why::Loop { set, fails } => [failing(fails), circle(set, view)].concat(),
        Why::Step { below, .. } | Why::Contrary { below, .. } => body(&from, below),
    }
}

/// The edges within a set that holds itself up: from each atom to those of the set that its rules lean on.
fn circle(set: &[i32], view: &View) -> Vec<String> {
    let leaned = |atom: &i32| {
        let bodies = view.plain.bodies_of(*atom).into_iter();
        let inside = bodies.filter_map(|body| view.plain.bodies[body].iter().find(|literal| set.binary_search(literal).is_ok()));
        let from = drawn(-atom, view);
        inside.map(|other| edge(&from, &drawn(-other, view), '+')).collect::<Vec<_>>()
    };
    set.iter().flat_map(leaned).collect()
}
