//! Ground constraints by names. An atom without a name, as gringo makes them for sums and for bounds of choices, is
//! spelled by the bodies of its rules; a fact without a name is left out.

use std::collections::HashMap;

use crate::names::Names;
use crate::rules::{Body, Rule};

/// How deep bodies stand in bodies, and how many an atom may have, to be spelled.
const DEPTH: usize = 4;
const MOST_BODIES: usize = 3;

pub struct Spelling<'a> {
    names: &'a Names,
    /// The bodies of each atom without a name; none where it may be chosen.
    bodies: HashMap<i32, Option<Vec<&'a Body>>>,
}

impl<'a> Spelling<'a> {
    pub fn of(names: &'a Names, rules: impl Iterator<Item = &'a Rule>) -> Spelling<'a> {
        let mut bodies: HashMap<i32, Option<Vec<&Body>>> = HashMap::new();
        for rule in rules {
            for head in &rule.heads {
                let known = bodies.entry(*head).or_insert(Some(Vec::new()));
                match known {
                    Some(list) if !rule.choice => list.push(&rule.body),
                    _ => *known = None,
                }
            }
        }
        bodies.retain(|atom, _| !names.has(*atom));
        Spelling { names, bodies }
    }

    /// A constraint.
    pub fn constraint(&self, rule: &Rule) -> String {
        let text = format!(":- {}.", self.body(&rule.body, DEPTH).join(", "));
        text.replace(":- .", ":-.")
    }

    /// An atom.
    pub fn atom(&self, atom: i32) -> String {
        self.literal(atom, DEPTH).unwrap_or_else(|| self.plain(atom))
    }

    /// A sum, its literals by name.
    pub fn sum(&self, bound: i32, pairs: Vec<(i32, i32)>) -> String {
        self.body(&Body::Weights { bound, pairs }, 0).join(", ")
    }

    /// The literals of a body, facts left out.
    fn body(&self, body: &Body, depth: usize) -> Vec<String> {
        match body {
            Body::Plain(literals) => literals.iter().filter_map(|literal| self.literal(*literal, depth)).collect(),
            Body::Weights { bound, pairs } => {
                let literal = |literal: i32| self.literal(literal, 0).unwrap_or(self.plain(literal));
                if pairs.iter().all(|(_, weight)| *weight == 1) {
                    let elements: Vec<String> = pairs.iter().map(|(of, _)| literal(*of)).collect();
                    return vec![format!("{bound} {{ {} }}", elements.join("; "))];
                }
                let elements: Vec<String> = pairs.iter().map(|(of, weight)| format!("{weight}: {}", literal(*of))).collect();
                vec![format!("#sum {{ {} }} >= {bound}", elements.join("; "))]
            }
        }
    }

    /// A literal; none where it is a fact without a name.
    fn literal(&self, literal: i32, depth: usize) -> Option<String> {
        let sign = if literal < 0 { "not " } else { "" };
        let Some(Some(bodies)) = self.bodies.get(&literal.abs()) else { return Some(self.plain(literal)) };
        if literal > 0 && bodies.iter().any(|body| matches!(body, Body::Plain(literals) if literals.is_empty())) {
            return None;
        }
        if depth == 0 || bodies.is_empty() || bodies.len() > MOST_BODIES {
            return Some(self.plain(literal));
        }
        let spelled: Vec<Vec<String>> = bodies.iter().map(|body| self.body(body, depth - 1)).collect();
        if let [only] = &spelled[..] {
            if only.len() == 1 && (literal > 0 || !only[0].starts_with("not ")) {
                return Some(format!("{sign}{}", only[0]));
            }
        }
        let alternatives: Vec<String> = spelled.iter().map(|literals| literals.join(", ")).collect();
        Some(format!("{sign}({})", alternatives.join(" or ")))
    }

    fn plain(&self, literal: i32) -> String {
        format!("{}{}", if literal < 0 { "not " } else { "" }, self.names.of(literal.abs()))
    }
}

#[cfg(test)]
mod tests {
    use super::*;

    fn plain(literals: &[i32]) -> Body {
        Body::Plain(literals.to_vec())
    }

    fn rule(head: i32, body: Body) -> Rule {
        Rule { choice: false, heads: vec![head], body }
    }

    #[test]
    fn atoms_without_a_name() {
        let mut names = Names::default();
        for line in ["4 1 a 1 1", "4 1 b 1 2"] {
            names.take(line.as_bytes());
        }
        let ones = |bound| Body::Weights { bound, pairs: vec![(1, 1), (2, 1)] };
        let rules = [
            rule(3, plain(&[])),
            rule(4, ones(1)),
            rule(5, ones(2)),
            rule(6, plain(&[4, -5])),
            rule(7, plain(&[1])),
            rule(7, plain(&[-2])),
            rule(8, Body::Weights { bound: 3, pairs: vec![(-1, 2), (2, 3)] }),
            Rule { choice: true, heads: vec![9], body: plain(&[]) },
            rule(10, plain(&[10])),
        ];
        let spelling = Spelling::of(&names, rules.iter());
        for (literals, text) in [
            (&[1, -2][..], ":- a, not b."),
            (&[3, 1], ":- a."),
            (&[3], ":-."),
            (&[3, -6], ":- not (1 { a; b }, not 2 { a; b })."),
            (&[4, -5], ":- 1 { a; b }, not 2 { a; b }."),
            (&[7, -7], ":- (a or not b), not (a or not b)."),
            (&[8, 9, 11], ":- #sum { 2: not a; 3: b } >= 3, #9, #11."),
            (&[10], ":- #10."),
        ] {
            assert_eq!(spelling.constraint(&Rule { choice: false, heads: Vec::new(), body: plain(literals) }), text);
        }
    }
}
