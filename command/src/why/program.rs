//! The plain rules of a program, by head and by literal: those with a weight body stand here with each of their minimal
//! sets as a body.

use std::collections::{BTreeSet, HashMap};

use crate::rules::{Body, Rule};

/// A plain rule that can give an atom: the rule it is of, counted from 0, its body, and whether it is a choice.
#[derive(Debug, Clone, Copy, PartialEq, Eq)]
pub struct Support {
    pub head: i32,
    pub rule: usize,
    pub body: usize,
    pub choice: bool,
}

pub struct Plain {
    /// N, the largest atom.
    pub atoms: usize,
    pub rules: Vec<Rule>,
    /// The different bodies of rules that have heads, each ascending by atom.
    pub bodies: Vec<Vec<i32>>,
    /// By body, what it can give.
    pub given: Vec<Vec<Support>>,
    /// By atom, what can give it.
    pub supports: Vec<Vec<Support>>,
    /// By atom, the bodies that have it, and those that have it negated.
    positive: Vec<Vec<usize>>,
    negative: Vec<Vec<usize>>,
}

impl Plain {
    pub fn of(rules: Vec<Rule>, atoms: usize) -> Plain {
        let none = || vec![Vec::new(); atoms + 1];
        let (bodies, given) = (Vec::new(), Vec::new());
        let mut plain = Plain { atoms, rules, bodies, given, supports: vec![Vec::new(); atoms + 1], positive: none(), negative: none() };
        let mut numbers: HashMap<Vec<i32>, usize> = HashMap::new();
        for place in 0..plain.rules.len() {
            let rule = &plain.rules[place];
            let (heads, choice) = (rule.heads.clone(), rule.choice);
            let bodies = if heads.is_empty() { Vec::new() } else { rule.bodies() };
            for literals in bodies {
                let body = *numbers.entry(literals).or_insert_with_key(|literals| plain.take_body(literals));
                for head in &heads {
                    let support = Support { head: *head, rule: place, body, choice };
                    plain.given[body].push(support);
                    plain.supports[*head as usize].push(support);
                }
            }
        }
        plain
    }

    fn take_body(&mut self, literals: &[i32]) -> usize {
        let body = self.bodies.len();
        for literal in literals {
            let list = if *literal > 0 { &mut self.positive } else { &mut self.negative };
            list[literal.unsigned_abs() as usize].push(body);
        }
        self.bodies.push(literals.to_vec());
        self.given.push(Vec::new());
        body
    }

    /// The bodies that a literal stands in.
    pub fn with(&self, literal: i32) -> &[usize] {
        let list = if literal > 0 { &self.positive } else { &self.negative };
        &list[literal.unsigned_abs() as usize]
    }

    /// The different bodies of the rules for an atom.
    pub fn bodies_of(&self, atom: i32) -> BTreeSet<usize> {
        self.supports[atom as usize].iter().map(|support| support.body).collect()
    }

    /// The different bodies of the rules that have a head in a set and no positive atom in it. The set is ascending.
    pub fn external_bodies(&self, set: &[i32]) -> BTreeSet<usize> {
        let leans = |body: &usize| self.bodies[*body].iter().any(|literal| set.binary_search(literal).is_ok());
        set.iter().flat_map(|atom| self.bodies_of(*atom)).filter(|body| !leans(body)).collect()
    }

    /// The choice rules for an atom.
    pub fn choices_of(&self, atom: i32) -> Vec<usize> {
        let mut rules: Vec<usize> =
            self.supports[atom as usize].iter().filter(|support| support.choice).map(|support| support.rule).collect();
        rules.dedup();
        rules
    }

    /// Whether the rule is a fact.
    pub fn is_fact(&self, rule: usize) -> bool {
        self.rules[rule].is_empty() && !self.rules[rule].choice
    }

    /// Whether the rule has a sum in its body.
    pub fn is_sum(&self, rule: usize) -> bool {
        matches!(self.rules[rule].body, Body::Weights { .. })
    }
}

#[cfg(test)]
pub mod tests {
    use super::*;
    use crate::library::read_program;
    use crate::rules::rules;

    /// The rules of lines.
    pub fn plain(lines: &[&str]) -> Plain {
        let text = format!("asp 1 0 0\n{}\n0\n", lines.join("\n"));
        let program = read_program(text.as_bytes(), 10_000).unwrap().unwrap();
        Plain::of(rules(&program), program.atoms)
    }

    #[test]
    fn rules_by_head_and_literal() {
        // {1; 2} :- not 3. 2 :- 1, not 3. :- 1. 4 :- 2 { 1; 2; 3 }. 3 :- not 3.
        let plain = plain(&["1 1 2 1 2 0 1 -3", "1 0 1 2 0 2 1 -3", "1 0 0 0 1 1", "1 0 1 4 1 2 3 1 1 2 1 3 1", "1 0 1 3 0 1 -3"]);
        assert_eq!(plain.bodies, [vec![-3], vec![1, -3], vec![1, 2], vec![1, 3], vec![2, 3]]);
        assert_eq!(plain.supports[2].iter().map(|support| (support.rule, support.choice)).collect::<Vec<_>>(), [(0, true), (1, false)]);
        assert_eq!(plain.given[0].iter().map(|support| support.head).collect::<Vec<_>>(), [1, 2, 3]);
        assert_eq!((plain.with(1), plain.with(-3), plain.with(4)), (&[1, 2, 3][..], &[0, 1][..], &[][..]));
        assert_eq!(plain.bodies_of(4).into_iter().collect::<Vec<_>>(), [2, 3, 4]);
        assert_eq!(plain.external_bodies(&[2, 4]).into_iter().collect::<Vec<_>>(), [0, 1, 3]);
        assert!(plain.is_sum(3) && !plain.is_sum(0) && !plain.is_fact(0));
    }
}
