//! Rules, and programs of them as text.

use crate::joined;
use crate::random::Random;

/// A body, in the order in which it is written: literals, or literals each with its weight, and the bound that the weights are to reach.
#[derive(Clone, Debug, PartialEq, Eq)]
pub enum Body {
    Plain(Vec<i32>),
    Weights { bound: i32, pairs: Vec<(i32, i32)> },
}

/// A rule, with its heads and its body in the order in which they are written.
#[derive(Clone, Debug, PartialEq, Eq)]
pub struct Rule {
    pub choice: bool,
    pub heads: Vec<i32>,
    pub body: Body,
}

impl Body {
    pub fn literals(&self) -> Vec<i32> {
        match self {
            Body::Plain(literals) => literals.clone(),
            Body::Weights { pairs, .. } => pairs.iter().map(|(literal, _)| *literal).collect(),
        }
    }

    /// Puts another literal in the place of each.
    pub fn replace(&mut self, other: impl Fn(i32) -> i32) {
        match self {
            Body::Plain(literals) => literals.iter_mut().for_each(|literal| *literal = other(*literal)),
            Body::Weights { pairs, .. } => pairs.iter_mut().for_each(|pair| pair.0 = other(pair.0)),
        }
    }

    pub fn shuffle(&mut self, random: &mut Random) {
        match self {
            Body::Plain(literals) => random.shuffle(literals),
            Body::Weights { pairs, .. } => random.shuffle(pairs),
        }
    }
}

impl Rule {
    /// The words that it takes in the table.
    pub fn words(&self) -> usize {
        let body = match &self.body {
            Body::Plain(literals) => literals.len(),
            Body::Weights { pairs, .. } => 1 + 2 * pairs.len(),
        };
        4 + self.heads.len() + body
    }

    /// The bodies of the plain rules that it stands for, each ascending by atom.
    pub fn bodies(&self) -> Vec<Vec<i32>> {
        let mut bodies = match &self.body {
            Body::Plain(literals) => vec![literals.clone()],
            Body::Weights { bound, pairs } => minimal_sets(*bound, pairs),
        };
        bodies.iter_mut().for_each(|body| body.sort_by_key(|literal| literal.abs()));
        bodies
    }
}

/// The minimal sets of literals whose weights reach the bound. The literals are taken by falling weight: then none that was taken before the
/// bound is reached can be left out.
fn minimal_sets(bound: i32, pairs: &[(i32, i32)]) -> Vec<Vec<i32>> {
    let mut falling = pairs.to_vec();
    falling.sort_by_key(|(_, weight)| -weight);
    let mut sets = Vec::new();
    complete(bound, &falling, &mut Vec::new(), &mut sets);
    sets
}

/// The sets that begin with the chosen literals and reach what is left of the bound with others of the pairs.
fn complete(left: i32, pairs: &[(i32, i32)], chosen: &mut Vec<i32>, sets: &mut Vec<Vec<i32>>) {
    if left <= 0 {
        sets.push(chosen.clone());
    } else if let Some(((literal, weight), others)) = pairs.split_first() {
        if pairs.iter().map(|(_, weight)| weight).sum::<i32>() < left {
            return;
        }
        chosen.push(*literal);
        complete(left - weight, others, chosen, sets);
        chosen.pop();
        complete(left, others, chosen, sets);
    }
}

pub fn normal(head: i32, body: &[i32]) -> Rule {
    Rule { choice: false, heads: vec![head], body: Body::Plain(body.to_vec()) }
}

pub fn constraint(body: &[i32]) -> Rule {
    Rule { choice: false, heads: Vec::new(), body: Body::Plain(body.to_vec()) }
}

pub fn choice(heads: &[i32], body: &[i32]) -> Rule {
    Rule { choice: true, heads: heads.to_vec(), body: Body::Plain(body.to_vec()) }
}

/// A normal rule, or a constraint where there is no head, with a weight body.
pub fn weighted(heads: &[i32], bound: i32, pairs: &[(i32, i32)]) -> Rule {
    Rule { choice: false, heads: heads.to_vec(), body: Body::Weights { bound, pairs: pairs.to_vec() } }
}

/// The largest atom named, 0 where there is none.
pub fn largest_atom(rules: &[Rule]) -> i32 {
    let named = rules.iter().flat_map(|rule| [rule.heads.clone(), rule.body.literals()].concat());
    named.map(|literal| literal.abs()).max().unwrap_or(0)
}

/// The text of a program.
pub fn program_text(rules: &[Rule]) -> Vec<u8> {
    let lines: String = rules.iter().map(rule_line).collect();
    format!("asp 1 0 0\n{lines}0\n").into_bytes()
}

/// The line of a rule, with its newline.
pub fn rule_line(rule: &Rule) -> String {
    joined(&rule_row(rule)) + "\n"
}

/// The numbers in the line of a rule.
pub fn rule_row(rule: &Rule) -> Vec<i32> {
    let mut row = vec![1, i32::from(rule.choice), rule.heads.len() as i32];
    row.extend(&rule.heads);
    match &rule.body {
        Body::Plain(literals) => {
            row.extend([0, literals.len() as i32]);
            row.extend(literals);
        }
        Body::Weights { bound, pairs } => {
            row.extend([1, *bound, pairs.len() as i32]);
            row.extend(pairs.iter().flat_map(|(literal, weight)| [literal, weight]));
        }
    }
    row
}

#[cfg(test)]
mod tests {
    use super::*;

    #[test]
    fn text_of_each_kind() {
        let rules = [choice(&[3, 1], &[-2]), normal(1, &[4, -3]), constraint(&[]), weighted(&[1], 3, &[(3, 2), (-2, 4)])];
        let lines = "1 1 2 3 1 0 1 -2\n1 0 1 1 0 2 4 -3\n1 0 0 0 0\n1 0 1 1 1 3 2 3 2 -2 4\n";
        assert_eq!(program_text(&rules), format!("asp 1 0 0\n{lines}0\n").as_bytes());
        assert_eq!(rules.map(|rule| rule.words()), [7, 7, 4, 10]);
    }

    #[test]
    fn largest_atoms() {
        assert_eq!(largest_atom(&[]), 0);
        assert_eq!(largest_atom(&[choice(&[2, 5], &[]), constraint(&[-7, 1])]), 7);
        assert_eq!(largest_atom(&[weighted(&[2], 9, &[(-8, 0), (1, 1)])]), 8);
    }

    #[test]
    fn bodies_of_weights() {
        let bodies = |bound, pairs: &[(i32, i32)]| {
            let mut bodies = weighted(&[], bound, pairs).bodies();
            bodies.sort();
            bodies
        };
        assert_eq!(bodies(3, &[(4, 1), (2, 2), (3, 2)]), [vec![2, 3], vec![2, 4], vec![3, 4]]);
        assert_eq!(bodies(3, &[(2, 3), (-3, 2), (4, 1)]), [vec![-3, 4], vec![2]]);
        assert_eq!(bodies(2, &[(2, 2), (3, 0)]), [[2]]);
        assert_eq!(bodies(0, &[(2, 2), (3, 0)]), [[0; 0]]);
        assert_eq!(bodies(5, &[(2, 2), (3, 2)]), [[0; 0]; 0]);
        let twelve: Vec<(i32, i32)> = (1..=12).map(|atom| (atom, 1)).collect();
        assert_eq!(bodies(6, &twelve).len(), 924);
        assert_eq!(constraint(&[3, -1]).bodies(), [[-1, 3]]);
    }
}
