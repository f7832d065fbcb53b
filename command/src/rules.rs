//! The rules that a table's words stand for, the plain bodies of each, and rules as text.

use crate::library::Program;

/// A body: literals, or literals with weights and the bound that the weights are to reach.
#[derive(Debug, Clone, PartialEq, Eq)]
pub enum Body {
    Plain(Vec<i32>),
    Weights { bound: i32, pairs: Vec<(i32, i32)> },
}

/// The most literals of a sum that is not split.
pub const SHORT: usize = 12;

/// A rule, in the order of the table's words.
#[derive(Debug, Clone, PartialEq, Eq)]
pub struct Rule {
    pub choice: bool,
    pub heads: Vec<i32>,
    pub body: Body,
}

/// The rules of a program that the library has read.
pub fn rules(program: &Program) -> Vec<Rule> {
    let mut words = program.table.iter().copied();
    (0..program.rules).map(|_| rule(&mut words)).collect()
}

/// One rule from the words. The library leaves whole rules; a word that is missing would count as 0.
fn rule(words: &mut impl Iterator<Item = i32>) -> Rule {
    let mut next = || words.next().unwrap_or(0);
    let (choice, head_count, weighted, body_count) = (next() == 1, next(), next() == 1, next());
    let bound = if weighted { next() } else { 0 };
    let heads = (0..head_count).map(|_| next()).collect();
    let body = if weighted {
        Body::Weights { bound, pairs: (0..body_count).map(|_| (next(), next())).collect() }
    } else {
        Body::Plain((0..body_count).map(|_| next()).collect())
    };
    Rule { choice, heads, body }
}

/// Whether a literal holds in a set, which is ascending.
pub fn holds(literal: i32, set: &[u16]) -> bool {
    let is_in = u16::try_from(literal.saturating_abs()).is_ok_and(|atom| set.binary_search(&atom).is_ok());
    is_in == (literal > 0)
}

impl Rule {
    /// The rule of a line of a program text, its literals ascending by atom; none where it is no rule.
    pub fn of_line(line: &str) -> Option<Rule> {
        let numbers: Vec<i32> = line.split(' ').map(|word| word.parse().ok()).collect::<Option<_>>()?;
        let [1, kind @ (0 | 1), count, rest @ ..] = &numbers[..] else { return None };
        let (heads, body) = rest.split_at_checked(usize::try_from(*count).ok()?)?;
        let body = match body {
            [0, size, literals @ ..] if usize::try_from(*size) == Ok(literals.len()) => {
                let mut literals = literals.to_vec();
                literals.sort_by_key(|literal| literal.saturating_abs());
                Body::Plain(literals)
            }
            [1, bound, size, pairs @ ..] if usize::try_from(*size).ok()?.checked_mul(2) == Some(pairs.len()) => {
                let mut pairs: Vec<(i32, i32)> = pairs.chunks(2).map(|pair| (pair[0], pair[1])).collect();
                pairs.sort_by_key(|(literal, _)| literal.saturating_abs());
                Body::Weights { bound: *bound, pairs }
            }
            _ => return None,
        };
        let mut heads = heads.to_vec();
        heads.sort_unstable();
        Some(Rule { choice: *kind == 1, heads, body })
    }

    /// The bodies of the plain rules that it stands for, each ascending by atom.
    pub fn bodies(&self) -> Vec<Vec<i32>> {
        match &self.body {
            Body::Plain(literals) => vec![literals.clone()],
            Body::Weights { bound, pairs } => minimal_sets(*bound, pairs),
        }
    }

    /// The bound and the literals with weights of a sum.
    pub fn sum(&self) -> Option<(i32, &[(i32, i32)])> {
        match &self.body {
            Body::Plain(_) => None,
            Body::Weights { bound, pairs } => Some((*bound, pairs)),
        }
    }

    /// The atoms that it names.
    pub fn atoms(&self) -> Vec<i32> {
        let body: Vec<i32> = match &self.body {
            Body::Plain(literals) => literals.clone(),
            Body::Weights { pairs, .. } => pairs.iter().map(|(literal, _)| *literal).collect(),
        };
        self.heads.iter().chain(&body).map(|literal| literal.saturating_abs()).collect()
    }

    /// Whether its body is empty.
    pub fn is_empty(&self) -> bool {
        matches!(&self.body, Body::Plain(literals) if literals.is_empty())
    }

    /// Its line in a program text.
    pub fn line(&self) -> String {
        let mut numbers = vec![1, i32::from(self.choice), self.heads.len() as i32];
        numbers.extend(&self.heads);
        match &self.body {
            Body::Plain(literals) => {
                numbers.extend([0, literals.len() as i32]);
                numbers.extend(literals);
            }
            Body::Weights { bound, pairs } => {
                numbers.extend([1, *bound, pairs.len() as i32]);
                numbers.extend(pairs.iter().flat_map(|(literal, weight)| [literal, weight]));
            }
        }
        numbers.iter().map(i32::to_string).collect::<Vec<_>>().join(" ")
    }
}

/// The minimal sets of literals whose weights reach the bound. The literals are taken by falling weight: then none that was taken before the
/// bound is reached can be left out.
fn minimal_sets(bound: i32, pairs: &[(i32, i32)]) -> Vec<Vec<i32>> {
    let mut falling = pairs.to_vec();
    falling.sort_by_key(|(_, weight)| -weight);
    let mut sets = Vec::new();
    complete(bound, &falling, &mut Vec::new(), &mut sets);
    sets.iter_mut().for_each(|set| set.sort_by_key(|literal: &i32| literal.abs()));
    sets
}

/// The sets that begin with the chosen literals and reach what is left of the bound with others of the pairs.
fn complete(left: i32, pairs: &[(i32, i32)], chosen: &mut Vec<i32>, sets: &mut Vec<Vec<i32>>) {
    if left <= 0 {
        sets.push(chosen.clone());
    } else if let Some(((literal, weight), others)) = pairs.split_first() {
        if pairs.iter().map(|(_, weight)| weight).sum::<i32>() < left {
            return;
        }
        chosen.push(*literal);
        complete(left - weight, others, chosen, sets);
        chosen.pop();
        complete(left, others, chosen, sets);
    }
}

#[cfg(test)]
mod tests {
    use super::*;
    use crate::library::read_program;

    /// The rules of lines.
    pub fn read(lines: &[&str]) -> Vec<Rule> {
        let text = format!("asp 1 0 0\n{}\n0\n", lines.join("\n"));
        rules(&read_program(text.as_bytes(), 1_000).unwrap().unwrap())
    }

    #[test]
    fn literals_of_a_set() {
        let held = |literal: i32| holds(literal, &[1, 7, 32_768]);
        assert!([1, 7, -2, 32_768, -40_000, -70_000, i32::MIN].into_iter().all(held));
        assert!(![-1, -7, 2, -32_768, 40_000, 70_000, 65_543].into_iter().any(held));
    }

    #[test]
    fn rules_of_lines() {
        for line in ["1 1 2 1 3 0 1 -2", "1 0 1 1 0 2 -3 4", "1 0 0 0 0", "1 0 1 1 1 3 2 -2 4 3 2"] {
            assert_eq!(Rule::of_line(line).as_ref(), read(&[line]).first(), "{line}");
        }
        assert_eq!(Rule::of_line("1 1 2 3 1 0 2 -4 2").map(|rule| rule.line()), Some(String::from("1 1 2 1 3 0 2 2 -4")));
        for line in
            ["", "0", "2 0 1 1 1", "1 0 1 1 0 2 3", "1 0 9 1", "1 0 0 1 2 3 1 1", "1 0 0 2 0", "1 0 -1 0 0", "1 0 1 x 0 0", "1 0 0 1 2 -1"]
        {
            assert_eq!(Rule::of_line(line), None, "{line}");
        }
    }

    #[test]
    fn rules_of_a_table() {
        let lines = ["1 1 2 1 3 0 1 -2", "1 0 1 1 0 2 -3 4", "1 0 0 0 0", "1 0 1 1 1 3 2 -2 4 3 2"];
        let rules = read(&lines);
        assert_eq!(rules.iter().map(Rule::line).collect::<Vec<_>>(), lines);
        assert_eq!(rules[3].body, Body::Weights { bound: 3, pairs: vec![(-2, 4), (3, 2)] });
    }

    // The table of docs/FORMAT.md, "Weight bodies".
    #[test]
    fn bodies_of_weights() {
        let bodies = |line: &str| {
            let mut bodies = read(&[line])[0].bodies();
            bodies.sort();
            bodies
        };
        assert_eq!(bodies("1 0 0 1 3 3 2 2 3 2 4 1"), [[2, 3], [2, 4], [3, 4]]);
        assert_eq!(bodies("1 0 0 1 3 3 2 3 -3 2 4 1"), [vec![-3, 4], vec![2]]);
        assert_eq!(bodies("1 0 0 1 2 2 2 2 3 0"), [[2]]);
        assert_eq!(bodies("1 0 0 1 5 2 2 2 3 2"), [[0; 0]; 0]);
        assert_eq!(bodies("1 0 0 1 0 1 2 2"), [[0; 0]]);
        let twelve: String = (1..=12).map(|atom| format!(" {atom} 1")).collect();
        assert_eq!(bodies(&format!("1 0 0 1 6 12{twelve}")).len(), 924);
    }
}
