//! Programs: random small ones of several flavours, and a few known hard ones.

use crate::random::Random;
use crate::rules::{choice, constraint, largest_atom, normal, weighted, Body, Rule};

/// A random small program of a random flavour.
pub fn small(random: &mut Random) -> Vec<Rule> {
    match random.below(8) {
        0 | 1 => mixed(random, 6, [15, 15, 20], 40),
        2 => mixed(random, 5, [5, 10, 5], 70),
        3 => mixed(random, 7, [5, 20, 15], 10),
        4 => choices_and_constraints(random),
        5 => looping(random),
        6 => reaching(random),
        _ => mixed(random, 3, [10, 30, 20], 50),
    }
}

/// Gives the atoms other numbers up to 12, so that some numbers are no rule's.
pub fn scatter(rules: &mut [Rule], random: &mut Random) {
    let mut numbers: Vec<i32> = (1..=12).collect();
    random.shuffle(&mut numbers);
    let moved = |literal: i32| numbers[literal.unsigned_abs() as usize - 1] * literal.signum();
    for rule in rules {
        rule.heads.iter_mut().for_each(|head| *head = moved(*head));
        rule.body.replace(moved);
    }
}

/// Gives the bodies of some rules weights, with a few literals more.
pub fn weigh(rules: &mut [Rule], random: &mut Random) {
    let atoms = largest_atom(rules).max(1);
    for rule in rules {
        if random.percent(40) {
            let mut literals = rule.body.literals();
            for literal in random.literals(3, atoms) {
                if !literals.contains(&literal) && !literals.contains(&-literal) {
                    literals.push(literal);
                }
            }
            rule.body = weight_body(&literals, random);
        }
    }
}

/// Literals with weights of a random size, some of them 0, and a bound of every kind: 0, one that a single literal reaches, one that only all
/// of them reach or just miss, and any between.
pub fn weight_body(literals: &[i32], random: &mut Random) -> Body {
    let largest = *random.pick(&[1, 2, 3, 3, 3, 9, 4_095]);
    let pairs: Vec<(i32, i32)> = literals.iter().map(|literal| (*literal, random.between(0, largest))).collect();
    let sum: i32 = pairs.iter().map(|(_, weight)| weight).sum();
    let bound = match random.below(10) {
        0 => 0,
        1 => sum,
        2 => sum + 1,
        3 => pairs.first().map_or(1, |(_, weight)| *weight),
        _ => random.between(0, sum),
    };
    Body::Weights { bound: bound.min(4_095), pairs }
}

/// Atoms that are chosen and atoms that follow by weights, and weight constraints that ask for much of them and for little.
pub fn weights(random: &mut Random) -> Vec<Rule> {
    let atoms = if random.percent(4) { 12 } else { random.between(2, 6) };
    let chosen = random.between(1, atoms);
    let mut rules = vec![choice(&(1..=chosen).collect::<Vec<_>>(), &[])];
    for head in chosen + 1..=atoms {
        let length = random.between(1, 4) as usize;
        let body = weight_body(&literals(random, length, atoms, 25), random);
        rules.push(Rule { choice: random.percent(20), heads: vec![head], body });
    }
    for _ in 0..random.between(1, 3) {
        let length = random.between(2, atoms) as usize;
        let negated = *random.pick(&[0, 100, 50]);
        let pairs: Vec<(i32, i32)> =
            literals(random, length, atoms, negated).into_iter().map(|literal| (literal, random.between(1, 4))).collect();
        let sum: i32 = pairs.iter().map(|(_, weight)| weight).sum();
        rules.push(weighted(&[], random.between(sum / 3 + 1, sum), &pairs));
    }
    if random.percent(40) {
        rules.push(constraint(&random.literals(2, atoms)));
    }
    random.shuffle(&mut rules);
    rules
}

/// Rules of all kinds: so many in a hundred are facts, constraints and choice rules, and so many literals are negated.
fn mixed(random: &mut Random, most_atoms: i32, kinds: [usize; 3], negated: usize) -> Vec<Rule> {
    let atoms = random.between(1, most_atoms);
    let count = random.between(1, 2 * atoms + 3);
    (0..count).map(|_| mixed_rule(random, atoms, kinds, negated)).collect()
}

fn mixed_rule(random: &mut Random, atoms: i32, kinds: [usize; 3], negated: usize) -> Rule {
    let kind = random.below(100);
    let length = random.below(4);
    let body = literals(random, length, atoms, negated);
    let head = random.between(1, atoms);
    if kind < kinds[0] {
        normal(head, &[])
    } else if kind < kinds[0] + kinds[1] {
        constraint(&body)
    } else if kind < kinds[0] + kinds[1] + kinds[2] {
        let heads = random.between(1, 3) as usize;
        choice(&random.different(heads, atoms), &body)
    } else {
        normal(head, &body)
    }
}

/// Literals over different atoms, so many in a hundred of them negated.
pub fn literals(random: &mut Random, count: usize, atoms: i32, negated: usize) -> Vec<i32> {
    let chosen = random.different(count, atoms);
    chosen.into_iter().map(|atom| if random.percent(negated) { -atom } else { atom }).collect()
}

/// A choice over all atoms and enough constraints that often nothing is left.
fn choices_and_constraints(random: &mut Random) -> Vec<Rule> {
    let atoms = random.between(2, 6);
    let mut heads: Vec<i32> = (1..=atoms).collect();
    random.shuffle(&mut heads);
    let mut rules = vec![choice(&heads, &[])];
    for _ in 0..atoms * 3 {
        let length = random.between(1, 3) as usize;
        rules.push(constraint(&random.literals(length, atoms)));
    }
    random.shuffle(&mut rules);
    rules
}

/// Cycles of positive rules with a few ways in, and constraints that ask for the atoms on them.
fn looping(random: &mut Random) -> Vec<Rule> {
    let atoms = random.between(2, 7);
    let mut rules = Vec::new();
    for atom in 1..=atoms {
        rules.push(normal(atom % atoms + 1, &[atom]));
    }
    for _ in 0..random.below(4) {
        let length = random.between(1, 2) as usize;
        rules.push(normal(random.between(1, atoms), &literals(random, length, atoms, 30)));
    }
    if random.percent(40) {
        rules.push(choice(&[random.between(1, atoms)], &[random.between(1, atoms)]));
    }
    rules.push(constraint(&[-random.between(1, atoms)]));
    random.shuffle(&mut rules);
    rules
}

/// Nodes that are reached over chosen edges from the first one, and a constraint that asks for one of them.
fn reaching(random: &mut Random) -> Vec<Rule> {
    let nodes = random.between(3, 5);
    let mut rules = vec![normal(1, &[])];
    let mut last = nodes;
    for _ in 0..random.between(2, 5) {
        let (from, to) = (random.between(1, nodes), random.between(2, nodes));
        last += 1;
        rules.push(choice(&[last], &[]));
        rules.push(normal(to, &[from, last]));
    }
    rules.push(constraint(&[-random.between(2, nodes)]));
    if random.percent(50) {
        rules.push(constraint(&[random.between(nodes + 1, last)]));
    }
    random.shuffle(&mut rules);
    rules
}

/// One pigeon more than holes, each chosen into some hole, no two into one.
pub fn pigeons(holes: i32) -> Vec<Rule> {
    let atom = |pigeon: i32, hole: i32| pigeon * holes + hole + 1;
    let row = |pigeon: i32| (0..holes).map(move |hole| atom(pigeon, hole));
    let mut rules: Vec<Rule> = (0..=holes).map(|pigeon| choice(&row(pigeon).collect::<Vec<_>>(), &[])).collect();
    rules.extend((0..=holes).map(|pigeon| constraint(&row(pigeon).map(|place| -place).collect::<Vec<_>>())));
    for hole in 0..holes {
        for second in 0..=holes {
            rules.extend((0..second).map(|first| constraint(&[atom(first, hole), atom(second, hole)])));
        }
    }
    rules
}

/// The complete graph on four nodes with three colours, by negation instead of choice.
pub fn colours() -> Vec<Rule> {
    let atom = |node: i32, colour: i32| node * 3 + colour + 1;
    let mut rules = Vec::new();
    for node in 0..4 {
        for colour in 0..3 {
            let others: Vec<i32> = (0..3).filter(|other| *other != colour).map(|other| -atom(node, other)).collect();
            rules.push(normal(atom(node, colour), &others));
            rules.extend((0..node).map(|other| constraint(&[atom(other, colour), atom(node, colour)])));
        }
    }
    rules
}

/// A choice over more atoms and random constraints of three literals, most likely without an answer set.
pub fn crowded(random: &mut Random) -> Vec<Rule> {
    let atoms = random.between(8, 12);
    let mut rules = vec![choice(&(1..=atoms).collect::<Vec<_>>(), &[])];
    for _ in 0..atoms * 7 {
        rules.push(constraint(&random.literals(3, atoms)));
    }
    rules
}

#[cfg(test)]
mod tests {
    use super::*;

    #[test]
    fn pigeons_and_holes() {
        let rules = pigeons(2);
        assert_eq!(rules[0], choice(&[1, 2], &[]));
        assert_eq!(rules[3], constraint(&[-1, -2]));
        // three choices, three constraints that ask for a hole, and three pairs for each of two holes
        assert_eq!((rules.len(), largest_atom(&rules)), (12, 6));
        assert_eq!(rules[6..9], [[1, 3], [1, 5], [3, 5]].map(|pair| constraint(&pair)));
    }

    #[test]
    fn small_programs_are_well_formed() {
        for index in 0..500 {
            let mut random = Random::of(3, "small", index);
            let mut rules = small(&mut random);
            assert!(!rules.is_empty() && largest_atom(&rules) <= 12);
            scatter(&mut rules, &mut random);
            for rule in rules {
                assert!(different(&rule.heads) && different(&rule.body.literals()), "{rule:?}");
                assert!(if rule.choice { !rule.heads.is_empty() } else { rule.heads.len() < 2 }, "{rule:?}");
            }
        }
    }

    #[test]
    fn weights_are_well_formed() {
        let (mut nothing, mut all, mut missed) = (0, 0, 0);
        for index in 0..500 {
            let mut random = Random::of(3, "weights", index);
            let mut rules = if index % 2 == 0 { small(&mut random) } else { weights(&mut random) };
            weigh(&mut rules, &mut random);
            scatter(&mut rules, &mut random);
            for rule in rules {
                let Body::Weights { bound, pairs } = &rule.body else { continue };
                assert!(different(&rule.body.literals()) && pairs.len() <= 12, "{rule:?}");
                let sum: i32 = pairs.iter().map(|(_, weight)| weight).sum();
                assert!((0..=4_095).contains(bound) && pairs.iter().all(|(_, weight)| (0..=4_095).contains(weight)), "{rule:?}");
                nothing += usize::from(*bound == 0);
                all += usize::from(*bound == sum);
                missed += usize::from(*bound > sum);
            }
        }
        assert!(nothing > 100 && all > 100 && missed > 100, "{nothing} {all} {missed}");
    }

    fn different(literals: &[i32]) -> bool {
        let mut atoms: Vec<i32> = literals.iter().map(|literal| literal.abs()).collect();
        atoms.sort_unstable();
        atoms.dedup();
        atoms.len() == literals.len() && !atoms.contains(&0)
    }
}
