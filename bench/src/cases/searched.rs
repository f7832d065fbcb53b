//! Refutations of random programs, of growing length up to the limit of a proof's text.

use super::{refutations, Goal, Input, Split, Tree};
use inputs::lines::{proof_text, Line};
use inputs::random::Random;
use inputs::rules::{choice, constraint, normal, program_text, Rule};
use inputs::Pair;

/// About so many steps, and the seed that gives a program with such a refutation.
const CASES: [(usize, u64); 6] = [(100, 179), (200, 109), (400, 136), (800, 160), (1_600, 77), (2_300, 6_638)];

/// Others between these, for the growth.
const BETWEEN: [(usize, u64); 8] =
    [(250, 3_639), (670, 7_251), (820, 8_659), (1_400, 2_861), (1_570, 515), (1_760, 7_442), (1_970, 5_312), (2_130, 7_725)];

pub fn inputs() -> Vec<Input> {
    CASES.iter().map(|&(length, seed)| input(length, seed)).collect()
}

/// These and the others between them.
pub fn growing() -> Vec<Input> {
    CASES.iter().chain(&BETWEEN).map(|&(length, seed)| input(length, seed)).collect()
}

fn input(length: usize, seed: u64) -> Input {
    let rules = rules(&mut Random::from_seed(seed + 1));
    let lines = refutations::refute(&rules, 2 * length, seed).expect("the seed gives a refutation");
    Input::of(format!("random-{length}"), &rules, &lines).with_goal(Goal::Ratio(2.5))
}

/// A program of which both halves together have about so many steps, its seed, and the atom that it is split on.
const SPLIT: (usize, u64, i32) = (1_000, 8_659, 1);

pub fn split() -> Split {
    let (length, seed, atom) = SPLIT;
    let rules = rules(&mut Random::from_seed(seed + 1));
    let half = |literal: i32| -> Vec<Line> {
        let rules = [&rules[..], &[constraint(&[-literal])]].concat();
        refutations::refute(&rules, length, seed).expect("the seed gives a refutation of each half")
    };
    let halves = [half(atom), half(-atom)];
    Split { name: format!("split-{length}"), program: program_text(&rules), atom: atom as usize, halves }
}

/// The seed of a program that is split on its first six atoms, on every path: the merged proof nearly fills the store.
const TREE: (u64, u16) = (150, 6);

pub fn tree() -> Tree {
    let (seed, splits) = TREE;
    let rules = rules(&mut Random::from_seed(seed + 1));
    let mut tree = Tree { name: format!("tree-{}", 1 << splits), program: program_text(&rules), numbers: Vec::new(), ends: Vec::new() };
    grow(&mut tree, &rules, 1, splits, seed);
    tree
}

/// A side for the rules with the constraints on its path: split on this atom, or behind the last one an end.
fn grow(tree: &mut Tree, rules: &[Rule], atom: u16, last: u16, seed: u64) {
    if atom > last {
        let lines = refutations::refute(rules, usize::MAX, seed).expect("the seed gives a refutation of each end");
        tree.numbers.push(0);
        tree.ends.push(Pair::of(program_text(rules), proof_text(&lines)));
        return;
    }
    tree.numbers.push(atom);
    for literal in [i32::from(atom), -i32::from(atom)] {
        grow(tree, &[rules, &[constraint(&[-literal])]].concat(), atom + 1, last, seed);
    }
}

/// Atoms of which half may be chosen, and the others have two rules each; constraints of three literals.
fn rules(random: &mut Random) -> Vec<Rule> {
    let atoms = random.between(8, 87);
    let constraints = atoms * random.between(10, 39) / 10;
    let chosen: Vec<i32> = (1..=atoms / 2).collect();
    let mut rules = vec![choice(&chosen, &[])];
    for head in atoms / 2 + 1..=atoms {
        for _ in 0..2 {
            rules.push(normal(head, &random.literals(2, atoms)));
        }
    }
    for _ in 0..constraints {
        rules.push(constraint(&random.literals(3, atoms)));
    }
    rules
}
