//! Which atoms a program is split on: those whose two sides both cut off most, by looking ahead with unit propagation over the completion. Atoms
//! of choices come first, since the others follow from them.

use std::collections::{HashMap, HashSet};

use crate::certify::clauses::Log;
use crate::certify::completion::Completion;
use crate::certify::propagation::Checker;
use crate::rules::Rule;

/// The atoms that are looked at below the root: the best at the root that are open.
const MOST_TRIED: usize = 64;

/// The tree of splits, as the merge takes it: 0 for an end, and for a split its atom, the side that demands it and the side that forbids it.
/// So many splits stand on a path at most; where propagation refutes a side, or nothing is open in it, it is an end.
pub fn tree(completion: &Completion, rules: &[Rule], depth: usize) -> Vec<u16> {
    let chosen: HashSet<i32> = rules.iter().filter(|rule| rule.choice).flat_map(|rule| rule.heads.iter().copied()).collect();
    let mut all: Vec<i32> = (1..=completion.atoms).collect();
    all.sort_by_key(|atom| !chosen.contains(atom));
    let checker = Checker::of(completion.variables(), &Log::of(completion.clauses()), 0);
    let mut chooser = Chooser { checker, chosen, order: all, most: usize::MAX, tree: Vec::new() };
    chooser.grow(&[], &[], depth);
    chooser.tree
}

struct Chooser {
    checker: Checker,
    /// The atoms of choices.
    chosen: HashSet<i32>,
    /// All atoms in the order in which they are looked at, and how many of those that are open are.
    order: Vec<i32>,
    most: usize,
    tree: Vec<u16>,
}

/// An atom with what it cuts off: whether it is of a choice, and the product and the sum of what its two sides settle.
type Score = ((bool, usize, usize), i32);

impl Chooser {
    /// Adds the tree of a side with these literals on its path, and these that follow where each is tried.
    fn grow(&mut self, path: &[i32], forced: &[i32], depth: usize) {
        let mut forced = forced.to_vec();
        let atom = if depth == 0 { None } else { self.best(path, &mut forced) };
        self.tree.push(atom.map_or(0, |atom| atom as u16));
        for literal in atom.iter().flat_map(|atom| [*atom, -atom]) {
            self.grow(&[path, &[literal]].concat(), &forced, depth - 1);
        }
    }

    /// The atom whose two sides cut off most. Where one side of an atom is refuted, the other is forced. None where the side is refuted, or nothing
    /// is open in it.
    fn best(&mut self, path: &[i32], forced: &mut Vec<i32>) -> Option<i32> {
        let mut known = self.known(path, forced)?;
        let mut scores: Vec<Score> = Vec::new();
        for atom in self.order.clone() {
            let is_chosen = self.chosen.contains(&atom);
            // An atom of no choice only where none of one is open.
            let is_tried = is_chosen || !scores.iter().any(|((chosen, ..), _)| *chosen);
            if scores.len() >= self.most || !is_tried || settles(&known, atom) {
                continue;
            }
            match [atom, -atom].map(|literal| self.settled(path, forced, Some(literal))) {
                [None, None] => return None,
                [Some(one), Some(other)] => {
                    let [one, other] = [one, other].map(|settled| settled - known.len());
                    scores.push(((is_chosen, one * other, one + other), atom));
                }
                [demanded, _] => {
                    forced.push(if demanded.is_some() { atom } else { -atom });
                    known = self.known(path, forced)?;
                }
            }
        }
        // What was forced after an atom was looked at may have settled it.
        scores.retain(|(_, atom)| !settles(&known, *atom));
        scores.sort_by_key(|(score, atom)| (std::cmp::Reverse(*score), *atom));
        if self.most == usize::MAX {
            self.rank(&scores);
        }
        scores.first().map(|(_, atom)| *atom)
    }

    /// From now on the best of these are looked at.
    fn rank(&mut self, scores: &[Score]) {
        self.most = MOST_TRIED;
        let ranks: HashMap<i32, usize> = scores.iter().enumerate().map(|(rank, (_, atom))| (*atom, rank)).collect();
        self.order.sort_by_key(|atom| ranks.get(atom).copied().unwrap_or(usize::MAX));
    }

    /// What follows on a side; none where propagation refutes it.
    fn known(&mut self, path: &[i32], forced: &[i32]) -> Option<HashSet<i32>> {
        self.settled(path, forced, None)?;
        Some(self.checker.trail().map(|(literal, _)| literal).collect())
    }

    /// How much follows on a side where a literal more is demanded; none where propagation refutes that.
    fn settled(&mut self, path: &[i32], forced: &[i32], more: Option<i32>) -> Option<usize> {
        let assumed: Vec<i32> = path.iter().chain(forced).copied().chain(more).map(|literal| -literal).collect();
        match self.checker.derive(&assumed, usize::MAX) {
            Some(_) => None,
            None => Some(self.checker.trail().len()),
        }
    }
}

fn settles(known: &HashSet<i32>, atom: i32) -> bool {
    known.contains(&atom) || known.contains(&-atom)
}

#[cfg(test)]
mod tests {
    use super::*;
    use crate::certify::completion::tests::program;
    use crate::rules::rules;

    fn tree_of(lines: &[&str], depth: usize) -> Vec<u16> {
        let program = program(lines);
        let rules = rules(&program);
        tree(&Completion::of(&rules, program.atoms), &rules, depth)
    }

    #[test]
    fn atoms_that_cut_most() {
        // 4 and 5 hang on 2, and 6 on 3, both ways; nothing on 1
        let lines = ["1 1 3 1 2 3 0 0", "1 0 1 4 0 1 2", "1 0 1 5 0 1 2", "1 0 1 6 0 1 3"];
        assert_eq!(tree_of(&lines, 0), [0]);
        assert_eq!(tree_of(&lines, 1), [2, 0, 0]);
        assert_eq!(tree_of(&lines, 2), [2, 3, 0, 0, 3, 0, 0]);
        assert_eq!(tree_of(&lines, 6), [2, 3, 1, 0, 0, 1, 0, 0, 3, 1, 0, 0, 1, 0, 0]);
    }

    #[test]
    fn sides_that_propagation_refutes_are_no_splits() {
        // 1 has to hold: without it 2 would both have to hold and not
        let lines = ["1 1 3 1 2 3 0 0", "1 0 0 0 2 -1 2", "1 0 0 0 2 -1 -2"];
        assert_eq!(tree_of(&lines, 1), [2, 0, 0]);
        assert_eq!(tree_of(&["1 1 1 1 0 0", "1 0 0 0 1 1", "1 0 0 0 1 -1"], 3), [0]);
        // whichever of 1 holds, 2 has to and must not
        let both = ["1 1 2 1 2 0 0", "1 0 0 0 2 1 2", "1 0 0 0 2 1 -2", "1 0 0 0 2 -1 2", "1 0 0 0 2 -1 -2"];
        assert_eq!(tree_of(&both, 3), [0]);
    }

    #[test]
    fn other_atoms_where_no_choice_is_open() {
        // 1 and 2 exclude each other, and one of them holds
        assert_eq!(tree_of(&["1 0 1 1 0 1 -2", "1 0 1 2 0 1 -1"], 2), [1, 0, 0]);
        assert_eq!(tree_of(&["1 0 1 1 0 1 -2", "1 0 1 2 0 1 -1", "1 1 1 3 0 0"], 1), [3, 0, 0]);
    }
}
