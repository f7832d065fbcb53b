//! Question 56, Change 5 of document 02: "a set in which every atom reaches every atom, itself included, by one or more positive
//! dependency edges inside the set".

use std::collections::BTreeSet;

use super::models::Set;
use super::program::Rule;

pub type Edges = BTreeSet<(i32, i32)>;

/// "An edge runs from a positive body atom to a head of the same rule, weight rules as expanded": the edges inside the set.
pub fn edges(rules: &[Rule], set: &Set) -> Edges {
    let mut edges = Edges::new();
    for rule in rules {
        for atom in rule.positive().filter(|atom| set.contains(atom)) {
            edges.extend(rule.heads.iter().filter(|head| set.contains(head)).map(|head| (atom, *head)));
        }
    }
    edges
}

/// The atoms that an atom reaches "by one or more" edges: at first none, not even itself.
pub fn reached(edges: &Edges, from: i32) -> Set {
    let mut found = Set::new();
    let mut open = vec![from];
    while let Some(atom) = open.pop() {
        for (_, head) in edges.range((atom, 1)..=(atom, i32::MAX)) {
            if found.insert(*head) {
                open.push(*head);
            }
        }
    }
    found
}

/// A search from every atom: "every atom reaches every atom, itself included".
pub fn is_loop(rules: &[Rule], atoms: &[i32]) -> bool {
    let set: Set = atoms.iter().copied().collect();
    let edges = edges(rules, &set);
    set.iter().all(|atom| reached(&edges, *atom) == set)
}

#[cfg(test)]
mod tests {
    use super::*;

    fn rule(heads: &[i32], body: &[i32]) -> Rule {
        Rule { choice: heads.len() > 1, heads: heads.to_vec(), body: body.to_vec() }
    }

    #[test]
    fn ways_stay_inside() {
        let ring = [rule(&[2], &[1]), rule(&[3], &[2]), rule(&[1], &[3])];
        assert!(is_loop(&ring, &[1, 2, 3]) && is_loop(&ring, &[3, 1, 2]));
        for set in [&[1][..], &[1, 2], &[2, 3], &[1, 3]] {
            assert!(!is_loop(&ring, set), "{set:?}");
        }
    }

    #[test]
    fn every_atom_both_ways() {
        let apart = [rule(&[1], &[1]), rule(&[2], &[2]), rule(&[3], &[2])];
        assert!(is_loop(&apart, &[1]) && is_loop(&apart, &[2]));
        for set in [&[3][..], &[1, 2], &[2, 3], &[1, 2, 3], &[4]] {
            assert!(!is_loop(&apart, set), "{set:?}");
        }
    }

    #[test]
    fn what_gives_edges() {
        let rules = [rule(&[1, 2], &[1, 3, -4]), rule(&[3], &[-1, 2, 5]), rule(&[], &[1, 2])];
        let inside = Set::from([1, 2, 3, 4]);
        assert_eq!(edges(&rules, &inside), Edges::from([(1, 1), (1, 2), (3, 1), (3, 2), (2, 3)]));
    }
}
