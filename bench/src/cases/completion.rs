//! The proof lines that bring in a program's completion: names of its bodies, its rules, and the support of its atoms. And what `l` lines
//! are about: edges, and external bodies.

use std::collections::BTreeSet;

use crate::unverified::nogoods::NOGOOD_WORDS;
use inputs::lines::Line;
use inputs::rules::{largest_atom, Rule};

/// The different bodies, as sets, in the order in which they come up.
pub fn bodies_of(rules: &[Rule]) -> Vec<Vec<i32>> {
    let mut bodies = Vec::new();
    for body in rules.iter().flat_map(Rule::bodies) {
        if !bodies.contains(&body) {
            bodies.push(body);
        }
    }
    bodies
}

/// The name that a body, ascending by atom, gets: the first number above the atoms for the first body, and so on.
pub fn name_of(atoms: i32, bodies: &[Vec<i32>], body: &[i32]) -> i32 {
    let place = bodies.iter().position(|known| known == body);
    atoms + 1 + place.expect("each body is in the list") as i32
}

/// A `b` line for each body.
pub fn definitions(atoms: i32, bodies: &[Vec<i32>]) -> Vec<Line> {
    bodies.iter().map(|body| Line::with(b'b', name_of(atoms, bodies, body), body)).collect()
}

/// The words that a nogood of so many literals takes in the store.
pub fn nogood_words(literals: usize) -> usize {
    NOGOOD_WORDS + literals
}

/// The words that the nogoods of a body's definition take in the store.
pub fn definition_words(body: &[i32]) -> usize {
    nogood_words(1 + body.len()) + body.len() * nogood_words(2)
}

/// A `b` line for each body, a `c` line for each normal rule and each of its bodies, and an `s` line for each atom.
pub fn completion(rules: &[Rule]) -> Vec<Line> {
    let atoms = largest_atom(rules);
    let bodies = bodies_of(rules);
    let mut lines = definitions(atoms, &bodies);
    for rule in rules.iter().filter(|rule| !rule.choice) {
        let line = |body: &Vec<i32>| Line::with(b'c', name_of(atoms, &bodies, body), &rule.heads);
        lines.extend(rule.bodies().iter().map(line));
    }
    for atom in 1..=atoms {
        lines.push(Line::with(b's', atom, &supports(rules, atoms, &bodies, atom)));
    }
    lines
}

/// The names of the different bodies of the rules with the atom in the head.
pub fn supports(rules: &[Rule], atoms: i32, bodies: &[Vec<i32>], atom: i32) -> Vec<i32> {
    let mut names = Vec::new();
    for body in rules.iter().filter(|rule| rule.heads.contains(&atom)).flat_map(Rule::bodies) {
        let name = name_of(atoms, bodies, &body);
        if !names.contains(&name) {
            names.push(name);
        }
    }
    names
}

/// The edges from a positive literal of a body to a head of its rule.
pub fn edges(rules: &[Rule]) -> BTreeSet<(i32, i32)> {
    let mut edges = BTreeSet::new();
    for rule in rules {
        for literal in rule.bodies().concat().into_iter().filter(|literal| *literal > 0) {
            edges.extend(rule.heads.iter().map(|&head| (literal, head)));
        }
    }
    edges
}

/// The names of the external bodies of a set of atoms.
pub fn externals(rules: &[Rule], atoms: i32, bodies: &[Vec<i32>], set: &[i32]) -> Vec<i32> {
    let with_head = rules.iter().filter(|rule| rule.heads.iter().any(|head| set.contains(head)));
    let external = with_head.flat_map(Rule::bodies).filter(|body| !body.iter().any(|literal| set.contains(literal)));
    let mut names: Vec<i32> = external.map(|body| name_of(atoms, bodies, &body)).collect();
    names.sort_unstable();
    names.dedup();
    names
}
