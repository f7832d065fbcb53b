//! The completion of a program as clauses for a SAT solver, each with the proof line that gives it. A clause is a nogood with all signs turned.
//! The variables are the atoms 1 to N, and behind them one for each different body of the plain rules.

use std::collections::{BTreeSet, HashMap, HashSet};

use super::trim::Refutation;
use crate::rules::Rule;

/// The most numbers of a proof line.
const MOST_NUMBERS: usize = aspdrupe::MOST_NUMBERS;

/// The proof line that gives a clause. Bodies are counted from 0.
#[derive(Debug, Clone, PartialEq, Eq, Hash)]
pub enum Origin {
    /// `b`: the definition of a body's variable.
    Body(usize),
    /// `c`: where the body of a normal rule holds, so does its head; of a constraint, it does not hold.
    Completion { body: usize, head: Option<i32> },
    /// `s`: an atom that holds has some body that holds.
    Support(i32),
    /// `l`: the atoms of a loop, the clause's own first.
    Loop(Vec<i32>),
}

/// A clause that a proof line gives.
#[derive(Debug, Clone, PartialEq, Eq)]
pub struct Axiom {
    pub origin: Origin,
    pub clause: Vec<i32>,
}

/// A program's plain rules, and the clauses so far.
pub struct Completion {
    /// N, the largest atom.
    pub atoms: i32,
    /// The different bodies, each ascending by atom.
    pub bodies: Vec<Vec<i32>>,
    pub axioms: Vec<Axiom>,
    /// For each atom, the bodies of the rules with it in the head, ascending.
    heads: Vec<BTreeSet<usize>>,
    /// The loops that have their clauses.
    loops: HashSet<Vec<i32>>,
}

impl Completion {
    pub fn of(rules: &[Rule], atoms: usize) -> Completion {
        let mut completion = Completion {
            atoms: atoms as i32,
            bodies: Vec::new(),
            axioms: Vec::new(),
            heads: vec![BTreeSet::new(); atoms + 1],
            loops: HashSet::new(),
        };
        let given = completion.take_bodies(rules);
        for body in 0..completion.bodies.len() {
            completion.define(body);
        }
        for (body, head) in given {
            let clause = [-completion.variable(body)].into_iter().chain(head).collect();
            completion.axioms.push(Axiom { origin: Origin::Completion { body, head }, clause });
        }
        for atom in 1..=completion.atoms {
            let supports = completion.bodies_of(atom).map(|body| completion.variable(body));
            let clause = [-atom].into_iter().chain(supports).collect();
            completion.axioms.push(Axiom { origin: Origin::Support(atom), clause });
        }
        completion
    }

    /// Numbers the bodies and enters them under the heads; answers which body gives which head.
    fn take_bodies(&mut self, rules: &[Rule]) -> Vec<(usize, Option<i32>)> {
        let mut numbers: HashMap<Vec<i32>, usize> = HashMap::new();
        let (mut given, mut seen) = (Vec::new(), HashSet::new());
        for rule in rules {
            for literals in rule.bodies() {
                let body = *numbers.entry(literals).or_insert_with_key(|literals| {
                    self.bodies.push(literals.clone());
                    self.bodies.len() - 1
                });
                for head in &rule.heads {
                    self.heads[*head as usize].insert(body);
                }
                let head = rule.heads.first().copied();
                if !rule.choice && seen.insert((body, head)) {
                    given.push((body, head));
                }
            }
        }
        given
    }

    /// The clauses of a `b` line, in the order in which the line adds its nogoods.
    fn define(&mut self, body: usize) {
        let variable = self.variable(body);
        let literals = &self.bodies[body];
        let whole = [variable].into_iter().chain(literals.iter().map(|literal| -literal)).collect();
        let parts = literals.iter().map(|literal| vec![-variable, *literal]);
        let clauses: Vec<Vec<i32>> = std::iter::once(whole).chain(parts).collect();
        self.axioms.extend(clauses.into_iter().map(|clause| Axiom { origin: Origin::Body(body), clause }));
    }

    /// The largest variable.
    pub fn variables(&self) -> i32 {
        self.atoms + self.bodies.len() as i32
    }

    /// The clauses so far.
    pub fn clauses(&self) -> impl Iterator<Item = &[i32]> + Clone {
        self.axioms.iter().map(|axiom| axiom.clause.as_slice())
    }

    /// The variable of a body.
    pub fn variable(&self, body: usize) -> i32 {
        self.atoms + 1 + body as i32
    }

    /// The body of a variable that is no atom.
    pub fn body_of(&self, variable: i32) -> Option<usize> {
        usize::try_from(variable - self.atoms - 1).ok()
    }

    /// The bodies of the rules with an atom in the head.
    pub fn bodies_of(&self, atom: i32) -> impl Iterator<Item = usize> + '_ {
        self.heads.get(atom as usize).into_iter().flatten().copied()
    }

    /// The bodies of rules that have a head in the set and no positive atom in it.
    pub fn external_bodies(&self, set: &[i32]) -> Vec<usize> {
        let bodies: BTreeSet<usize> = set.iter().flat_map(|atom| self.bodies_of(*atom)).collect();
        bodies.into_iter().filter(|body| !self.bodies[*body].iter().any(|literal| set.contains(literal))).collect()
    }

    /// Adds the clauses of a loop, one for each of its atoms; whether they are new.
    pub fn add_loop(&mut self, atoms: &[i32]) -> bool {
        if !self.loops.insert(atoms.to_vec()) {
            return false;
        }
        let externals: Vec<i32> = self.external_bodies(atoms).into_iter().map(|body| self.variable(body)).collect();
        for first in atoms {
            let others = atoms.iter().copied().filter(|atom| atom != first);
            let origin = Origin::Loop([*first].into_iter().chain(others).collect());
            let clause = [-first].into_iter().chain(externals.iter().copied()).collect();
            self.axioms.push(Axiom { origin, clause });
        }
        true
    }

    /// The bodies of the constraints that a refutation rests on.
    pub fn constraints_of(&self, refutation: &Refutation) -> Vec<Vec<i32>> {
        let used = refutation.hints.iter().flatten().filter_map(|hint| self.axioms.get(*hint as usize));
        let body = |axiom: &Axiom| match axiom.origin {
            Origin::Completion { body, head: None } => Some(body),
            _ => None,
        };
        let bodies: BTreeSet<usize> = used.filter_map(body).collect();
        bodies.into_iter().map(|body| self.bodies[body].clone()).collect()
    }

    pub fn loop_count(&self) -> usize {
        self.loops.len()
    }

    /// Why no proof line can be written that gives a clause.
    pub fn unwritable(&self, origin: &Origin) -> Option<String> {
        match origin {
            Origin::Support(atom) if self.bodies_of(*atom).count() >= MOST_NUMBERS => {
                let count = self.bodies_of(*atom).count();
                Some(format!("it takes an `s` line for atom {atom}, which has {count} bodies; a line has room for 64: give some of its rules another head"))
            }
            Origin::Loop(atoms) if atoms.len() > MOST_NUMBERS => {
                Some(format!("it takes an `l` line for a loop of {} atoms; a line has room for 65", atoms.len()))
            }
            _ => None,
        }
    }
}

#[cfg(test)]
pub mod tests {
    use super::*;
    use crate::library::{read_program, Program};
    use crate::rules::rules;

    pub fn program(lines: &[&str]) -> Program {
        let text = format!("asp 1 0 0\n{}\n0\n", lines.join("\n"));
        read_program(text.as_bytes(), 10_000).unwrap().unwrap()
    }

    pub fn completion(lines: &[&str]) -> Completion {
        let program = program(lines);
        Completion::of(&rules(&program), program.atoms)
    }

    #[test]
    fn clauses_of_each_kind() {
        // {1}. 2 :- 1, not 3. 2 :- 3. 3 :- 2. :- not 2.
        let mut completion = completion(&["1 1 1 1 0 0", "1 0 1 2 0 2 1 -3", "1 0 1 2 0 1 3", "1 0 1 3 0 1 2", "1 0 0 0 1 -2"]);
        let clauses = |completion: &Completion| completion.axioms.iter().map(|axiom| axiom.clause.clone()).collect::<Vec<_>>();
        let bodies = [
            vec![4],
            vec![5, -1, 3],
            vec![-5, 1],
            vec![-5, -3],
            vec![6, -3],
            vec![-6, 3],
            vec![7, -2],
            vec![-7, 2],
            vec![8, 2],
            vec![-8, -2],
        ];
        let others = [vec![-5, 2], vec![-6, 2], vec![-7, 3], vec![-8], vec![-1, 4], vec![-2, 5, 6], vec![-3, 7]];
        assert_eq!(clauses(&completion), [&bodies[..], &others[..]].concat());
        assert!(completion.add_loop(&[2, 3]) && !completion.add_loop(&[2, 3]));
        assert_eq!(clauses(&completion)[17..], [[-2, 5], [-3, 5]]);
        assert_eq!(completion.axioms[18].origin, Origin::Loop(vec![3, 2]));
    }

    #[test]
    fn bodies_are_shared() {
        let completion = completion(&["1 0 1 1 0 1 3", "1 0 1 2 0 1 3", "1 0 1 1 0 1 3", "1 0 1 1 1 2 2 3 2 2 1"]);
        assert_eq!(completion.bodies, [[3]]);
        let given = completion.axioms.iter().filter(|axiom| matches!(axiom.origin, Origin::Completion { .. })).count();
        assert_eq!(given, 2);
    }

    #[test]
    fn lines_that_cannot_be_written() {
        let many: Vec<String> = (2..=66).map(|atom| format!("1 0 1 1 0 1 {atom}")).collect();
        let completion = completion(&many.iter().map(String::as_str).collect::<Vec<_>>());
        assert!(completion.unwritable(&Origin::Support(1)).is_some());
        assert_eq!(completion.unwritable(&Origin::Support(2)), None);
        assert_eq!(completion.unwritable(&Origin::Loop((1..=65).collect())), None);
        assert!(completion.unwritable(&Origin::Loop((1..=66).collect())).is_some());
    }
}
