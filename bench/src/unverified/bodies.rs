//! The rules by their bodies: which bodies there are, which support an atom, what a body derives, and the names that bodies get. The bodies
//! of a rule with weights are made when a question goes through all of them, once for all rules with the same weights.

use super::hashing::{QuickMap, QuickSet};
use super::loops::Edges;
use super::weights::Weights;
use super::LARGEST;
use std::rc::Rc;

/// A program's rules. A body is counted once, however many rules have it.
pub struct Rules {
    pub atoms: usize,
    pub count: usize,
    /// The literals of each body, ascending by atom; of the bodies of weights, those that were named or gone through.
    bodies: Vec<Box<[i32]>>,
    by_literals: QuickMap<Box<[i32]>, u32>,
    /// The different weights, and the bodies of those that were gone through.
    weights: Vec<Weights>,
    by_weights: QuickMap<Weights, u32>,
    made: Vec<Option<Rc<[u32]>>>,
    /// By weights: the positive literals of their bodies, where they were asked for.
    relevant: Vec<Option<Rc<[i32]>>>,
    /// By atom: the plain bodies, and the weights, of the rules that have it in the head.
    supports: Vec<Vec<u32>>,
    weighted: Vec<Vec<u32>>,
    /// By head, 0 for none: the weights of the normal rules.
    derived_weighted: Vec<Vec<u32>>,
    /// An atom with a plain body of a rule that has it in the head.
    supported: QuickSet<u32>,
    /// A head, 0 for none, with a plain body of a normal rule.
    derived: QuickSet<u32>,
    /// By body: its name, 0 for none.
    names: Vec<usize>,
    /// By variable: the body that it names.
    named: Vec<Option<u32>>,
    /// By body, and by atom: the last question about a set that met it.
    met: Vec<u32>,
    inside: Vec<u32>,
    /// By atom: its place in the last set that was asked about.
    places: Vec<u8>,
    questions: u32,
}

/// One key for an atom and a plain body, of which there are at most 1,024, and they come first.
fn pair(atom: i32, body: u32) -> u32 {
    atom.unsigned_abs() << 10 | body
}

impl Rules {
    pub fn none() -> Self {
        Rules {
            atoms: 0,
            count: 0,
            bodies: Vec::new(),
            by_literals: QuickMap::default(),
            weights: Vec::new(),
            by_weights: QuickMap::default(),
            made: Vec::new(),
            relevant: Vec::new(),
            supports: Vec::new(),
            weighted: Vec::new(),
            derived_weighted: Vec::new(),
            supported: QuickSet::default(),
            derived: QuickSet::default(),
            names: Vec::new(),
            named: vec![None; LARGEST + 1],
            met: Vec::new(),
            inside: vec![0; LARGEST + 1],
            places: vec![0; LARGEST + 1],
            questions: 0,
        }
    }

    /// One more rule, its body ascending by atom.
    pub fn add(&mut self, normal: bool, heads: &[i32], body: &[i32]) {
        self.count_rule(heads, body.iter().copied());
        let body = self.body_number(body);
        for &head in heads {
            if self.supported.insert(pair(head, body)) {
                self.supports[head as usize].push(body);
            }
        }
        if normal {
            self.derived.insert(pair(heads.first().copied().unwrap_or(0), body));
        }
    }

    /// One more rule, whose body has weights.
    pub fn add_weights(&mut self, normal: bool, heads: &[i32], weights: Weights) {
        self.count_rule(heads, weights.pairs.iter().map(|pair| pair.0));
        let number = self.weights_number(weights);
        for &head in heads {
            add_once(&mut self.weighted[head as usize], number);
        }
        if normal {
            add_once(&mut self.derived_weighted[heads.first().copied().unwrap_or(0) as usize], number);
        }
    }

    fn count_rule(&mut self, heads: &[i32], body: impl Iterator<Item = i32>) {
        let largest = heads.iter().copied().chain(body).map(|literal| literal.unsigned_abs()).max();
        self.atoms = self.atoms.max(largest.unwrap_or(0) as usize);
        for lists in [&mut self.supports, &mut self.weighted, &mut self.derived_weighted] {
            lists.resize(self.atoms + 1, Vec::new());
        }
        self.count += 1;
    }

    fn weights_number(&mut self, weights: Weights) -> u32 {
        if let Some(&number) = self.by_weights.get(&weights) {
            return number;
        }
        let number = self.weights.len() as u32;
        self.weights.push(weights.clone());
        self.by_weights.insert(weights, number);
        self.made.push(None);
        self.relevant.push(None);
        number
    }

    /// The bodies of weights.
    fn bodies_of(&mut self, weights: u32) -> Rc<[u32]> {
        if let Some(bodies) = &self.made[weights as usize] {
            return bodies.clone();
        }
        let mut bodies = Vec::new();
        self.weights[weights as usize].clone().each_body(|body| bodies.push(self.body_number(body)));
        let bodies: Rc<[u32]> = bodies.into();
        self.made[weights as usize] = Some(bodies.clone());
        bodies
    }

    fn body_number(&mut self, literals: &[i32]) -> u32 {
        if let Some(&number) = self.by_literals.get(literals) {
            return number;
        }
        let number = self.bodies.len() as u32;
        self.bodies.push(literals.into());
        self.by_literals.insert(literals.into(), number);
        self.names.push(0);
        self.met.push(0);
        number
    }

    /// Names the body with these literals, ascending by atom; whether there is one without a name.
    pub fn name(&mut self, literals: &[i32], name: usize) -> bool {
        let body = match self.by_literals.get(literals) {
            Some(&body) => body,
            None if self.weights.iter().any(|weights| weights.is_body(literals)) => self.body_number(literals),
            None => return false,
        };
        let free = self.names[body as usize] == 0;
        if free {
            self.names[body as usize] = name;
            self.named[name] = Some(body);
        }
        free
    }

    /// Some normal rule has the body of that name and the head, 0 for none.
    pub fn derives(&self, name: usize, head: i32) -> bool {
        let Some(body) = self.named[name] else { return false };
        let has_body = |weights: &u32| self.weights[*weights as usize].is_body(&self.bodies[body as usize]);
        let weighted = self.derived_weighted.get(head as usize);
        body < 1_024 && self.derived.contains(&pair(head, body)) || weighted.is_some_and(|weights| weights.iter().any(has_body))
    }

    /// The names, all different, are those of exactly the bodies that support the atom.
    pub fn supports(&mut self, atom: i32, names: &[i32]) -> bool {
        if atom as usize > self.atoms {
            return false;
        }
        if !self.weighted[atom as usize].is_empty() {
            return self.supports_with_weights(atom, names);
        }
        let of_one = |&name: &i32| self.named[name as usize].is_some_and(|body| body < 1_024 && self.supported.contains(&pair(atom, body)));
        self.supports[atom as usize].len() == names.len() && names.iter().all(of_one)
    }

    fn supports_with_weights(&mut self, atom: i32, names: &[i32]) -> bool {
        self.questions += 1;
        let mut different = self.supports[atom as usize].len();
        for &body in &self.supports[atom as usize] {
            self.met[body as usize] = self.questions;
        }
        for place in 0..self.weighted[atom as usize].len() {
            for &body in self.bodies_of(self.weighted[atom as usize][place]).iter() {
                let met = std::mem::replace(&mut self.met[body as usize], self.questions);
                different += usize::from(met != self.questions);
            }
            if different > names.len() {
                return false;
            }
        }
        let of_one = |&name: &i32| self.named[name as usize].is_some_and(|body| self.met[body as usize] == self.questions);
        different == names.len() && names.iter().all(of_one)
    }

    /// The positive literals of the bodies of weights.
    fn relevant_of(&mut self, weights: u32) -> Rc<[i32]> {
        let weights = weights as usize;
        self.relevant[weights].get_or_insert_with(|| self.weights[weights].relevant().into()).clone()
    }

    /// Every atom reaches every atom inside the set.
    pub fn is_loop(&mut self, atoms: &[i32]) -> bool {
        self.questions += 1;
        for (place, &atom) in atoms.iter().enumerate() {
            self.inside[atom as usize] = self.questions;
            self.places[atom as usize] = place as u8;
        }
        let mut edges = Edges::none(atoms.len());
        for (place, &atom) in atoms.iter().enumerate() {
            for &body in &self.supports[atom as usize] {
                self.add_edges(&self.bodies[body as usize], place, &mut edges);
            }
            for which in 0..self.weighted[atom as usize].len() {
                let literals = self.relevant_of(self.weighted[atom as usize][which]);
                self.add_edges(&literals, place, &mut edges);
            }
        }
        edges.is_loop()
    }

    /// The edges from the positive literals that are in the set.
    fn add_edges(&self, literals: &[i32], to: usize, edges: &mut Edges) {
        for &literal in literals {
            if literal > 0 && self.inside[literal as usize] == self.questions {
                edges.add(usize::from(self.places[literal as usize]), to);
            }
        }
    }

    /// Calls `found` with the name of each external body of a set of atoms; whether all of them have one.
    pub fn externals(&mut self, atoms: &[i32], mut found: impl FnMut(usize)) -> bool {
        self.questions += 1;
        for &atom in atoms {
            self.inside[atom as usize] = self.questions;
        }
        for &atom in atoms {
            for place in 0..self.supports[atom as usize].len() {
                if !self.external(self.supports[atom as usize][place], &mut found) {
                    return false;
                }
            }
            for place in 0..self.weighted[atom as usize].len() {
                let bodies = self.bodies_of(self.weighted[atom as usize][place]);
                if !bodies.iter().all(|&body| self.external(body, &mut found)) {
                    return false;
                }
            }
        }
        true
    }

    /// Calls `found` with the name of a body that this question meets for the first time, if it is external; whether it has one then.
    fn external(&mut self, body: u32, found: &mut impl FnMut(usize)) -> bool {
        let met = std::mem::replace(&mut self.met[body as usize], self.questions);
        if met == self.questions || leans(&self.bodies[body as usize], &self.inside, self.questions) {
            return true;
        }
        let name = self.names[body as usize];
        if name != 0 {
            found(name);
        }
        name != 0
    }
}

/// Adds a number to a list where it is not its last.
fn add_once(list: &mut Vec<u32>, number: u32) {
    if list.last() != Some(&number) {
        list.push(number);
    }
}

/// Some positive atom of a body is inside the set that the question is about.
fn leans(body: &[i32], inside: &[u32], question: u32) -> bool {
    body.iter().any(|&literal| literal > 0 && inside[literal as usize] == question)
}
