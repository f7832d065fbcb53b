//! An explanation by the contrary. Trimming can leave lines by which the literal no longer follows from the assumptions
//! step by step, but only by way of a contradiction: where the contrary of the literal is supposed, propagation over the
//! lines that are left comes to one.

use std::collections::HashMap;

use super::certificate::constraint;
use super::closure::Assumption;
use super::program::Plain;
use super::tree::{cut, Node, Principle, Tree, Why};
use crate::certify::Line;

/// Nogoods, each with what it says, and what holds so far.
struct Propagation<'a> {
    plain: &'a Plain,
    /// The bodies that are named, from the largest atom on.
    bodies: Vec<Vec<i32>>,
    names: HashMap<Vec<i32>, i32>,
    nogoods: Vec<(Vec<i32>, Principle)>,
    nodes: Vec<Node>,
    known: HashMap<i32, usize>,
}

/// The explanation; none where the lines come to no contradiction.
pub fn tree(plain: &Plain, literal: i32, assumptions: &[Assumption], lines: &[Line]) -> Option<Tree> {
    let mut run =
        Propagation { plain, bodies: Vec::new(), names: HashMap::new(), nogoods: Vec::new(), nodes: Vec::new(), known: HashMap::new() };
    run.hold(-literal, Why::Supposed);
    let assumed: HashMap<Vec<i32>, Assumption> =
        assumptions.iter().map(|assumption| (constraint(*assumption, plain), *assumption)).collect();
    for line in lines {
        match line {
            Line::Given { body, head: None } => run.assume(body, assumed.get(body).copied()),
            Line::Given { body, head: Some(head) } => {
                let name = run.name(body);
                let rule = plain.supports[*head as usize].iter().find(|support| !support.choice && plain.bodies[support.body] == *body)?;
                run.nogoods.push((vec![name, -head], Principle::Rule(rule.rule)));
            }
            Line::Support(atom) => run.need(*atom, plain.bodies_of(*atom).into_iter(), Principle::Needs(*atom)),
            Line::Loop(set) => {
                let mut ascending = set.clone();
                ascending.sort_unstable();
                run.need(set[0], plain.external_bodies(&ascending).into_iter(), Principle::NeedsOutside(ascending));
            }
        }
    }
    let (by, below) = run.conflict()?;
    run.nodes.push(Node { literal, why: Why::Contrary { by, below } });
    let root = run.nodes.len() - 1;
    Some(Tree { bodies: run.bodies, ..cut(&run.nodes, root) })
}

impl Propagation<'_> {
    fn hold(&mut self, literal: i32, why: Why) {
        self.known.insert(literal, self.nodes.len());
        self.nodes.push(Node { literal, why });
    }

    /// The variable of a body, with what it stands for; of one literal that itself.
    fn name(&mut self, body: &[i32]) -> i32 {
        if let [only] = body {
            return *only;
        }
        if let Some(name) = self.names.get(body) {
            return *name;
        }
        let name = (self.plain.atoms + 1 + self.bodies.len()) as i32;
        self.bodies.push(body.to_vec());
        self.names.insert(body.to_vec(), name);
        self.nogoods.push((body.iter().copied().chain([-name]).collect(), Principle::Body));
        self.nogoods.extend(body.iter().map(|literal| (vec![name, -literal], Principle::Body)));
        name
    }

    /// The constraint of an assumption; that against the literal is supposed already.
    fn assume(&mut self, body: &[i32], assumption: Option<Assumption>) {
        match assumption {
            Some(Assumption::Left(atom)) => {
                let rules = self.plain.choices_of(atom);
                self.hold(-atom, Why::Left { rules });
            }
            Some(Assumption::Taken { head, body: of }) => {
                let chosen = self.plain.supports[head as usize].iter().find(|support| support.choice && support.body == of);
                self.nogoods.extend(chosen.map(|support| (body.to_vec(), Principle::Chosen(support.rule))));
            }
            None => {}
        }
    }

    /// An atom that holds has one of these bodies hold.
    fn need(&mut self, atom: i32, bodies: impl Iterator<Item = usize>, by: Principle) {
        let plain = self.plain;
        let mut literals: Vec<i32> = bodies.map(|body| -self.name(&plain.bodies[body])).filter(|literal| *literal != atom).collect();
        literals.insert(0, atom);
        self.nogoods.push((literals, by));
    }

    /// Propagates until all literals of a nogood hold.
    fn conflict(&mut self) -> Option<(Principle, Vec<usize>)> {
        loop {
            let before = self.known.len();
            for (literals, by) in std::mem::take(&mut self.nogoods) {
                let below: Vec<usize> = literals.iter().filter_map(|literal| self.known.get(literal).copied()).collect();
                let open: Vec<i32> = literals.iter().copied().filter(|literal| !self.known.contains_key(literal)).collect();
                match open[..] {
                    [] => return Some((by, below)),
                    [last] if !self.known.contains_key(&-last) => self.hold(-last, Why::Step { by, below }),
                    [_] => {}
                    _ => self.nogoods.push((literals, by)),
                }
            }
            if self.known.len() == before {
                return None;
            }
        }
    }
}
