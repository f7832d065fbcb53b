//! The explanation, from the lines of the trimmed proof: what each literal is there from, down to facts, atoms without a
//! rule, and assumptions.

use std::collections::{BTreeSet, HashMap};

use super::certificate::constraint;
use super::closure::Assumption;
use super::contrary;
use super::program::Plain;
use crate::certify::Line;

/// Why a literal holds. Rules and nodes are counted from 0.
#[derive(Debug, Clone, PartialEq, Eq)]
pub enum Why {
    /// A rule whose body holds; a fact where there is nothing in it.
    Rule { rule: usize, below: Vec<usize> },
    /// A choice that is taken, with its body.
    Taken { rule: usize, below: Vec<usize> },
    /// A choice that is left, with the rules that it is of, or an atom that is false by assumption.
    Left { rules: Vec<usize> },
    /// Each rule for it fails, with the literals that fail; without any, no rule gives it.
    Fails(Vec<Failed>),
    /// It is of a set that holds itself up, and each rule from outside fails.
    Loop { set: Vec<i32>, fails: Vec<Failed> },
    /// It is the contrary of what is asked about, which is supposed for the sake of the argument.
    Supposed,
    /// It follows where the contrary is supposed.
    Step { by: Principle, below: Vec<usize> },
    /// The contrary comes to what cannot hold together.
    Contrary { by: Principle, below: Vec<usize> },
}

/// What forbids that literals hold together.
#[derive(Debug, Clone, PartialEq, Eq)]
pub enum Principle {
    /// A body holds just where its literals do.
    Body,
    /// A rule whose body holds gives its head; a choice that is taken does so too.
    Rule(usize),
    Chosen(usize),
    /// An atom that holds has a rule whose body does; one of a set that leans on itself has one from outside.
    Needs(i32),
    NeedsOutside(Vec<i32>),
}

/// A rule that fails, and by which literals.
#[derive(Debug, Clone, PartialEq, Eq)]
pub struct Failed {
    pub rule: usize,
    pub below: Vec<usize>,
}

#[derive(Debug, Clone, PartialEq, Eq)]
pub struct Node {
    pub literal: i32,
    pub why: Why,
}

impl Why {
    /// What it rests on at once.
    pub fn below(&self) -> Vec<usize> {
        match self {
            Why::Rule { below, .. } | Why::Taken { below, .. } => below.clone(),
            Why::Step { below, .. } | Why::Contrary { below, .. } => below.clone(),
            Why::Fails(fails) | Why::Loop { fails, .. } => fails.iter().flat_map(|failed| failed.below.clone()).collect(),
            Why::Left { .. } | Why::Supposed => Vec::new(),
        }
    }

    /// The same with other places.
    fn moved(&self, places: &HashMap<usize, usize>) -> Why {
        let moved = |below: &[usize]| below.iter().map(|place| places[place]).collect::<Vec<_>>();
        let failed = |fails: &[Failed]| fails.iter().map(|failed| Failed { rule: failed.rule, below: moved(&failed.below) }).collect();
        match self {
            Why::Rule { rule, below } => Why::Rule { rule: *rule, below: moved(below) },
            Why::Taken { rule, below } => Why::Taken { rule: *rule, below: moved(below) },
            Why::Fails(fails) => Why::Fails(failed(fails)),
            Why::Loop { set, fails } => Why::Loop { set: set.clone(), fails: failed(fails) },
            Why::Step { by, below } => Why::Step { by: by.clone(), below: moved(below) },
            Why::Contrary { by, below } => Why::Contrary { by: by.clone(), below: moved(below) },
            Why::Left { .. } | Why::Supposed => self.clone(),
        }
    }
}

/// The nodes, each before those that rest on it; the last is of the literal that is asked about.
#[derive(Debug, Clone, PartialEq, Eq)]
pub struct Tree {
    pub nodes: Vec<Node>,
    /// The bodies that literals above the largest atom stand for, in their order.
    pub bodies: Vec<Vec<i32>>,
}

/// Reads the lines one after another.
struct Reader<'a> {
    plain: &'a Plain,
    nodes: Vec<Node>,
    known: HashMap<i32, usize>,
}

/// The explanation of a literal that the lines are: step by step, or by the contrary; none where they come to nothing.
pub fn tree(plain: &Plain, literal: i32, assumptions: &[Assumption], lines: &[Line]) -> Option<Tree> {
    by_steps(plain, literal, assumptions, lines).or_else(|| contrary::tree(plain, literal, assumptions, lines))
}

/// The explanation where each line follows from those before it, or from the contrary of the literal.
fn by_steps(plain: &Plain, literal: i32, assumptions: &[Assumption], lines: &[Line]) -> Option<Tree> {
    let mut reader = Reader { plain, nodes: Vec::new(), known: HashMap::new() };
    reader.push(-literal, Why::Supposed);
    let assumed: HashMap<Vec<i32>, Assumption> =
        assumptions.iter().map(|assumption| (constraint(*assumption, plain), *assumption)).collect();
    for line in lines {
        let (head, why) = match line {
            Line::Given { body, head: Some(head) } => (*head, reader.rule(body, *head)?),
            Line::Given { body, head: None } => match assumed.get(body) {
                Some(assumption) => (assumption.literal(), reader.assumption(*assumption)?),
                None if body[..] == [literal] => continue,
                None => return None,
            },
            Line::Support(atom) => (-atom, Why::Fails(reader.failing(&plain.bodies_of(*atom), &[*atom])?)),
            Line::Loop(set) => {
                let mut ascending = set.clone();
                ascending.sort_unstable();
                let fails = reader.failing(&plain.external_bodies(&ascending), &ascending)?;
                (-set[0], Why::Loop { set: ascending, fails })
            }
        };
        reader.push(head, why);
    }
    let root = *reader.known.get(&literal)?;
    Some(cut(&reader.nodes, root))
}

/// What a node rests on, and nothing else.
pub fn cut(nodes: &[Node], root: usize) -> Tree {
    let mut needed = BTreeSet::from([root]);
    let mut left = vec![root];
    while let Some(place) = left.pop() {
        left.extend(nodes[place].why.below().into_iter().filter(|below| needed.insert(*below)));
    }
    let places: HashMap<usize, usize> = needed.iter().enumerate().map(|(new, old)| (*old, new)).collect();
    let nodes = needed.iter().map(|place| Node { literal: nodes[*place].literal, why: nodes[*place].why.moved(&places) });
    Tree { nodes: nodes.collect(), bodies: Vec::new() }
}

impl Reader<'_> {
    fn push(&mut self, literal: i32, why: Why) {
        self.known.entry(literal).or_insert(self.nodes.len());
        self.nodes.push(Node { literal, why });
    }

    /// The nodes of a body's literals.
    fn body(&self, body: &[i32]) -> Option<Vec<usize>> {
        body.iter().map(|literal| self.known.get(literal).copied()).collect()
    }

    /// The first rule that gives an atom by a body, normal or a choice.
    fn rule_of(&self, body: &[i32], head: i32, choice: bool) -> Option<usize> {
        let supports = &self.plain.supports[head as usize];
        let found = supports.iter().find(|support| support.choice == choice && self.plain.bodies[support.body] == body);
        found.map(|support| support.rule)
    }

    fn rule(&self, body: &[i32], head: i32) -> Option<Why> {
        Some(Why::Rule { rule: self.rule_of(body, head, false)?, below: self.body(body)? })
    }

    fn assumption(&self, assumption: Assumption) -> Option<Why> {
        match assumption {
            Assumption::Taken { head, body } => {
                // Without room for the body in the constraint, it is assumed that the head holds.
                let needed = if constraint(assumption, self.plain).len() > 1 { &self.plain.bodies[body][..] } else { &[] };
                Some(Why::Taken { rule: self.rule_of(&self.plain.bodies[body], head, true)?, below: self.body(needed)? })
            }
            Assumption::Left(atom) => Some(Why::Left { rules: self.plain.choices_of(atom) }),
        }
    }

    /// Of rules with these bodies and heads among these atoms, which literals fail. One that fails for another body
    /// already is taken again, and what is only supposed where there is no other.
    fn failing(&self, bodies: &BTreeSet<usize>, heads: &[i32]) -> Option<Vec<Failed>> {
        let mut by_rule: Vec<Failed> = Vec::new();
        let mut taken: BTreeSet<usize> = BTreeSet::new();
        for body in bodies {
            let known = self.plain.bodies[*body].iter().filter_map(|literal| self.known.get(&-literal).copied());
            let known: Vec<usize> = known.collect();
            let again = known.iter().find(|place| taken.contains(place));
            let node = *again.or(known.iter().max_by_key(|place| (**place > 0, std::cmp::Reverse(**place))))?;
            taken.insert(node);
            let rules: BTreeSet<usize> =
                self.plain.given[*body].iter().filter(|support| heads.contains(&support.head)).map(|support| support.rule).collect();
            for rule in rules {
                match by_rule.iter_mut().find(|failed| failed.rule == rule) {
                    Some(failed) if !failed.below.contains(&node) => failed.below.push(node),
                    Some(_) => {}
                    None => by_rule.push(Failed { rule, below: vec![node] }),
                }
            }
        }
        by_rule.sort_by_key(|failed| failed.rule);
        Some(by_rule)
    }
}
