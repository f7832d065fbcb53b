//! What follows from assumptions by the rules: where the body of a rule holds, its head does; an atom of which each rule
//! fails does not hold, nor does a set of atoms that only hold each other up. What is derived is true of the answer set
//! that the assumptions are of, and more assumptions never take anything away. Without assumptions it is the
//! well-founded model.

use std::collections::{BTreeSet, BinaryHeap, HashMap};
use std::rc::Rc;

use super::program::{Plain, Support};
use crate::certify::components;

/// The most numbers of a proof line.
const MOST_NUMBERS: usize = aspdrupe::MOST_NUMBERS;

/// What is assumed of an answer set.
#[derive(Debug, Clone, Copy, PartialEq, Eq, PartialOrd, Ord, Hash)]
pub enum Assumption {
    /// A choice is taken: where this body of a choice rule holds, the head does.
    Taken { head: i32, body: usize },
    /// The atom does not hold: a choice is left, or it is false by assumption.
    Left(i32),
}

impl Assumption {
    /// What it makes hold.
    pub fn literal(self) -> i32 {
        match self {
            Assumption::Taken { head, .. } => head,
            Assumption::Left(atom) => -atom,
        }
    }
}

/// Why a literal holds.
#[derive(Debug, Clone, PartialEq, Eq)]
pub enum Reason {
    /// The body of a normal rule holds.
    Rule(usize),
    /// The body of a choice that is taken holds.
    Taken(usize),
    /// It is assumed to be false.
    Left,
    /// Each body that could give it fails.
    Unsupported,
    /// It is of a set, ascending, that holds itself up: each body from outside fails.
    Loop(Rc<Vec<i32>>),
}

/// Whether only what a proof line has room for is derived.
#[derive(Debug, Clone, Copy, PartialEq, Eq)]
pub enum Lines {
    All,
    Writable,
}

/// What is derived, in its order.
pub struct Closure<'a> {
    plain: &'a Plain,
    lines: Lines,
    /// By atom, its value where there is one, the reason and its place in the order.
    value: Vec<Option<bool>>,
    reason: Vec<Option<Reason>>,
    place: Vec<usize>,
    order: Vec<i32>,
    /// By body, how many of its literals do not hold yet, and whether one fails.
    open: Vec<usize>,
    failed: Vec<bool>,
    /// By atom, how many of its rules have not failed.
    alive: Vec<usize>,
    /// How much of the order has been gone through.
    done: usize,
    taken: BTreeSet<(i32, usize)>,
    /// Whether assumptions count yet; and the choices that were taken before.
    assumes: bool,
    waiting: Vec<Support>,
}

impl<'a> Closure<'a> {
    /// What follows from the assumptions. What follows without any comes first.
    pub fn of(plain: &'a Plain, assumptions: &[Assumption], lines: Lines) -> Closure<'a> {
        let taken = assumptions.iter().filter_map(|assumption| match assumption {
            Assumption::Taken { head, body } => Some((*head, *body)),
            Assumption::Left(_) => None,
        });
        let mut closure = Closure {
            plain,
            lines,
            value: vec![None; plain.atoms + 1],
            reason: vec![None; plain.atoms + 1],
            place: vec![0; plain.atoms + 1],
            order: Vec::new(),
            open: plain.bodies.iter().map(Vec::len).collect(),
            failed: vec![false; plain.bodies.len()],
            alive: plain.supports.iter().map(Vec::len).collect(),
            done: 0,
            taken: taken.collect(),
            assumes: false,
            waiting: Vec::new(),
        };
        closure.begin();
        closure.run();
        closure.assumes = true;
        for atom in assumptions.iter().filter(|assumption| matches!(assumption, Assumption::Left(_))) {
            closure.derive(atom.literal(), Reason::Left);
        }
        for support in std::mem::take(&mut closure.waiting) {
            closure.give(support);
        }
        closure.run();
        closure
    }

    /// What holds before anything else: facts, and that atoms without a rule do not.
    fn begin(&mut self) {
        for body in (0..self.open.len()).filter(|body| self.plain.bodies[*body].is_empty()) {
            self.body_holds(body);
        }
        for atom in (1..=self.plain.atoms).filter(|atom| self.plain.supports[*atom].is_empty()) {
            self.derive(-(atom as i32), Reason::Unsupported);
        }
    }

    fn run(&mut self) {
        loop {
            while let Some(literal) = self.order.get(self.done).copied() {
                self.done += 1;
                self.follow(literal);
            }
            if !self.add_loops() {
                return;
            }
        }
    }

    /// Derives a literal where its atom has no value.
    fn derive(&mut self, literal: i32, reason: Reason) {
        let atom = literal.unsigned_abs() as usize;
        if self.value[atom].is_none() {
            self.value[atom] = Some(literal > 0);
            self.reason[atom] = Some(reason);
            self.place[atom] = self.order.len();
            self.order.push(literal);
        }
    }

    /// What a literal does to the bodies that it stands in.
    fn follow(&mut self, literal: i32) {
        let plain = self.plain;
        for body in plain.with(literal) {
            self.open[*body] -= 1;
            if self.open[*body] == 0 {
                self.body_holds(*body);
            }
        }
        for body in plain.with(-literal) {
            if !std::mem::replace(&mut self.failed[*body], true) {
                plain.given[*body].iter().for_each(|support| self.lose(support.head));
            }
        }
    }

    fn body_holds(&mut self, body: usize) {
        let plain = self.plain;
        plain.given[body].iter().for_each(|support| self.give(*support));
    }

    /// A rule whose body holds gives its head, where it may.
    fn give(&mut self, support: Support) {
        if !support.choice {
            self.derive(support.head, Reason::Rule(support.body));
        } else if self.taken.contains(&(support.head, support.body)) {
            if self.assumes {
                self.derive(support.head, Reason::Taken(support.body));
            } else {
                self.waiting.push(support);
            }
        }
    }

    /// A rule for an atom has failed.
    fn lose(&mut self, atom: i32) {
        let left = &mut self.alive[atom as usize];
        *left -= 1;
        if *left == 0 && (self.lines == Lines::All || self.plain.bodies_of(atom).len() < MOST_NUMBERS) {
            self.derive(-atom, Reason::Unsupported);
        }
    }

    /// Derives that sets do not hold which hold only themselves up; whether there are any.
    fn add_loops(&mut self) -> bool {
        let unfounded = self.unfounded();
        let places: HashMap<i32, usize> = unfounded.iter().enumerate().map(|(place, atom)| (*atom, place)).collect();
        let needs: Vec<Vec<usize>> = unfounded
            .iter()
            .map(|atom| {
                let alive = self.plain.supports[*atom as usize].iter().filter(|support| !self.failed[support.body]);
                let leaned = alive.flat_map(|support| &self.plain.bodies[support.body]);
                leaned.filter_map(|literal| places.get(literal).copied()).collect()
            })
            .collect();
        let before = self.order.len();
        for component in components(&needs) {
            let mut set: Vec<i32> = component.iter().map(|place| unfounded[*place]).collect();
            set.sort_unstable();
            let inside = |place: &usize| set.binary_search(&unfounded[*place]).is_ok();
            let closed = component.iter().all(|place| !needs[*place].is_empty() && needs[*place].iter().all(inside));
            if closed && (self.lines == Lines::All || set.len() <= MOST_NUMBERS) {
                let set = Rc::new(set);
                set.iter().for_each(|atom| self.derive(-atom, Reason::Loop(Rc::clone(&set))));
            }
        }
        self.order.len() > before
    }

    /// The atoms without a value that no rules give from the ground up, whatever of what is open holds.
    fn unfounded(&self) -> Vec<i32> {
        let plain = self.plain;
        let is_true = |atom: usize| self.value[atom] == Some(true);
        let counted = |literal: &&i32| **literal > 0 && !is_true(**literal as usize);
        let mut missing: Vec<usize> = plain.bodies.iter().map(|body| body.iter().filter(counted).count()).collect();
        let mut founded = vec![false; plain.atoms + 1];
        let mut ready: Vec<usize> = (0..missing.len()).filter(|body| missing[*body] == 0 && !self.failed[*body]).collect();
        while let Some(body) = ready.pop() {
            for support in &plain.given[body] {
                let head = support.head as usize;
                if self.value[head].is_some() || std::mem::replace(&mut founded[head], true) {
                    continue;
                }
                for body in plain.with(support.head) {
                    missing[*body] -= 1;
                    if missing[*body] == 0 && !self.failed[*body] {
                        ready.push(*body);
                    }
                }
            }
        }
        let open = |atom: &usize| self.value[*atom].is_none() && !founded[*atom];
        (1..=plain.atoms).filter(open).map(|atom| atom as i32).collect()
    }

    pub fn holds(&self, literal: i32) -> bool {
        self.value[literal.unsigned_abs() as usize] == Some(literal > 0)
    }

    /// The reason of a literal that holds.
    pub fn reason(&self, literal: i32) -> Option<&Reason> {
        self.reason[literal.unsigned_abs() as usize].as_ref().filter(|_| self.holds(literal))
    }

    fn place(&self, literal: i32) -> usize {
        self.place[literal.unsigned_abs() as usize]
    }

    /// What a literal that holds rests on, itself included, in the order of derivation. Where several literals of a body
    /// fail, one is taken that is needed anyway, or the first that was derived.
    pub fn needed(&self, literal: i32) -> Vec<i32> {
        let mut needed = BTreeSet::from([self.place(literal)]);
        let mut left = BinaryHeap::from([self.place(literal)]);
        while let Some(place) = left.pop() {
            for below in self.below(self.order[place], &needed) {
                if needed.insert(below) {
                    left.push(below);
                }
            }
        }
        needed.into_iter().map(|place| self.order[place]).collect()
    }

    /// The places of what a derived literal rests on at once.
    fn below(&self, literal: i32, needed: &BTreeSet<usize>) -> Vec<usize> {
        let whole = |body: usize| self.plain.bodies[body].iter().map(|literal| self.place(*literal)).collect();
        let failing = |bodies: BTreeSet<usize>| {
            let mut taken = Vec::new();
            for body in bodies {
                let fails = self.plain.bodies[body].iter().filter(|other| self.holds(-**other)).map(|other| self.place(*other));
                let before: Vec<usize> = fails.filter(|place| *place < self.place(literal)).collect();
                let known = before.iter().find(|place| needed.contains(place) || taken.contains(*place));
                taken.extend(known.or(before.iter().min()));
            }
            taken
        };
        match self.reason(literal) {
            Some(Reason::Rule(body) | Reason::Taken(body)) => whole(*body),
            Some(Reason::Unsupported) => failing(self.plain.bodies_of(-literal)),
            Some(Reason::Loop(set)) => failing(self.plain.external_bodies(set)),
            Some(Reason::Left) | None => Vec::new(),
        }
    }
}
