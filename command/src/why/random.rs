//! Random programs: each literal of each answer set is explained and certified, and what is promised of the assumptions
//! is held to a plain reading of the definitions.

use std::collections::BTreeSet;

use super::assumptions::basis;
use super::certificate::{Certificate, Certified, Derivation};
use super::closure::{Assumption, Closure, Lines};
use super::program::Plain;
use super::tree::{tree, Tree, Why};
use crate::arguments::ROOM;
use crate::certify::Limits;
use crate::library::{read_program, test_set};
use crate::progress::Progress;
use crate::rules::rules;

/// Numbers that look random (Marsaglia's xorshift).
pub struct Random(u64);

impl Random {
    pub fn of(seed: u64) -> Random {
        Random(seed.wrapping_mul(0x9e37_79b9_7f4a_7c15) | 1)
    }

    fn below(&mut self, bound: u64) -> u64 {
        self.0 ^= self.0 << 13;
        self.0 ^= self.0 >> 7;
        self.0 ^= self.0 << 17;
        (self.0 >> 20) % bound
    }

    /// So many different literals over the first atoms.
    fn literals(&mut self, count: u64, atoms: u64) -> Vec<i64> {
        let mut found: Vec<i64> = Vec::new();
        while (found.len() as u64) < count {
            let atom = self.below(atoms) as i64 + 1;
            if !found.iter().any(|literal| literal.abs() == atom) {
                found.push(if self.below(3) == 0 { -atom } else { atom });
            }
        }
        found
    }

    /// A rule over the first atoms: normal, a choice, a constraint, or one with a sum.
    fn rule(&mut self, atoms: u64) -> String {
        let words = |numbers: &[i64]| numbers.iter().map(|number| format!(" {number}")).collect::<String>();
        let size = self.below(4);
        let body = self.literals(size, atoms);
        let head = self.below(atoms) as i64 + 1;
        match self.below(10) {
            0 | 1 => {
                let other = head % atoms as i64 + 1;
                format!("1 1 2 {head} {other} 0 {}{}", body.len(), words(&body))
            }
            2 => format!("1 0 0 0 {}{}", body.len().max(1), words(if body.is_empty() { &[1] } else { &body })),
            3 => {
                let sum = self.literals(4, atoms);
                let pairs: Vec<i64> = sum.iter().flat_map(|literal| [*literal, 1 + literal.abs() % 3]).collect();
                format!("1 0 1 {head} 1 {} 4{}", 2 + self.below(4), words(&pairs))
            }
            _ => format!("1 0 1 {head} 0 {}{}", body.len(), words(&body)),
        }
    }

    pub fn program(&mut self, atoms: u64) -> String {
        let count = 4 + self.below(8);
        let lines: String = (0..count).map(|_| format!("{}\n", self.rule(atoms))).collect();
        format!("asp 1 0 0\n{lines}1 1 1 {atoms} 0 1 {atoms}\n0\n")
    }
}

/// The answer sets of a program of few atoms, by trying all sets.
pub fn answer_sets(text: &str) -> (Plain, Vec<Vec<u16>>) {
    let program = read_program(text.as_bytes(), 10_000).unwrap().unwrap();
    let set = |bits: u32| (1..=program.atoms as u16).filter(|atom| bits >> (atom - 1) & 1 == 1).collect::<Vec<u16>>();
    let is_answer = |set: &Vec<u16>| test_set(&program, set).unwrap().0 == aspdrupe::SetAnswer::Yes;
    let sets = (0..1 << program.atoms).map(set).filter(is_answer).collect();
    (Plain::of(rules(&program), program.atoms), sets)
}

/// What follows, by the definitions read plainly: heads of rules whose bodies hold, and the greatest unfounded set, until
/// nothing is new.
fn follows(plain: &Plain, assumptions: &[Assumption]) -> BTreeSet<i32> {
    let mut known: BTreeSet<i32> =
        assumptions.iter().filter(|assumption| matches!(assumption, Assumption::Left(_))).map(|assumption| assumption.literal()).collect();
    loop {
        let before = known.len();
        let holds = |body: usize| plain.bodies[body].iter().all(|literal| known.contains(literal));
        let taken = |head: i32, body: usize| assumptions.contains(&Assumption::Taken { head, body });
        let all = || plain.supports.iter().flatten();
        let given: Vec<i32> =
            all().filter(|rule| holds(rule.body) && (!rule.choice || taken(rule.head, rule.body))).map(|rule| rule.head).collect();
        let mut unfounded: BTreeSet<i32> = (1..=plain.atoms as i32).collect();
        loop {
            let fails = |body: usize| plain.bodies[body].iter().any(|literal| known.contains(&-literal));
            let leans = |body: usize| plain.bodies[body].iter().any(|literal| unfounded.contains(literal));
            let founded: Vec<i32> = all().filter(|rule| !fails(rule.body) && !leans(rule.body)).map(|rule| rule.head).collect();
            let size = unfounded.len();
            unfounded.retain(|atom| !founded.contains(atom));
            if unfounded.len() == size {
                break;
            }
        }
        known.extend(given);
        known.extend(unfounded.iter().map(|atom| -atom));
        if known.len() == before {
            return known;
        }
    }
}

/// Explains a literal; the assumptions, the certificate and the tree.
pub fn explained(
    plain: &Plain,
    text: &str,
    set: &[u16],
    literal: i32,
    progress: &Progress,
) -> (Vec<Assumption>, Certificate, Option<Tree>) {
    let basis = basis(plain, set, literal).expect("a basis");
    assert_eq!(basis.lines, Lines::Writable);
    let closure = Closure::of(plain, &basis.assumptions, basis.lines);
    let derivation = Derivation { plain, text: text.as_bytes(), literal, assumptions: &basis.assumptions, closure: &closure };
    let limits = Limits { table: ROOM, store: None, time: None };
    let Ok(Certified::Yes(certificate)) = derivation.certified(limits, progress) else { panic!("{text}{set:?} {literal}: not certified") };
    let tree = tree(plain, literal, &certificate.assumptions, &certificate.lines);
    (basis.assumptions, certificate, tree)
}

#[test]
fn every_literal_of_every_answer_set() {
    let progress = Progress::start();
    let (mut count, mut assumed, mut loops, mut supposed, mut contrary, mut shorter, mut fewer_left) = (0, 0, 0, 0, 0, 0, 0);
    for seed in 0..400 {
        let text = Random::of(seed).program(6);
        let (plain, sets) = answer_sets(&text);
        for set in sets {
            for atom in 1..=plain.atoms as i32 {
                let literal = if crate::rules::holds(atom, &set) { atom } else { -atom };
                let (assumptions, certificate, tree) = explained(&plain, &text, &set, literal, &progress);
                count += 1;
                assumed += usize::from(!assumptions.is_empty());
                shorter += usize::from(certificate.trimmed != Some(0));
                fewer_left += usize::from(certificate.assumptions.len() < assumptions.len());
                assert!(follows(&plain, &assumptions).contains(&literal), "{text}{set:?} {literal}: {assumptions:?}");
                for left_out in 0..1 << assumptions.len().min(6) {
                    let fewer = assumptions.iter().enumerate().filter(|(place, _)| left_out >> place & 1 == 0).map(|(_, kept)| *kept);
                    let fewer: Vec<Assumption> = fewer.collect();
                    let needed = fewer.len() < assumptions.len() && follows(&plain, &fewer).contains(&literal);
                    assert!(!needed, "{text}{set:?} {literal}: {fewer:?} will do for {assumptions:?}");
                }
                let tree = tree.unwrap_or_else(|| panic!("{text}{set:?} {literal}: no tree of\n{}", certificate.refuted.proof.text));
                assert_eq!(tree.nodes.last().map(|root| root.literal), Some(literal));
                if tree.nodes.iter().any(|node| matches!(node.why, Why::Contrary { .. })) {
                    contrary += 1;
                    continue;
                }
                loops += usize::from(tree.nodes.iter().any(|node| matches!(node.why, Why::Loop { .. })));
                supposed += usize::from(tree.nodes.iter().any(|node| node.why == Why::Supposed));
                // Each line that is left is of a node, but that against the literal.
                assert_eq!(tree.nodes.iter().filter(|node| node.why != Why::Supposed).count() + 1, certificate.lines.len());
            }
        }
    }
    println!(
        "{count} literals, {assumed} by assumptions, {loops} by loops, {supposed} supposed, {contrary} by the contrary, {shorter} shorter, {fewer_left} with fewer assumptions"
    );
    assert!(count > 1_000 && assumed > 300 && loops > 30, "{count} {assumed} {loops}");
    assert!(contrary > 0 && contrary < count / 50, "{contrary} of {count}");
}
