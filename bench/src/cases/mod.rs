//! The inputs that are measured: each a program text and a proof text within the limits of document 01, made from fixed seeds.

mod chain;
mod completion;
mod deletions;
mod long;
mod pigeons;
mod refutations;
mod searched;
mod slow;
mod weights;
mod wide;

use inputs::lines::{proof_text, Line};
use inputs::rules::{program_text, Body, Rule};
use inputs::{Pair, ROOM};

/// One input, the words of its store, whether it has a packet, which holds no weights, and what its time is to reach.
#[derive(Clone)]
pub struct Input {
    pub name: String,
    pub texts: Pair,
    pub store: usize,
    pub packs: bool,
    pub goal: Option<Goal>,
}

/// A program, the atom that it is split on, and a refutation of each half: the one that demands the atom, and the one that forbids it.
pub struct Split {
    pub name: String,
    pub program: Vec<u8>,
    pub atom: usize,
    pub halves: [Vec<Line>; 2],
}

/// A program, the numbers of a tree of splits, and for each of its ends the program with the constraints on its path and a refutation of that.
pub struct Tree {
    pub name: String,
    pub program: Vec<u8>,
    pub numbers: Vec<u16>,
    pub ends: Vec<Pair>,
}

/// A program with a set that is to be certified as cheapest: the costs as they are lent, what the set costs, a refutation of the program
/// restricted to less, and that program.
pub struct Certificate {
    pub name: String,
    pub program: Vec<u8>,
    pub set: Vec<u16>,
    pub costs: Vec<i16>,
    pub cost: usize,
    pub proof: Vec<Line>,
    pub restricted: Vec<u8>,
}

/// What the time of the verified check is to reach.
#[derive(Clone, Copy)]
pub enum Goal {
    /// At most so many times that of the unverified one.
    Ratio(f64),
    /// Under so many milliseconds.
    Milliseconds(u32),
}

impl Input {
    fn of(name: impl Into<String>, rules: &[Rule], lines: &[Line]) -> Input {
        let packs = rules.iter().all(|rule| matches!(rule.body, Body::Plain(_)));
        Input { name: name.into(), texts: Pair::of(program_text(rules), proof_text(lines)), store: ROOM, packs, goal: None }
    }

    fn with_goal(self, goal: Goal) -> Input {
        Input { goal: Some(goal), ..self }
    }
}

/// All inputs, in the order of the report.
pub fn all() -> Vec<Input> {
    let mut inputs = Vec::new();
    inputs.extend(pigeons::inputs());
    inputs.extend(searched::inputs());
    inputs.push(chain::input());
    inputs.push(wide::input());
    inputs.extend(weights::inputs());
    inputs.extend(deletions::inputs());
    inputs
}

/// The inputs that were made to be slow.
pub fn slow() -> Vec<Input> {
    slow::inputs()
}

/// The split whose halves are merged.
pub fn split() -> Split {
    searched::split()
}

/// The tree whose ends are merged.
pub fn tree() -> Tree {
    searched::tree()
}

/// The set that is certified as cheapest.
pub fn certificate() -> Certificate {
    weights::certificate()
}

/// Refutations of growing size.
pub fn growing() -> Vec<Input> {
    searched::growing()
}

/// Proofs of up to so many megabytes, made here.
pub fn long(megabytes: f64) -> Vec<Input> {
    long::inputs(megabytes)
}

/// Proofs of plans, found by the command at a path: of the lengths that they come to.
pub fn long_plans(command: &str) -> Result<Vec<Input>, String> {
    long::plans(command)
}
