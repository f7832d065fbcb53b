//! The refutations at the ends of a tree of splits merged into one proof: how long it takes, and how long the whole checks of the ends and of that
//! proof take.

use crate::cases::Tree;
use crate::measure::{timed, times_of, Times};
use aspdrupe::{Merging, Verdict};
use inputs::{ROOM, TEXT_LIMIT};
use std::hint::black_box;
use std::time::Duration;

/// A tree that was merged: its ends with their bytes, the steps and bytes of the merged proof, and the times.
pub struct Merged {
    pub name: String,
    pub ends: usize,
    pub texts: usize,
    pub steps: usize,
    pub size: usize,
    pub merging: Times,
    pub ends_checking: Times,
    pub checking: Times,
}

/// What is lent to each call. The calls themselves zero it.
struct Buffers {
    table: Vec<i32>,
    store: Vec<i32>,
    output: Vec<u8>,
}

/// One merge, the checks of all ends, and the check of what is written: the steps, the bytes, and the three times.
struct Run {
    steps: usize,
    size: usize,
    merging: Duration,
    ends_checking: Duration,
    checking: Duration,
}

/// Merges the tree and checks its ends and the merged proof so many times. None where anything is refused or open.
pub fn measure(tree: &Tree, repetitions: usize) -> Option<Merged> {
    let texts = tree.ends.iter().flat_map(|end| end.proof.clone()).collect::<Vec<u8>>();
    let lengths: Vec<u64> = tree.ends.iter().map(|end| end.proof.len() as u64).collect();
    let mut buffers = Buffers { table: vec![0; ROOM], store: vec![0; ROOM], output: vec![0; TEXT_LIMIT] };
    let runs: Vec<Run> = (0..repetitions).map(|_| buffers.run(tree, &texts, &lengths)).collect::<Option<_>>()?;
    let first = runs.first()?;
    Some(Merged {
        name: tree.name.clone(),
        ends: tree.ends.len(),
        texts: texts.len(),
        steps: first.steps,
        size: first.size,
        merging: times_of(runs.iter().map(|run| run.merging).collect()),
        ends_checking: times_of(runs.iter().map(|run| run.ends_checking).collect()),
        checking: times_of(runs.iter().map(|run| run.checking).collect()),
    })
}

impl Buffers {
    fn run(&mut self, tree: &Tree, texts: &[u8], lengths: &[u64]) -> Option<Run> {
        let Buffers { table, store, output } = self;
        let (program, numbers) = (&tree.program, &tree.numbers);
        let merge = || aspdrupe::merge_tree(black_box(program), black_box(numbers), black_box(texts), lengths, table, store, output);
        let (merged, merging) = timed(merge);
        let Ok(Merging::Merged(size)) = merged else { return None };
        let mut check = |program: &[u8], proof: &[u8]| match aspdrupe::check_texts(black_box(program), black_box(proof), table, store) {
            Ok(Verdict::Inconsistent(counts)) => Some(counts.steps),
            _ => None,
        };
        let (ends, ends_checking) = timed(|| tree.ends.iter().all(|end| check(&end.program, &end.proof).is_some()));
        let (steps, checking) = timed(|| check(program, &output[..size]));
        Some(Run { steps: steps.filter(|_| ends)?, size, merging, ends_checking, checking })
    }
}
