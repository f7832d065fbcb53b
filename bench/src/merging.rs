//! The refutations of two halves merged into one proof: how long it takes, and how long the whole check of that proof takes.

use crate::cases::Split;
use crate::measure::{timed, times_of, Times};
use aspdrupe::{Merging, Verdict};
use inputs::lines::proof_text;
use inputs::{ROOM, TEXT_LIMIT};
use std::hint::black_box;
use std::time::Duration;

/// Two halves that were merged: the steps of each, those of the merged proof with its bytes, and the times.
pub struct Merged {
    pub name: String,
    pub halves: [usize; 2],
    pub steps: usize,
    pub size: usize,
    pub merging: Times,
    pub checking: Times,
}

/// Merges the halves and checks the merged proof so many times. None where they are refused, or the merged proof is not accepted.
pub fn measure(split: &Split, repetitions: usize) -> Option<Merged> {
    let texts = split.halves.each_ref().map(|half| proof_text(half));
    let mut buffers = Buffers::new();
    let runs: Option<Vec<Run>> = (0..repetitions).map(|_| buffers.run(split, texts.each_ref().map(|text| text.as_bytes()))).collect();
    let runs = runs?;
    let first = runs.first()?;
    Some(Merged {
        name: split.name.clone(),
        halves: split.halves.each_ref().map(Vec::len),
        steps: first.steps,
        size: first.size,
        merging: times_of(runs.iter().map(|run| run.merging).collect()),
        checking: times_of(runs.iter().map(|run| run.checking).collect()),
    })
}

/// One merge and the check of what it writes: the steps, the bytes, and the two times.
struct Run {
    steps: usize,
    size: usize,
    merging: Duration,
    checking: Duration,
}

/// What is lent to each call. The calls themselves zero it.
struct Buffers {
    table: Vec<i32>,
    store: Vec<i32>,
    output: Vec<u8>,
}

impl Buffers {
    fn new() -> Self {
        Buffers { table: vec![0; ROOM], store: vec![0; ROOM], output: vec![0; TEXT_LIMIT] }
    }

    fn run(&mut self, split: &Split, [first, second]: [&[u8]; 2]) -> Option<Run> {
        let Buffers { table, store, output } = self;
        let program = &split.program;
        let (merged, merging) =
            timed(|| aspdrupe::merge_halves(black_box(program), split.atom, black_box(first), black_box(second), table, store, output));
        let Ok(Merging::Merged(size)) = merged else { return None };
        let (verdict, checking) = timed(|| aspdrupe::check_texts(black_box(program), black_box(&output[..size]), table, store));
        let Ok(Verdict::Inconsistent(counts)) = verdict else { return None };
        Some(Run { steps: counts.steps, size, merging, checking })
    }
}
