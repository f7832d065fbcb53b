//! Refutations trimmed: how long it takes beside the whole check, and how many steps are left.

use crate::cases::Input;
use crate::measure::{timed, times_of, Times};
use aspdrupe::{Trimming, Verdict};
use inputs::ROOM;
use std::hint::black_box;
use std::time::Duration;

/// The inputs that are trimmed, with the steps that must be left of each. The first are small.
const LEFT: [(&str, usize); 6] =
    [("pigeons-4-3", 50), ("random-400", 207), ("random-800", 406), ("pigeons-6-5", 368), ("random-1600", 707), ("random-2300", 1_117)];

/// So many of them are trimmed where each is to be run once.
const SMALL: usize = 2;

/// A larger number of repetitions is not needed for times of seconds.
const MOST: usize = 3;

/// A proof that was trimmed: its steps, those that are left with their bytes, and the times of its check and of trimming it.
pub struct Trimmed {
    pub name: String,
    pub steps: usize,
    pub left: usize,
    pub size: usize,
    pub checking: Times,
    pub trimming: Times,
}

/// Trims the inputs, each so many times; the name alone where it is refused, or other steps are left than must be.
pub fn measure(inputs: &[Input], repetitions: usize) -> Vec<Result<Trimmed, String>> {
    let count = if repetitions == 1 { SMALL } else { LEFT.len() };
    let named = |name: &str| inputs.iter().find(|input| input.name == name);
    let trimmed = |(name, left): &(&str, usize)| {
        let found = named(name).and_then(|input| of(input, repetitions.min(MOST)));
        found.filter(|trimmed| trimmed.left == *left).ok_or_else(|| String::from(*name))
    };
    LEFT[..count].iter().map(trimmed).collect()
}

fn of(input: &Input, repetitions: usize) -> Option<Trimmed> {
    let runs: Vec<Run> = (0..repetitions).map(|_| run(input)).collect::<Option<_>>()?;
    let first = runs.first()?;
    Some(Trimmed {
        name: input.name.clone(),
        steps: first.steps,
        left: first.left,
        size: first.size,
        checking: times_of(runs.iter().map(|run| run.checking).collect()),
        trimming: times_of(runs.iter().map(|run| run.trimming).collect()),
    })
}

/// One check of a proof and one trimming of it: the steps before and after, the bytes that are left, and the two times.
struct Run {
    steps: usize,
    left: usize,
    size: usize,
    checking: Duration,
    trimming: Duration,
}

fn run(input: &Input) -> Option<Run> {
    let (mut table, mut store, mut text) = (vec![0; ROOM], vec![0; input.store], input.texts.proof.clone());
    let program = &input.texts.program;
    let (verdict, checking) = timed(|| aspdrupe::check_texts(black_box(program), black_box(&text), &mut table, &mut store));
    let Ok(Verdict::Inconsistent(counts)) = verdict else { return None };
    let (trimmed, trimming) = timed(|| aspdrupe::trim_proof(black_box(program), black_box(&mut text), &mut table, &mut store));
    let Ok(Trimming::Trimmed(size)) = trimmed else { return None };
    let left = text[..size].iter().filter(|byte| **byte == b'\n').count();
    Some(Run { steps: counts.steps, left, size, checking, trimming })
}
