//! Measuring: both checkers on each input, in turn, and the median and the least of the times.

use crate::cases::Input;
use crate::unverified;
use aspdrupe::{UnknownAnswer, Verdict};
use inputs::ROOM;
use std::hint::black_box;
use std::time::{Duration, Instant};

/// What a checker says of an input.
pub type Answer = Result<Verdict, UnknownAnswer>;

/// A table and a store, lent to each check through the library, of the store as many words as the input has. The check itself zeroes them.
pub struct Buffers {
    table: Vec<i32>,
    store: Vec<i32>,
}

impl Buffers {
    pub fn new() -> Self {
        Buffers { table: vec![0; ROOM], store: vec![0; ROOM] }
    }

    pub fn verified(&mut self, input: &Input) -> Answer {
        if self.store.len() < input.store {
            self.store.resize(input.store, 0);
        }
        let store = &mut self.store[..input.store];
        aspdrupe::check_texts(black_box(&input.texts.program), black_box(&input.texts.proof), &mut self.table, store)
    }
}

pub fn unverified(input: &Input) -> Answer {
    unverified::check(black_box(&input.texts.program), black_box(&input.texts.proof), ROOM, input.store)
}

/// What both checkers say of an input, and their times.
pub struct Measured {
    pub verified: Answer,
    pub unverified: Answer,
    pub verified_times: Times,
    pub unverified_times: Times,
}

/// The median and the least of the times of a call on an input.
pub struct Times {
    pub median: Duration,
    pub least: Duration,
}

/// One run of both checkers on an input.
struct Run {
    verified: (Answer, Duration),
    unverified: (Answer, Duration),
}

/// Goes so many times through all inputs and runs both checkers on each, so that a busy moment of the machine touches all alike.
pub fn measure(inputs: &[Input], repetitions: usize) -> Vec<Measured> {
    let mut buffers = Buffers::new();
    measure_by(inputs, repetitions, |input| buffers.verified(input), unverified)
}

/// The same by two checkers that are told.
pub fn measure_by(
    inputs: &[Input],
    repetitions: usize,
    mut verified_by: impl FnMut(&Input) -> Answer,
    mut unverified_by: impl FnMut(&Input) -> Answer,
) -> Vec<Measured> {
    let mut runs: Vec<Vec<Run>> = inputs.iter().map(|_| Vec::with_capacity(repetitions)).collect();
    for _ in 0..repetitions {
        for (input, runs) in inputs.iter().zip(&mut runs) {
            let verified = timed(|| verified_by(input));
            let unverified = timed(|| unverified_by(input));
            runs.push(Run { verified, unverified });
        }
    }
    runs.iter().map(|runs| summed_up(runs)).collect()
}

/// The verdicts of the first run in which they differ, or of the last, and the times of all.
fn summed_up(runs: &[Run]) -> Measured {
    let differing = runs.iter().find(|run| run.verified.0 != run.unverified.0);
    let shown = differing.unwrap_or(&runs[runs.len() - 1]);
    Measured {
        verified: shown.verified.0,
        unverified: shown.unverified.0,
        verified_times: times_of(runs.iter().map(|run| run.verified.1).collect()),
        unverified_times: times_of(runs.iter().map(|run| run.unverified.1).collect()),
    }
}

/// What a call answers, and its time.
pub fn timed<A>(call: impl FnOnce() -> A) -> (A, Duration) {
    let start = Instant::now();
    let answer = black_box(call());
    (answer, start.elapsed())
}

pub fn times_of(mut times: Vec<Duration>) -> Times {
    times.sort_unstable();
    Times { median: times[times.len() / 2], least: times[0] }
}
