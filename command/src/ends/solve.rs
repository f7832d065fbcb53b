//! The ends of a tree solved side by side, each by a cadical of its own, until one has an answer set or all are done.

use std::sync::atomic::{AtomicUsize, Ordering};
use std::sync::mpsc::{channel, Sender};
use std::sync::{Arc, Mutex, PoisonError};

use crate::certify::{Answer, AnswerSet, Certifier, Limits, Refuted, Times};
use crate::interrupt;
use crate::outcome::Failure;
use crate::progress::Progress;

/// What the ends come to.
pub enum Solved {
    /// An answer set of one of them.
    Set(AnswerSet),
    /// Of each its refutation, or why there is none.
    Ends(Vec<Result<Refuted, String>>),
}

/// What was done for it.
#[derive(Default)]
pub struct Work {
    pub times: Times,
    pub calls: usize,
    pub loops: Vec<Vec<i32>>,
}

/// What the threads share.
struct Shared {
    texts: Vec<Vec<u8>>,
    limits: Limits,
    next: AtomicUsize,
    /// Loops rest on the rules and stay loops whatever the constraints.
    work: Mutex<Work>,
}

type Done = (usize, Result<Answer, Failure>);

/// Solves the programs of the ends, so many at a time. With the first answer set all others are stopped.
pub fn solve(texts: Vec<Vec<u8>>, limits: Limits, jobs: usize, progress: &Progress) -> Result<(Solved, Work), Failure> {
    let count = texts.len();
    let shared = Arc::new(Shared { texts, limits, next: AtomicUsize::new(0), work: Mutex::default() });
    let (sender, receiver) = channel();
    for _ in 0..jobs.min(count) {
        let (shared, sender) = (Arc::clone(&shared), sender.clone());
        let started = std::thread::Builder::new().stack_size(crate::STACK).spawn(move || shared.take_ends(&sender));
        started.map_err(|error| Failure::misuse(format!("there is no room for a thread: {error}")))?;
    }
    drop(sender);
    let mut found: Vec<Option<Result<Refuted, String>>> = (0..count).map(|_| None).collect();
    for done in 0..count {
        progress.ends(done, count);
        let (place, answer) = receiver.recv().map_err(|_| Failure::misuse("a thread ended without an answer"))?;
        let end = match answer {
            Ok(Answer::Refuted(refuted)) => Ok(refuted),
            Ok(Answer::Undecided(why)) => Err(why),
            Ok(Answer::Set(set)) => {
                interrupt::stop_tools();
                return Ok((Solved::Set(set), shared.work()));
            }
            Ok(Answer::Refused(refusal)) => return Err(stopped(Failure::refused(format!("the program of an end is refused: {refusal}")))),
            Err(failure) => return Err(stopped(failure)),
        };
        found[place] = Some(end);
    }
    let ends = found.into_iter().map(|end| end.unwrap_or_else(|| Err(String::from("it was not solved"))));
    Ok((Solved::Ends(ends.collect()), shared.work()))
}

/// A failure, for which everything stops.
fn stopped(failure: Failure) -> Failure {
    interrupt::stop_tools();
    failure
}

impl Shared {
    /// What was done so far.
    fn work(&self) -> Work {
        std::mem::take(&mut *self.work.lock().unwrap_or_else(PoisonError::into_inner))
    }

    /// Takes one end after another, until none is left or no one asks any more.
    fn take_ends(&self, sender: &Sender<Done>) {
        loop {
            let place = self.next.fetch_add(1, Ordering::Relaxed);
            let Some(text) = self.texts.get(place) else { return };
            let progress = Progress::quiet();
            let mut certifier = Certifier::of(self.limits, Times::default(), &progress);
            certifier.learn(&self.work.lock().unwrap_or_else(PoisonError::into_inner).loops);
            let answer = certifier.answer(text);
            self.add(&certifier);
            if sender.send((place, answer)).is_err() {
                return;
            }
        }
    }

    fn add(&self, certifier: &Certifier) {
        let mut work = self.work.lock().unwrap_or_else(PoisonError::into_inner);
        work.times.add(&certifier.times);
        work.calls += certifier.calls;
        for found in certifier.loops() {
            if !work.loops.contains(found) {
                work.loops.push(found.clone());
            }
        }
    }
}
