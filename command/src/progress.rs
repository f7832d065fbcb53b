//! What is going on, on the standard error, where it takes longer than a second.

use std::sync::atomic::{AtomicUsize, Ordering};
use std::sync::mpsc::{channel, RecvTimeoutError, Sender};
use std::sync::Arc;
use std::thread::JoinHandle;
use std::time::{Duration, Instant};

use crate::say;

/// What is being done.
#[derive(Clone, Copy)]
pub enum Part {
    Grounding,
    Solving,
    Shortening,
    Checking,
    Trimming,
    Ends,
}

/// By part.
const TOLD: [&str; 6] = ["grounding", "solving", "shortening the proof", "checking", "trimming", "solving the ends"];

/// What it has come to, as other threads see it.
#[derive(Default)]
struct Counts {
    part: AtomicUsize,
    learned: AtomicUsize,
    loops: AtomicUsize,
    /// How many of how many clauses were gone through to shorten a proof, and how often all of them were before.
    done: AtomicUsize,
    of: AtomicUsize,
    rounds: AtomicUsize,
    /// The bytes of the proof that is checked.
    bytes: AtomicUsize,
    /// How many of how many things are settled that are tried one after another.
    settled: AtomicUsize,
    tried: AtomicUsize,
    /// How many of how many ends are done.
    ends_done: AtomicUsize,
    ends: AtomicUsize,
}

/// Tells about it after 1, 2, 4 seconds and so on, until it is dropped.
pub struct Progress {
    counts: Arc<Counts>,
    end: Option<Sender<()>>,
    teller: Option<JoinHandle<()>>,
}

impl Progress {
    pub fn start() -> Progress {
        let counts = Arc::new(Counts::default());
        let (end, ended) = channel();
        let told = Arc::clone(&counts);
        let started = Instant::now();
        let mut wait = Duration::from_secs(1);
        let teller = std::thread::spawn(move || {
            while ended.recv_timeout(wait) == Err(RecvTimeoutError::Timeout) {
                wait = started.elapsed();
                say(&format!("{:.0} s: {}", wait.as_secs_f64(), told.text()));
            }
        });
        let progress = Progress { counts, end: Some(end), teller: Some(teller) };
        progress.begin(Part::Grounding);
        progress
    }

    /// Tells nothing.
    pub fn quiet() -> Progress {
        Progress { counts: Arc::default(), end: None, teller: None }
    }

    pub fn begin(&self, part: Part) {
        self.counts.part.store(part as usize, Ordering::Relaxed);
    }

    /// So many of so many clauses are gone through; fewer than before begin a round.
    pub fn gone_through(&self, done: usize, of: usize) {
        if done < self.counts.done.swap(done, Ordering::Relaxed) {
            self.counts.rounds.fetch_add(1, Ordering::Relaxed);
        }
        self.counts.of.store(of, Ordering::Relaxed);
    }

    /// A proof of so many bytes is checked.
    pub fn checking(&self, bytes: usize) {
        self.counts.bytes.store(bytes, Ordering::Relaxed);
        self.begin(Part::Checking);
    }

    /// So many of so many things that are tried are settled.
    pub fn trial(&self, settled: usize, of: usize) {
        self.counts.settled.store(settled, Ordering::Relaxed);
        self.counts.tried.store(of, Ordering::Relaxed);
    }

    /// So many of so many ends of a tree are done.
    pub fn ends(&self, done: usize, of: usize) {
        self.counts.ends_done.store(done, Ordering::Relaxed);
        self.counts.ends.store(of, Ordering::Relaxed);
        self.begin(Part::Ends);
    }

    pub fn learned_so_far(&self) -> usize {
        self.counts.learned.load(Ordering::Relaxed)
    }

    pub fn learned(&self, clauses: usize) {
        self.counts.learned.store(clauses, Ordering::Relaxed);
    }

    pub fn loops(&self, count: usize) {
        self.counts.loops.store(count, Ordering::Relaxed);
    }
}

impl Counts {
    fn text(&self) -> String {
        let [settled, tried] = [&self.settled, &self.tried].map(|count| count.load(Ordering::Relaxed));
        let before = if tried > 0 { format!("{settled} of {tried} settled; ") } else { String::new() };
        before + &self.part_text()
    }

    fn part_text(&self) -> String {
        let part = self.part.load(Ordering::Relaxed);
        let what = TOLD.get(part).copied().unwrap_or("");
        let [learned, loops, done, of, rounds, bytes] =
            [&self.learned, &self.loops, &self.done, &self.of, &self.rounds, &self.bytes].map(|count| count.load(Ordering::Relaxed));
        if part == Part::Solving as usize {
            format!("{what}; {learned} clauses learned, {loops} loops found")
        } else if part == Part::Shortening as usize && of > 0 {
            format!("{what}; {done} of {of} clauses gone through, round {}", rounds + 1)
        } else if part == Part::Checking as usize && bytes > 0 {
            format!("{what}; a proof of {bytes} bytes")
        } else if part == Part::Ends as usize {
            let [done, ends] = [&self.ends_done, &self.ends].map(|count| count.load(Ordering::Relaxed));
            format!("{what}; {done} of {ends} done")
        } else {
            String::from(what)
        }
    }
}

impl Drop for Progress {
    fn drop(&mut self) {
        drop(self.end.take());
        self.teller.take().map(JoinHandle::join);
    }
}

#[cfg(test)]
mod tests {
    use super::*;

    #[test]
    fn what_is_told() {
        let progress = Progress::start();
        assert_eq!(progress.counts.text(), "grounding");
        progress.begin(Part::Solving);
        progress.learned(7);
        progress.loops(2);
        assert_eq!(progress.counts.text(), "solving; 7 clauses learned, 2 loops found");
        progress.begin(Part::Shortening);
        assert_eq!(progress.counts.text(), "shortening the proof");
        progress.gone_through(64, 700);
        assert_eq!(progress.counts.text(), "shortening the proof; 64 of 700 clauses gone through, round 1");
        progress.gone_through(640, 700);
        progress.gone_through(30, 500);
        assert_eq!(progress.counts.text(), "shortening the proof; 30 of 500 clauses gone through, round 2");
        progress.checking(99_000);
        assert_eq!(progress.counts.text(), "checking; a proof of 99000 bytes");
        progress.begin(Part::Trimming);
        assert_eq!(progress.counts.text(), "trimming");
        progress.ends(2, 8);
        assert_eq!(progress.counts.text(), "solving the ends; 2 of 8 done");
        progress.begin(Part::Trimming);
        progress.trial(3, 7);
        assert_eq!(progress.counts.text(), "3 of 7 settled; trimming");
    }
}
