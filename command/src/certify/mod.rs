//! Answers to ground programs that the library certifies: an answer set that the set test passes, or a proof that the
//! check accepts. What is written here only looks for them: the library decides. `prove`, `core`, `optimum`, `forced`
//! and `why` ask it.

pub mod clauses;
pub mod completion;
mod derived;
mod loops;
pub mod propagation;
mod shortest;
mod solver;
mod trim;
mod write;

use std::time::{Duration, Instant};

use aspdrupe::{Counts, ProgramRefusal, SetAnswer, Verdict};

use crate::json::Json;
use crate::library::{self, Checked, Program};
use crate::outcome::{Failure, Outcome};
use crate::page::Page;
use crate::progress::{Part, Progress};
use crate::rules::{rules, Body, Rule};
use crate::split;
use clauses::Log;
use completion::Completion;
pub use derived::{proof_of, Line};
pub use loops::components;
use solver::Found;
pub use write::Proof;

/// What to try where a search was stopped.
pub const TRY: &str = "try constraints that break symmetries, or a smaller plan";

/// The least time for finding out what a refutation rests on.
const LEAST: Duration = Duration::from_secs(1);

/// What the library is lent, and how long cadical may take in all.
#[derive(Debug, Clone, Copy)]
pub struct Limits {
    pub table: usize,
    pub store: Option<usize>,
    pub time: Option<Duration>,
}

/// How long the parts took.
#[derive(Default)]
pub struct Times {
    pub grounding: Duration,
    solving: Duration,
    trimming: Duration,
    pub checking: Duration,
}

impl Times {
    pub fn field(&self) -> (&'static str, Json) {
        let seconds = |name, time: Duration| (name, Json::Seconds(time.as_secs_f64()));
        let parts = [("grounding", self.grounding), ("solving", self.solving), ("trimming", self.trimming), ("checking", self.checking)];
        ("seconds", Json::Object(parts.into_iter().map(|(name, time)| seconds(name, time)).collect()))
    }

    /// Adds what others took.
    pub fn add(&mut self, other: &Times) {
        self.grounding += other.grounding;
        self.solving += other.solving;
        self.trimming += other.trimming;
        self.checking += other.checking;
    }
}

pub fn timed<T>(time: &mut Duration, work: impl FnOnce() -> T) -> T {
    let started = Instant::now();
    let done = work();
    *time += started.elapsed();
    done
}

/// An answer set, which the set test has said yes to.
#[derive(Debug, Clone, PartialEq, Eq)]
pub struct AnswerSet {
    /// The program that was tested: the one asked, its sums split.
    pub text: Vec<u8>,
    /// Its atoms, of which those of split sums come last.
    pub whole: Vec<u16>,
    /// Those of the program that was asked, and how many atoms it has.
    pub atoms: Vec<u16>,
    pub told: usize,
}

impl AnswerSet {
    /// Its atoms as words for `test`, on a line.
    pub fn line(&self) -> String {
        format!("{}\n", numbers(&self.whole))
    }
}

/// Atoms as words.
pub fn numbers(atoms: &[u16]) -> String {
    atoms.iter().map(u16::to_string).collect::<Vec<_>>().join(" ")
}

/// A proof, and what the check says of it for the program with its sums split.
pub struct Refuted {
    pub text: Vec<u8>,
    pub proof: Proof,
    pub checked: Checked,
}

impl Refuted {
    /// The counts of a proof that is accepted.
    pub fn counts(&self) -> Option<Counts> {
        match self.checked.verdict {
            Verdict::Inconsistent(counts) => Some(counts),
            _ => None,
        }
    }
}

/// What a program comes to.
pub enum Answer {
    Set(AnswerSet),
    /// There is a refutation, and the check has said what it says of its proof.
    Refuted(Refuted),
    Undecided(String),
    Refused(ProgramRefusal),
}

impl Answer {
    /// The refutation whose proof is accepted.
    pub fn accepted(&self) -> Option<&Refuted> {
        match self {
            Answer::Refuted(refuted) if refuted.counts().is_some() => Some(refuted),
            _ => None,
        }
    }
}

/// What a trial of a program comes to; only the set is certified.
pub enum Trial {
    Set(AnswerSet),
    /// There is none, by constraints with these bodies; where it was too late to find out, by all.
    None(Option<Vec<Vec<i32>>>),
    Late(String),
}

/// What cadical comes to.
enum Searched {
    Set(Vec<u16>),
    Refutation(Log),
    Stopped(String),
}

/// Answers programs that differ in constraints only, one after another.
pub struct Certifier<'a> {
    limits: Limits,
    progress: &'a Progress,
    /// What is said of long sums that were split, and how many at a time were not split by the library.
    note: Option<String>,
    unproved: usize,
    /// Loops found so far. They rest on the rules and stay loops whatever the constraints.
    loops: Vec<Vec<i32>>,
    pub times: Times,
    /// How often cadical was called to solve.
    pub calls: usize,
}

/// A program that is to be searched, its sums split.
pub struct Task {
    pub text: Vec<u8>,
    pub program: Program,
    /// The atoms of the program that is asked; those of split sums come behind them.
    told: usize,
}

impl<'a> Certifier<'a> {
    pub fn of(limits: Limits, times: Times, progress: &'a Progress) -> Certifier<'a> {
        Certifier { limits, progress, note: None, unproved: 0, loops: Vec::new(), times, calls: 0 }
    }

    pub fn loop_count(&self) -> usize {
        self.loops.len()
    }

    /// Puts what is said of the program, and of its long sums, before the words of an answer, and on a page what is not certified.
    pub fn say(&self, notes: &[String], outcome: &mut Outcome, page: &mut Page) {
        let caution = split::caution(self.unproved);
        outcome.words.splice(0..0, notes.iter().cloned().chain(self.note.clone()).chain(caution.clone()));
        page.certified.extend(caution);
        outcome.fields.extend((self.unproved > 0).then(|| ("unproved", Json::count(self.unproved))));
    }

    /// The loops found so far.
    pub fn loops(&self) -> &[Vec<i32>] {
        &self.loops
    }

    /// Takes in what others did for the same rules.
    pub fn take(&mut self, times: &Times, calls: usize, loops: &[Vec<i32>]) {
        self.times.add(times);
        self.calls += calls;
        self.learn(loops);
    }

    /// Loops that others found of the same rules.
    pub fn learn(&mut self, loops: &[Vec<i32>]) {
        let new: Vec<Vec<i32>> = loops.iter().filter(|known| !self.loops.contains(known)).cloned().collect();
        self.loops.extend(new);
    }

    /// Why the library refuses a program, where it does.
    pub fn refusal(&mut self, text: &[u8]) -> Result<Option<ProgramRefusal>, Failure> {
        Ok(self.task(text)?.err())
    }

    /// The certified answer of a program.
    pub fn answer(&mut self, text: &[u8]) -> Result<Answer, Failure> {
        let task = match self.task(text)? {
            Ok(task) => task,
            Err(refusal) => return Ok(Answer::Refused(refusal)),
        };
        let mut completion = self.completion(&task.program);
        let log = match self.search(&task.program, &mut completion, self.limits.time)? {
            Searched::Set(set) => return Ok(Answer::Set(task.answer_set(set))),
            Searched::Stopped(why) => return Ok(Answer::Undecided(why)),
            Searched::Refutation(log) => log,
        };
        let store = self.limits.store;
        let proof = match shortest::shortest(&completion, &log, store, self.progress, &mut self.times)? {
            Ok(proof) => proof,
            Err(why) => return Ok(Answer::Undecided(why)),
        };
        self.progress.checking(proof.text.len());
        let check = || library::check(&task.text, proof.text.as_bytes(), self.limits.table, store);
        let checked = timed(&mut self.times.checking, check)?;
        Ok(Answer::Refuted(Refuted { text: task.text, proof, checked }))
    }

    /// A trial of a program, in about so much time where one is told: an answer set, or which constraints leave none.
    pub fn trial(&mut self, text: &[u8], time: Option<Duration>) -> Result<Trial, Failure> {
        let refused = |refusal: ProgramRefusal| Failure::refused(format!("a part of the program is refused: {refusal}"));
        let task = self.task(text)?.map_err(refused)?;
        let mut completion = self.completion(&task.program);
        let told = time.map(|time| self.times.solving + time);
        let limit = self.limits.time.into_iter().chain(told).min();
        Ok(match self.search(&task.program, &mut completion, limit)? {
            Searched::Set(set) => Trial::Set(task.answer_set(set)),
            Searched::Stopped(why) => Trial::Late(why),
            Searched::Refutation(log) => {
                self.progress.begin(Part::Shortening);
                let until = Instant::now() + time.unwrap_or(self.times.solving).max(LEAST);
                let trim = || trim::trim(completion.variables(), &log, Some(until), self.progress);
                let trimmed = timed(&mut self.times.trimming, trim);
                Trial::None(trimmed.ok().map(|refutation| completion.constraints_of(&refutation)))
            }
        })
    }

    /// A set, where the set test says yes to it for this program, with the atoms of sums that are split for it.
    pub fn tested(&mut self, text: &[u8], set: &AnswerSet) -> Result<Option<AnswerSet>, Failure> {
        let Ok(task) = self.task(text)? else { return Ok(None) };
        let whole = library::extended(&task.program, &set.atoms, task.told)?;
        let (answer, _) = timed(&mut self.times.checking, || library::test_set(&task.program, &whole))?;
        Ok((answer == SetAnswer::Yes).then(|| task.answer_set(whole)))
    }

    /// An answer set in which these literals hold, where there is one; a reason where cadical was stopped. The program may be
    /// another than those before: loops that are known are not used.
    pub fn set_with(&mut self, text: &[u8], literals: &[i32]) -> Result<Result<Option<AnswerSet>, String>, Failure> {
        let refused = |refusal: ProgramRefusal| Failure::refused(format!("the program is refused: {refusal}"));
        let task = self.task(text)?.map_err(refused)?;
        // What no rule has does not hold.
        let (known, others): (Vec<i32>, Vec<i32>) = literals.iter().partition(|literal| literal.unsigned_abs() as usize <= task.told);
        if others.iter().any(|literal| *literal > 0) {
            return Ok(Ok(None));
        }
        let demand = |literal: &i32| Rule { choice: false, heads: Vec::new(), body: Body::Plain(vec![-literal]) };
        let all: Vec<Rule> = rules(&task.program).into_iter().chain(known.iter().map(demand)).collect();
        let mut completion = Completion::of(&all, task.program.atoms);
        Ok(match self.search(&task.program, &mut completion, self.limits.time)? {
            Searched::Set(set) => Ok(Some(task.answer_set(set))),
            Searched::Refutation(_) => Ok(None),
            Searched::Stopped(why) => Err(why),
        })
    }

    /// Whether cadical has none of its time left.
    pub fn is_late(&self) -> bool {
        self.limits.time.is_some_and(|limit| self.times.solving >= limit)
    }

    /// The program of a text, its sums split; or the refusal.
    pub fn task(&mut self, text: &[u8]) -> Result<Result<Task, ProgramRefusal>, Failure> {
        let split = match split::split_any(text)? {
            Ok(split) => split,
            Err(refusal) => return Ok(Err(refusal)),
        };
        self.note = self.note.take().or(split.note());
        self.unproved = self.unproved.max(split.unproved);
        let read = library::read_program(&split.text, self.limits.table)?;
        Ok(read.map(|program| Task { told: program.atoms.saturating_sub(split.atoms), text: split.text, program }))
    }

    /// The completion, with the loops that are known.
    fn completion(&self, program: &Program) -> Completion {
        let mut completion = Completion::of(&rules(program), program.atoms);
        let atoms = completion.atoms;
        for known in self.loops.iter().filter(|known| known.iter().all(|atom| *atom <= atoms)) {
            completion.add_loop(known);
        }
        completion
    }

    /// Solves, and adds the loops that a model rests on without reason, until the model is an answer set or there is
    /// none, or the time is over.
    fn search(&mut self, program: &Program, completion: &mut Completion, limit: Option<Duration>) -> Result<Searched, Failure> {
        self.progress.begin(Part::Solving);
        loop {
            let left = limit.map(|limit| limit.saturating_sub(self.times.solving));
            if left.is_some_and(|left| left.is_zero()) {
                return Ok(self.late(limit));
            }
            self.calls += 1;
            let solve = || solver::solve(completion.variables(), completion.clauses(), &[], left, self.progress);
            match timed(&mut self.times.solving, solve)? {
                Found::Model(model) => {
                    let set: Vec<u16> = model.iter().filter(|atom| **atom <= completion.atoms).map(|atom| *atom as u16).collect();
                    let (answer, least_model) = timed(&mut self.times.checking, || library::test_set(program, &set))?;
                    match answer {
                        SetAnswer::Yes => return Ok(Searched::Set(set)),
                        SetAnswer::Differs(_) => self.add_loops(completion, &set, &least_model)?,
                        answer => return Err(Failure::misuse(format!("cadical's model is none of the completion: {answer:?}"))),
                    }
                    self.progress.loops(completion.loop_count());
                }
                Found::Late => return Ok(self.late(limit)),
                Found::TooLong => {
                    let why = "cadical has learned more clauses than a proof of 2,147,483,647 bytes has room for, and was stopped";
                    return Ok(Searched::Stopped(format!("{why}; {TRY}")));
                }
                Found::Refutation(log) => return Ok(Searched::Refutation(log)),
            }
        }
    }

    /// The time is over.
    fn late(&self, limit: Option<Duration>) -> Searched {
        let seconds = self.limits.time.or(limit).unwrap_or_default().as_secs();
        let learned = self.progress.learned_so_far();
        Searched::Stopped(format!(
            "cadical was stopped after the {seconds} seconds of --time, with {learned} clauses learned; a longer time, or {TRY}"
        ))
    }

    fn add_loops(&mut self, completion: &mut Completion, set: &[u16], least_model: &[bool]) -> Result<(), Failure> {
        let holds = |atom: i32| u16::try_from(atom).is_ok_and(|atom| set.binary_search(&atom).is_ok());
        let unfounded: Vec<i32> = set.iter().filter(|atom| !least_model[usize::from(**atom)]).map(|atom| i32::from(*atom)).collect();
        let mut loops = loops::unfounded_loops(completion, &holds, &unfounded);
        loops.retain(|atoms| completion.add_loop(atoms));
        if loops.is_empty() {
            return Err(Failure::misuse("cadical's model is no answer set, and no loop of it is new"));
        }
        self.loops.extend(loops);
        Ok(())
    }
}

impl Task {
    fn answer_set(&self, whole: Vec<u16>) -> AnswerSet {
        let atoms = whole.iter().copied().filter(|atom| usize::from(*atom) <= self.told).collect();
        AnswerSet { text: self.text.clone(), whole, atoms, told: self.told }
    }
}
