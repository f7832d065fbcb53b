//! `aspdrupe show`: a proof in words. What it says of acceptance is what the check says; how a step follows is found here, and where the two do not
//! agree there is no answer.

mod chain;
mod missing;
mod replay;
mod short;
mod step;
mod told;
mod wording;

use std::ffi::OsStr;
use std::fmt::Write as _;
use std::io::{self, BufWriter, Write};
use std::path::Path;

use aspdrupe::{ProofQuestion, ProofRefusal, Verdict};

use crate::arguments::{Subcommand, Words, ROOM};
use crate::certify::completion::Completion;
use crate::files::{self, PROOF_LIMIT};
use crate::json::Json;
use crate::library::Checked;
use crate::outcome::{Failure, Outcome};
use crate::progress::Progress;
use crate::statements::{as_it_is, cut_down, Ground};
use crate::{explain, library, source};
use chain::{links, Chains, Link, Propagated};
use missing::Refused;
use replay::{is_store, Replay};
use step::Step;
use told::Told;
use wording::Wording;

pub const SUBCOMMAND: Subcommand = Subcommand {
    name: "show",
    form: "PROGRAM PROOF [--step N] [--table N] [--store N]",
    about: "Shows a proof in words: what each step says, the rules it is about, and the chain of nogoods that it follows by.",
    more: "PROGRAM is a program text (ASPIF), PROOF a proof text (ASP-DRUPE) of any length. Prints for each step
    step N, KIND: WHAT IT SAYS
and below it, of a `b`, `c`, `s` or `l` the rules that it is about with their lines in PROGRAM; of an `a` the nogoods that unit propagation goes by,
in order, each with the step that added it and the literal that it gives, and only those that the conflict needs; of a `d` the step that added what
goes. The last is the step that the check refuses, where it refuses one: how far it comes, and what is missing. The last line is that of `check`.
Atoms have the names of PROGRAM.names, or of PROGRAM's own output statements; #5 is an atom without a name, body#5 the name of a rule's body, name#9
that of an `e` line. --step N shows one step, with what the names in it stand for.
A PROGRAM that is a plan (`.lp`) is grounded, and lines are those of what `ground` writes; what a grounder wrote is cut down as `ground` does it.
What is said of acceptance is what the check says. The chains are found by this command's own propagation; where the check accepts a step that no
chain is found for, or refuses one as an addition that does not follow and there is a chain, that is an error, with status 2.
--table and --store are those of `check`. Status 0 for 'inconsistent', 10 for 'open', 20 for a refusal.",
    options: &["--step", "--table", "--store"],
    lists: &[],
    flags: &[],
    inputs: &[0, 1],
    operands: (2, 2),
    run,
};

fn run(words: &Words) -> Result<Outcome, Failure> {
    let (table, store) = (words.room("--table")?, words.room_told("--store")?);
    let asked = step_asked(words)?;
    let ground = program_of(words.path(0)?)?;
    let proof = files::read(words.path(1)?, PROOF_LIMIT)?;
    let progress = Progress::start();
    progress.checking(proof.len());
    let (checked, kept) = library::check_keeping(&ground.text, &proof, table, store)?;
    drop(progress);
    let mut outcome = match checked.verdict {
        Verdict::RefusedProgram(refusal) => return Ok(explain::ground(refusal, &ground)),
        _ => explain::checked(&checked, (&ground.text, &proof), table),
    };
    outcome.words.splice(0..0, ground.notes.iter().cloned());
    let read = library::read_program(&ground.text, table)?;
    let program = read.map_err(|refusal| Failure::refused(format!("the program is refused: {refusal}")))?;
    let wording = Wording::of(&ground, &program);
    let completion = Completion::of(&wording.rules, program.atoms);
    let mut show = Show { proof: &proof, refusal: refusal_of(&checked), asked, store, wording: &wording, replay: Replay::of(&completion) };
    let sink = if crate::asks_for_json(&std::env::args_os().skip(1).collect::<Vec<_>>()) {
        Sink::Json(String::new())
    } else {
        Sink::Text(BufWriter::new(io::stdout()))
    };
    let sink = show.run(sink)?;
    show.hold_to(&checked, &kept)?;
    sink.end(&mut outcome)?;
    match checked.verdict {
        Verdict::Open(counts) if counts.steps == show.replay.steps => Ok(outcome.for_reason(show.why_open())),
        _ => Ok(outcome),
    }
}

/// The step of `--step`.
fn step_asked(words: &Words) -> Result<Option<usize>, Failure> {
    match words.count("--step", PROOF_LIMIT, "of a step")? {
        Some(0) => Err(Failure::misuse("steps are counted from 1")),
        asked => Ok(asked),
    }
}

/// The program of a file. A plan is grounded. Where the library does not take a ground one as it is, it is cut down, if that is then taken.
fn program_of(path: &Path) -> Result<Ground, Failure> {
    if path.extension().and_then(OsStr::to_str) == Some("lp") {
        return source::load(path, cut_down).and_then(source::split);
    }
    source::load_ground(path, as_taken)
}

/// The text as it is; where it has statements that cannot matter and is taken without them, as `ground` writes it.
fn as_taken(text: &[u8]) -> Result<Ground, Failure> {
    let taken = |text: &[u8]| library::read_program(text, library::EVERY_TABLE).is_ok_and(|read| read.is_ok());
    let cut = cut_down(text).ok().filter(|cut| cut.text != text);
    let cut = cut.and_then(|cut| source::split(cut).ok()).filter(|cut| taken(&cut.text));
    cut.map_or_else(|| as_it_is(text), Ok)
}

/// The step that is refused, with the question; a refusal of the whole proof has no step.
fn refusal_of(checked: &Checked) -> Option<ProofRefusal> {
    match checked.verdict {
        Verdict::RefusedProof(refusal) => Some(refusal),
        _ => None,
    }
}

/// Where the steps go.
enum Sink {
    Text(BufWriter<io::Stdout>),
    Json(String),
    /// A reader that has enough closes the output.
    Closed,
}

impl Sink {
    fn end(self, outcome: &mut Outcome) -> Result<(), Failure> {
        match self {
            Sink::Json(steps) => outcome.fields.push(("proof", Json::Written(format!("[{steps}]")))),
            Sink::Text(mut out) => out.flush().or_else(closed)?,
            Sink::Closed => {}
        }
        Ok(())
    }
}

/// A closed output is no fault.
fn closed(error: io::Error) -> Result<(), Failure> {
    match error.kind() {
        io::ErrorKind::BrokenPipe => Ok(()),
        _ => Err(Failure::misuse(format!("the answer cannot be written: {}", files::reason(&error)))),
    }
}

struct Show<'a> {
    proof: &'a [u8],
    refusal: Option<ProofRefusal>,
    asked: Option<usize>,
    store: Option<usize>,
    wording: &'a Wording<'a>,
    replay: Replay<'a>,
}

impl Show<'_> {
    /// Goes through the steps, to the one that is asked for or refused, and shows them.
    fn run(&mut self, mut sink: Sink) -> Result<Sink, Failure> {
        let refused_at = self.refusal.map_or(usize::MAX, |refusal| refusal.step);
        let last = self.asked.unwrap_or(usize::MAX);
        let mut chains = self.asked.is_none().then(|| Chains::of(&self.replay));
        let mut end = 0;
        for (place, line) in self.proof.split_inclusive(|byte| *byte == b'\n').enumerate() {
            let number = place + 1;
            end += line.len();
            if number > last || number > refused_at {
                break;
            }
            let line = line.strip_suffix(b"\n").unwrap_or(line);
            if number == refused_at {
                if self.asked.is_none_or(|asked| asked == number) {
                    self.put_refused(line, &self.proof[end..], &mut sink)?;
                }
                break;
            }
            let step = Step::of(line).ok_or_else(|| disagreement(number, "the line is accepted, and is none that is read here"))?;
            match &mut chains {
                Some(chains) => self.put_accepted(&step, chains, &mut sink)?,
                None if number < last => {
                    self.replay.go(&step);
                }
                None => self.put_accepted(&step, &mut Chains::of(&self.replay), &mut sink)?,
            }
            if matches!(sink, Sink::Closed) {
                break;
            }
        }
        self.hold_step(last, refused_at)?;
        Ok(sink)
    }

    /// A step that is asked for has to be there, and reached.
    fn hold_step(&self, asked: usize, refused_at: usize) -> Result<(), Failure> {
        let steps = self.replay.steps;
        if asked == usize::MAX || asked <= steps || asked == refused_at {
            return Ok(());
        }
        Err(Failure::misuse(if refused_at == 0 {
            String::from("no step is reached: the proof is refused as a whole")
        } else if asked > refused_at {
            format!("step {asked} is not reached: the check ends at step {refused_at}, which it refuses")
        } else {
            format!("there is no step {asked}: the proof has {steps}")
        }))
    }

    fn put_accepted(&mut self, step: &Step, chains: &mut Chains, sink: &mut Sink) -> Result<(), Failure> {
        let chain = if step.letter == b'a' { self.chain(step, chains)? } else { Vec::new() };
        let effect = self.replay.go(step);
        chains.follow(&effect, &self.replay);
        let told = Told::accepted(step, &effect, chain, self.wording, &self.replay);
        self.put(&told, step, sink)
    }

    /// The chain of an addition that the check has accepted.
    fn chain(&self, step: &Step, chains: &mut Chains) -> Result<Vec<Link>, Failure> {
        let Propagated::Conflict(places) = chains.propagate(&step.numbers) else {
            return Err(disagreement(self.replay.steps + 1, "the addition is accepted, and no chain is found that it follows by"));
        };
        let nogoods = places.iter().map(|place| (self.replay.origin(*place), self.replay.nogood(*place)));
        links(&step.numbers, nogoods).ok_or_else(|| disagreement(self.replay.steps + 1, "the chain that was found is none"))
    }

    /// The step that is refused; a line that is none has only its text.
    fn put_refused(&self, line: &[u8], rest: &[u8], sink: &mut Sink) -> Result<(), Failure> {
        let Some(refusal) = self.refusal else { return Ok(()) };
        let question = refusal.question;
        let Some(step) = Step::of(line) else {
            let quoted = String::from_utf8_lossy(&line[..line.len().min(1_000)]).escape_debug().to_string();
            let step = Step { letter: b'?', numbers: Vec::new() };
            let mut told = Told::refused(question, &step, self.wording, &self.replay);
            (told.kind, told.line, told.says) = ("no step", quoted.clone(), format!("`{quoted}`"));
            told.missing = vec![String::from(question.mend())];
            return self.put(&told, &step, sink);
        };
        let mut told = Told::refused(question, &step, self.wording, &self.replay);
        let store = self.store.unwrap_or(ROOM);
        let refused = Refused { question, step: &step, wording: self.wording, replay: &self.replay, rest, store };
        if question == ProofQuestion::Addition {
            let Propagated::Open(trail) = Chains::of(&self.replay).propagate(&step.numbers) else {
                return Err(disagreement(refusal.step, "the addition is refused, and a chain is found that it follows by"));
            };
            told.missing = refused.lacks(&trail.iter().map(|(literal, _)| *literal).collect());
            let given = trail.into_iter().filter_map(|(literal, place)| place.map(|place| (literal, place)));
            told.chain = given.map(|(literal, place)| self.link(place, literal)).collect();
        } else {
            told.missing = refused.missing();
        }
        self.put(&told, &step, sink)
    }

    fn link(&self, place: usize, gives: i32) -> Link {
        Link { step: self.replay.origin(place), nogood: self.replay.nogood(place), gives: Some(gives) }
    }

    fn put(&self, told: &Told, step: &Step, sink: &mut Sink) -> Result<(), Failure> {
        let legend = if self.asked.is_some() { told.legend(step, self.wording, &self.replay) } else { Vec::new() };
        match sink {
            Sink::Text(out) => {
                let mut text = told.text(self.wording, &self.replay);
                legend.iter().for_each(|line| text += &format!("    {line}\n"));
                if let Err(error) = out.write_all(text.as_bytes()) {
                    closed(error)?;
                    *sink = Sink::Closed;
                }
            }
            Sink::Json(steps) => {
                let between = if steps.is_empty() { "" } else { ", " };
                // A text takes everything.
                let _ = write!(steps, "{between}{}", told.json(self.wording, &self.replay));
            }
            Sink::Closed => {}
        }
        Ok(())
    }

    /// Why a proof that was gone through to its end is open.
    fn why_open(&self) -> String {
        let replay = &self.replay;
        let empty = (0..replay.log.clauses.len()).rev().find(|place| replay.log.clauses.at(*place).is_empty());
        let deleted = empty.and_then(|place| replay.deleted_by(place).map(|step| (replay.origin(place), step)));
        deleted.map_or(String::from("no step adds the empty nogood"), |(origin, step)| {
            format!("step {origin} adds the empty nogood, and step {step} deletes it")
        })
    }

    /// Where all steps were gone through, the live nogoods with their origins are those that the check leaves.
    fn hold_to(&self, checked: &Checked, kept: &[i32]) -> Result<(), Failure> {
        match checked.verdict {
            Verdict::Inconsistent(counts) | Verdict::Open(counts) if counts.steps == self.replay.steps => {
                let same = is_store(kept, self.replay.store_words());
                same.then_some(()).ok_or_else(|| disagreement(counts.steps, "after it other nogoods are live than the check leaves"))
            }
            _ => Ok(()),
        }
    }
}

/// The check and what is found here do not agree.
fn disagreement(step: usize, what: &str) -> Failure {
    Failure::misuse(format!("step {step}: {what}; the check decides, and this command is at fault"))
}
