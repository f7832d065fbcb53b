//! Reading alone: the text of the widest program through `read_program`, and every line of the longest plain proof through `read_line`.

use crate::cases::Input;
use crate::measure::{timed, times_of, Times};
use aspdrupe::{LineAnswer, ProgramReading};
use inputs::ROOM;
use std::hint::black_box;
use std::time::Duration;

const PROGRAM: &str = "wide-1024";
const PROOF: &str = "random-2300";

/// The two texts, and the table that is lent to each call.
pub struct Reader<'a> {
    program: &'a [u8],
    proof: &'a [u8],
    table: Vec<i32>,
}

/// What one run of each reader counts, and its time.
pub struct Run {
    pub rules: (usize, Duration),
    pub lines: (usize, Duration),
}

/// How much is read: bytes, and the rules or lines that they hold.
pub struct Amount {
    pub name: &'static str,
    pub bytes: usize,
    pub count: usize,
}

/// Both readings with their times.
pub struct Reading {
    pub program: (Amount, Times),
    pub proof: (Amount, Times),
}

impl<'a> Reader<'a> {
    pub fn of(inputs: &'a [Input]) -> Option<Reader<'a>> {
        let named = |name| inputs.iter().find(|input| input.name == name).map(|input| &input.texts);
        Some(Reader { program: &named(PROGRAM)?.program, proof: &named(PROOF)?.proof, table: vec![0; ROOM] })
    }

    /// Both texts read once. None where one is refused.
    pub fn run(&mut self) -> Option<Run> {
        let (read, rules_time) = timed(|| aspdrupe::read_program(black_box(self.program), &mut self.table));
        let (lines, lines_time) = timed(|| lines_of(black_box(self.proof)));
        let Ok(ProgramReading::Read { rules, .. }) = read else { return None };
        Some(Run { rules: (rules, rules_time), lines: (lines?, lines_time) })
    }
}

/// How many lines are read up to the text's end, or None where one is refused.
fn lines_of(text: &[u8]) -> Option<usize> {
    let (mut lines, mut at) = (0, 0);
    loop {
        match black_box(aspdrupe::read_line(text, at)) {
            Ok((LineAnswer::Line { next, .. }, _)) => (lines, at) = (lines + 1, next),
            Ok((LineAnswer::End, _)) => return Some(lines),
            _ => return None,
        }
    }
}

/// Reads both so many times. None where one is refused.
pub fn measure(inputs: &[Input], repetitions: usize) -> Option<Reading> {
    let mut reader = Reader::of(inputs)?;
    let runs: Option<Vec<Run>> = (0..repetitions).map(|_| reader.run()).collect();
    let runs = runs?;
    let first = runs.first()?;
    let program = Amount { name: PROGRAM, bytes: reader.program.len(), count: first.rules.0 };
    let proof = Amount { name: PROOF, bytes: reader.proof.len(), count: first.lines.0 };
    Some(Reading {
        program: (program, times_of(runs.iter().map(|run| run.rules.1).collect())),
        proof: (proof, times_of(runs.iter().map(|run| run.lines.1).collect())),
    })
}
