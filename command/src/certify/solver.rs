//! The SAT solver: cadical, with the log of the clauses that it learns and deletes.

use std::ffi::OsStr;
use std::time::Duration;

use super::clauses::{Finder, Log};
use crate::outcome::Failure;
use crate::progress::Progress;
use crate::tools::Tool;

const CADICAL: Tool = Tool { name: "cadical", package: "cadical", good: &[10, 20] };

/// The literals and clauses of a log that are kept: with as many a proof text comes to its own limit, 2,147,483,647 bytes.
const MOST: usize = 1 << 29;

/// What the solver finds.
pub enum Found {
    /// The variables that hold in a model.
    Model(Vec<i32>),
    /// What was learned and deleted on the way to a contradiction.
    Refutation(Log),
    /// Neither, by the time told.
    Late,
    /// More clauses than a proof of the longest kind has room for.
    TooLong,
}

/// Solves clauses over so many variables, with further options, in so many seconds where a number is told. How many were learned is told on
/// the way.
pub fn solve<'a>(
    variables: i32,
    clauses: impl Iterator<Item = &'a [i32]> + Clone,
    options: &[&str],
    limit: Option<Duration>,
    progress: &Progress,
) -> Result<Found, Failure> {
    let log = Log::of(clauses.clone());
    let mut output = Output { variables, finder: Finder::of(&log), log, model: Vec::new() };
    let mut too_long = false;
    let seconds = limit.map(|limit| limit.as_secs().max(1).to_string());
    let time: Vec<&str> = seconds.iter().flat_map(|seconds| ["-t", seconds]).collect();
    // A proof as text, to the standard output like the answer.
    let arguments: Vec<&OsStr> = ["-q", "--no-binary"].iter().chain(options).chain(&time).chain(&["-", "-"]).map(OsStr::new).collect();
    let ended = CADICAL.run(&arguments, &dimacs(variables, clauses), |line| {
        output.take(line)?;
        progress.learned(output.log.learned());
        too_long = output.log.clauses.size() > MOST;
        if too_long {
            Err(Failure::refused(""))
        } else {
            Ok(())
        }
    });
    if too_long {
        return Ok(Found::TooLong);
    }
    let ended = ended?;
    match ended.code {
        Some(10) => Ok(Found::Model(output.model)),
        Some(20) => Ok(Found::Refutation(output.log)),
        Some(0) if limit.is_some() => Ok(Found::Late),
        _ => {
            let said = ended.complaints.lines().next().unwrap_or("it gives no reason");
            Err(Failure::misuse(format!("cadical ended without an answer: {said}")))
        }
    }
}

fn dimacs<'a>(variables: i32, clauses: impl Iterator<Item = &'a [i32]> + Clone) -> Vec<u8> {
    let mut text = format!("p cnf {variables} {}\n", clauses.clone().count());
    for clause in clauses {
        clause.iter().for_each(|literal| text += &format!("{literal} "));
        text += "0\n";
    }
    text.into_bytes()
}

/// What cadical has written so far: learned clauses as lines of literals, deletions as lines with `d`, the model as lines with `v`.
struct Output {
    variables: i32,
    log: Log,
    finder: Finder,
    model: Vec<i32>,
}

impl Output {
    fn take(&mut self, line: &[u8]) -> Result<(), Failure> {
        match line.first() {
            None | Some(b'c' | b's') => {}
            Some(b'v') => self.model.extend(self.numbers(&line[1..])?.into_iter().filter(|literal| *literal > 0)),
            Some(b'd') => {
                let clause = self.clause(&line[1..])?;
                self.finder.delete(&mut self.log, &clause);
            }
            Some(_) => {
                let clause = self.clause(line)?;
                self.log.learn(clause);
                self.finder.enter(&self.log, self.log.clauses.len() - 1);
            }
        }
        Ok(())
    }

    /// The literals of a line that a 0 ends.
    fn clause(&self, line: &[u8]) -> Result<Vec<i32>, Failure> {
        let mut clause = self.numbers(line)?;
        if clause.pop() != Some(0) || clause.contains(&0) {
            return Err(not_understood(line));
        }
        Ok(clause)
    }

    /// The numbers of a line, each 0 or a literal.
    fn numbers(&self, line: &[u8]) -> Result<Vec<i32>, Failure> {
        let words = std::str::from_utf8(line).unwrap_or("?").split_ascii_whitespace();
        let number = |word: &str| word.parse().ok().filter(|number: &i32| number.unsigned_abs() <= self.variables.unsigned_abs());
        words.map(number).collect::<Option<_>>().ok_or_else(|| not_understood(line))
    }
}

fn not_understood(line: &[u8]) -> Failure {
    let start = line.get(..60).unwrap_or(line).escape_ascii();
    Failure::misuse(format!("cadical writes what is not understood: {start}"))
}

#[cfg(test)]
mod tests {
    use super::super::clauses::NEVER;
    use super::*;

    #[test]
    fn text_of_clauses() {
        let clauses = [vec![1, -2], vec![]];
        assert_eq!(dimacs(2, clauses.iter().map(Vec::as_slice)), b"p cnf 2 2\n1 -2 0\n0\n");
    }

    #[test]
    fn output_of_the_solver() {
        let log = Log::of([&[1, 2][..]]);
        let mut output = Output { variables: 3, finder: Finder::of(&log), log, model: Vec::new() };
        for line in ["-2 0", "d 2 1 0", "d 3 0", "1 0", "0", "s UNSATISFIABLE", "c note", "", "v 1 -2 3", "v 0"] {
            output.take(line.as_bytes()).unwrap();
        }
        assert_eq!(output.log.clauses.iter().skip(1).collect::<Vec<_>>(), [&[-2][..], &[1], &[]]);
        assert_eq!(output.log.deleted, [1, NEVER, NEVER, NEVER]);
        assert_eq!(output.model, [1, 3]);
        for line in ["noise", "4 0", "1", "1 0 2 0", "-2147483648 0", "v 4", "\u{e9} 0", "d 1", "d 4 0"] {
            assert!(output.take(line.as_bytes()).is_err(), "{line}");
        }
    }
}
