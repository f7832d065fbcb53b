//! Time a step against live nogoods, on refutations of growing size: this program, another build of it over another library, and the
//! unverified checker. It is printed, and drawn in docs/growth.svg.

use crate::beside::printed_by;
use crate::cases;
use crate::measure::{self, timed, Answer, Buffers};
use crate::picture::{self, Series};
use crate::report;
use std::time::Duration;

/// Where the picture goes, from the repository's root.
const PICTURE: &str = "docs/growth.svg";

/// An input with its steps, its live nogoods at the end, and microseconds a step: of the other program, if there is one, of this one, and
/// of the unverified checker.
#[derive(Clone)]
pub struct Row {
    pub name: String,
    pub steps: usize,
    pub live: usize,
    pub before: Option<f64>,
    pub after: f64,
    pub unverified: f64,
}

/// Runs both checkers on each input, after a run that is not counted, and prints a line for each: steps, live nogoods, nanoseconds of both,
/// and the name. On how many inputs they differ.
pub fn round() -> usize {
    let mut buffers = Buffers::new();
    let mut failed = 0;
    for input in cases::growing() {
        let verified = second(|| buffers.verified(&input));
        let unverified = second(|| measure::unverified(&input));
        match report::counts_of(&verified.0) {
            Some(counts) if verified.0 == unverified.0 => {
                let (verified, unverified) = (verified.1.as_nanos(), unverified.1.as_nanos());
                println!("{} {} {verified} {unverified} {}", counts.steps, counts.nogoods, input.name);
            }
            _ => failed += 1,
        }
    }
    failed
}

/// What a call answers the second time, and its time then.
fn second(mut call: impl FnMut() -> Answer) -> (Answer, Duration) {
    let _ = call();
    timed(call)
}

/// Runs the other program, if there is one, and this one in turn, a round each, so many times; prints the rows and draws them. How many went
/// wrong.
pub fn run(other: Option<&str>, repetitions: usize) -> usize {
    match rows(other, repetitions).and_then(drawn) {
        Ok(rows) => {
            report::growth_heading(repetitions);
            rows.iter().for_each(report::growth);
            0
        }
        Err(message) => {
            println!("FAILED: {message}");
            1
        }
    }
}

/// The rows by live nogoods, with the least times of all rounds.
fn rows(other: Option<&str>, repetitions: usize) -> Result<Vec<Row>, String> {
    let own = std::env::current_exe().map_err(|error| error.to_string())?;
    let own = own.to_str().ok_or("the path of this program is no text")?;
    let mut rows: Vec<Row> = Vec::new();
    for _ in 0..repetitions {
        let others = other.map(round_of).transpose()?;
        let mut next = round_of(own)?;
        for (place, row) in next.iter_mut().enumerate() {
            row.before = others.as_ref().and_then(|others| others.get(place)).map(|other| other.after);
        }
        rows = if rows.is_empty() { next } else { rows.iter().zip(&next).map(|(row, next)| row.least(next)).collect() };
    }
    rows.sort_by_key(|row| row.live);
    Ok(rows)
}

impl Row {
    /// The row with the lesser of the times.
    fn least(&self, other: &Row) -> Row {
        Row {
            before: self.before.zip(other.before).map(|(one, other)| one.min(other)),
            after: self.after.min(other.after),
            unverified: self.unverified.min(other.unverified),
            ..self.clone()
        }
    }
}

/// What a round of the program at the path prints.
fn round_of(path: &str) -> Result<Vec<Row>, String> {
    let printed = printed_by(path, "--growth-round")?;
    printed.lines().map(|line| row_of(line).ok_or(format!("{path} printed {line:?}"))).collect()
}

fn row_of(line: &str) -> Option<Row> {
    let words: Vec<&str> = line.split(' ').collect();
    let [steps, live, verified, unverified, name] = words[..] else { return None };
    let steps: usize = steps.parse().ok()?;
    let a_step = |word: &str| Some(report::microseconds_each(Duration::from_nanos(word.parse().ok()?), steps));
    Some(Row {
        name: String::from(name),
        steps,
        live: live.parse().ok()?,
        before: None,
        after: a_step(verified)?,
        unverified: a_step(unverified)?,
    })
}

/// Draws the rows.
fn drawn(rows: Vec<Row>) -> Result<Vec<Row>, String> {
    let series = |class, label, time: fn(&Row) -> Option<f64>| {
        let point = |row: &Row| Some((row.live as f64, time(row)?));
        Series { class, label, points: rows.iter().filter_map(point).collect() }
    };
    let compared = rows.iter().any(|row| row.before.is_some());
    let lines = [
        series("before", "verified, before", |row| row.before),
        series("after", if compared { "verified, after" } else { "verified" }, |row| Some(row.after)),
        series("unverified", "unverified", |row| Some(row.unverified)),
    ];
    std::fs::write(PICTURE, picture::draw(&lines)).map_err(|error| format!("{PICTURE}: {error}"))?;
    Ok(rows)
}

#[cfg(test)]
mod tests {
    use super::*;

    #[test]
    fn a_line_of_a_round() {
        let row = row_of("100 188 250000 50000 random-100").unwrap();
        assert_eq!((row.name.as_str(), row.steps, row.live), ("random-100", 100, 188));
        assert_eq!((row.before, row.after, row.unverified), (None, 2.5, 0.5));
        assert!(row_of("100 188 250000 random-100").is_none());
        assert!(row_of("100 188 x 50000 random-100").is_none());
    }

    #[test]
    fn the_least_of_two() {
        let row = |before, after, unverified| Row { before, after, unverified, ..row_of("1 1 1 1 x").unwrap() };
        let least = row(Some(3.0), 2.0, 1.0).least(&row(Some(2.0), 4.0, 0.5));
        assert_eq!((least.before, least.after, least.unverified), (Some(2.0), 2.0, 0.5));
    }
}
