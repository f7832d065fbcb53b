//! Two builds of this program in turn, each over its own static library: what a change of the library does to the times.

use crate::cases::{self, Input};
use crate::measure::{times_of, Buffers};
use crate::reading::Reader;
use crate::report;
use std::process::Command;
use std::time::{Duration, Instant};

/// One thing that was measured, and its time.
type Timed = (String, Duration);

/// A row of the comparison: the times of the other program, and of this one.
pub struct Row {
    name: String,
    others: Vec<Duration>,
    own: Vec<Duration>,
}

/// Readings before the one that counts.
const WARM: usize = 10;

/// Measures everything once, after runs that are not counted, and prints a line for each: nanoseconds and name. Whether a text is refused
/// that should be read.
pub fn round() -> usize {
    let inputs = cases::all();
    let Some(times) = once(&inputs) else { return 1 };
    for (name, time) in times {
        println!("{} {name}", time.as_nanos());
    }
    0
}

/// Both readings, and the whole check of every input.
fn once(inputs: &[Input]) -> Option<Vec<Timed>> {
    let mut reader = Reader::of(inputs)?;
    for _ in 0..WARM {
        reader.run()?;
    }
    let read = reader.run()?;
    let mut times =
        vec![(format!("read_program, {} rules", read.rules.0), read.rules.1), (format!("read_line, {} lines", read.lines.0), read.lines.1)];
    let mut buffers = Buffers::new();
    for input in inputs {
        let _ = buffers.verified(input);
        let start = Instant::now();
        let _ = buffers.verified(input);
        times.push((input.name.clone(), start.elapsed()));
    }
    Some(times)
}

/// Runs the other program and this one in turn, a round each, so many times; how many went wrong.
pub fn run(other: &str, repetitions: usize) -> usize {
    match rounds(other, repetitions) {
        Ok(rows) => {
            report::beside_heading(repetitions);
            for row in rows {
                report::beside(&row.name, &times_of(row.others), &times_of(row.own));
            }
            0
        }
        Err(message) => {
            println!("FAILED: {message}");
            1
        }
    }
}

fn rounds(other: &str, repetitions: usize) -> Result<Vec<Row>, String> {
    let own = std::env::current_exe().map_err(|error| error.to_string())?;
    let own = own.to_str().ok_or("the path of this program is no text")?;
    let mut rows: Vec<Row> = Vec::new();
    for _ in 0..repetitions {
        let (others, owns) = (round_of(other)?, round_of(own)?);
        if rows.is_empty() {
            rows = owns.iter().map(|(name, _)| Row { name: name.clone(), others: Vec::new(), own: Vec::new() }).collect();
        }
        if others.len() != rows.len() || owns.len() != rows.len() {
            return Err(String::from("the two programs measure different things"));
        }
        for ((row, other), own) in rows.iter_mut().zip(others).zip(owns) {
            row.others.push(other.1);
            row.own.push(own.1);
        }
    }
    Ok(rows)
}

/// What the program at the path prints when it is run with the word.
pub fn printed_by(path: &str, word: &str) -> Result<String, String> {
    let output = Command::new(path).arg(word).output().map_err(|error| format!("{path}: {error}"))?;
    if !output.status.success() {
        return Err(format!("{path} {word}: {}", output.status));
    }
    String::from_utf8(output.stdout).map_err(|error| error.to_string())
}

/// What a round of the program at the path prints.
fn round_of(path: &str) -> Result<Vec<Timed>, String> {
    let printed = printed_by(path, "--round")?;
    printed.lines().map(|line| timed_line(line).ok_or(format!("{path} printed {line:?}"))).collect()
}

fn timed_line(line: &str) -> Option<Timed> {
    let (nanoseconds, name) = line.split_once(' ')?;
    Some((String::from(name), Duration::from_nanos(nanoseconds.parse().ok()?)))
}

#[cfg(test)]
mod tests {
    use super::*;

    #[test]
    fn a_line_of_a_round() {
        assert_eq!(timed_line("1500 read_line, 2 lines"), Some((String::from("read_line, 2 lines"), Duration::from_nanos(1_500))));
        assert_eq!(timed_line("wide-1024"), None);
        assert_eq!(timed_line("x wide-1024"), None);
    }
}
