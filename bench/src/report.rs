//! What is printed: a row for each input, lines on the packets, on the merge, on trimming, on a cheapest set, on long
//! sums and on reading, the rows of two programs side by side, and those on growth.

use crate::cases::{Goal, Input};
use crate::costs::Certified;
use crate::growth::Row;
use crate::measure::{Answer, Measured, Times};
use crate::merging::Merged;
use crate::packets::Packed;
use crate::reading::{Amount, Reading};
use crate::sums::Split;
use crate::trees;
use crate::trimming::Trimmed;
use aspdrupe::{Counts, Verdict};
use std::time::Duration;

pub fn heading(repetitions: usize) {
    println!("The whole check, {repetitions} times on each input; times a step are of the medians.");
    println!(
        "{:<21} {:>15} {:>29} {:>17} {:>17} {:>26} {:>19}",
        "", "bytes", "", "verified, ms", "unverified, ms", "ratio", "microseconds a step"
    );
    println!(
        "{:<21} {:>7} {:>7} {:>29} {:>8} {:>8} {:>8} {:>8} {:>6} {:>6} {:>12} {:>8} {:>10}",
        "input",
        "program",
        "proof",
        "verdict",
        "median",
        "least",
        "median",
        "least",
        "median",
        "least",
        "to reach",
        "verified",
        "unverified"
    );
}

pub fn row(input: &Input, measured: &Measured) {
    let (verified, unverified) = (&measured.verified_times, &measured.unverified_times);
    let steps = counts_of(&measured.verified).map_or(1, |counts| counts.steps);
    println!(
        "{:<21} {:>7} {:>7} {:>29} {:>8.3} {:>8.3} {:>8.3} {:>8.3} {:>6.1} {:>6.1} {:>12} {:>8.2} {:>10.2}",
        input.name,
        input.texts.program.len(),
        input.texts.proof.len(),
        line_of(&measured.verified),
        milliseconds(verified.median),
        milliseconds(verified.least),
        milliseconds(unverified.median),
        milliseconds(unverified.least),
        milliseconds(verified.median) / milliseconds(unverified.median),
        milliseconds(verified.least) / milliseconds(unverified.least),
        goal_of(input),
        microseconds_each(verified.median, steps),
        microseconds_each(unverified.median, steps),
    );
}

/// What the input's time is to reach, in words.
fn goal_of(input: &Input) -> String {
    match input.goal {
        Some(Goal::Ratio(most)) => format!("at most {most:.1}"),
        Some(Goal::Milliseconds(bound)) => format!("under {bound} ms"),
        None => String::from("-"),
    }
}

pub fn difference(input: &Input, measured: &Measured) {
    let (verified, unverified) = (line_of(&measured.verified), line_of(&measured.unverified));
    println!("FAILED: {}: verified '{verified}', unverified '{unverified}'", input.name);
}

/// The lines on the packets of the longest proof.
pub fn packet(packed: Option<&Packed>) {
    let Some(packed) = packed else {
        println!("FAILED: a packet of the longest proof is refused, another pair is read back, or another packet made by a move");
        return;
    };
    for (number, to, times) in [(1, "up", &packed.versions[0]), (2, "down", &packed.versions[1])] {
        println!(
            "packet of {}, version {number}: {} bytes; written in {:.3} ms (least {:.3}), read in {:.3} ms (least {:.3}), moved {to} in {:.3} ms (least {:.3})",
            packed.name,
            times.size,
            milliseconds(times.writing.median),
            milliseconds(times.writing.least),
            milliseconds(times.reading.median),
            milliseconds(times.reading.least),
            milliseconds(times.moving.median),
            milliseconds(times.moving.least),
        );
    }
}

/// The line on the two halves.
pub fn merging(merged: Option<&Merged>) {
    let Some(merged) = merged else {
        println!("FAILED: two halves are not merged, or the merged proof is not accepted");
        return;
    };
    println!(
        "merge of {}: {} and {} steps, merged into {} of {} bytes in {:.3} ms (least {:.3}); that proof is checked in {:.3} ms (least {:.3})",
        merged.name,
        merged.halves[0],
        merged.halves[1],
        merged.steps,
        merged.size,
        milliseconds(merged.merging.median),
        milliseconds(merged.merging.least),
        milliseconds(merged.checking.median),
        milliseconds(merged.checking.least),
    );
}

/// The line on the tree.
pub fn tree(merged: Option<&trees::Merged>) {
    let Some(merged) = merged else {
        println!("FAILED: a tree is not merged, or an end or the merged proof is not accepted");
        return;
    };
    println!(
        "merge of {}: {} ends of {} bytes, merged into {} steps of {} bytes in {:.3} ms (least {:.3}); the ends are checked in {:.3} ms (least {:.3}), the merged proof in {:.3} ms (least {:.3})",
        merged.name,
        merged.ends,
        merged.texts,
        merged.steps,
        merged.size,
        milliseconds(merged.merging.median),
        milliseconds(merged.merging.least),
        milliseconds(merged.ends_checking.median),
        milliseconds(merged.ends_checking.least),
        milliseconds(merged.checking.median),
        milliseconds(merged.checking.least),
    );
}

/// The line on a proof that was trimmed.
pub fn trimming(trimmed: &Result<Trimmed, String>) {
    match trimmed {
        Ok(trimmed) => println!(
            "trimming of {}: {} of {} steps, {} bytes, are left after {:.3} s (least {:.3}); the whole proof is checked in {:.3} ms (least {:.3})",
            trimmed.name,
            trimmed.left,
            trimmed.steps,
            trimmed.size,
            trimmed.trimming.median.as_secs_f64(),
            trimmed.trimming.least.as_secs_f64(),
            milliseconds(trimmed.checking.median),
            milliseconds(trimmed.checking.least),
        ),
        Err(name) => println!("FAILED: {name} is not trimmed, or to another number of steps"),
    }
}

/// The line on a cheapest set.
pub fn certified(certified: Option<&Certified>) {
    let Some(certified) = certified else {
        println!("FAILED: a set is not certified as cheapest, or its proof is not accepted for the restricted program");
        return;
    };
    println!(
        "cheapest of {}: {} on {} literals, a program of {} bytes and {} steps of {} bytes, certified in {:.3} ms (least {:.3}); for the restricted program the proof is checked in {:.3} ms (least {:.3})",
        certified.name,
        certified.cost,
        certified.literals,
        certified.program,
        certified.steps,
        certified.proof,
        milliseconds(certified.certifying.median),
        milliseconds(certified.certifying.least),
        milliseconds(certified.checking.median),
        milliseconds(certified.checking.least),
    );
}

/// The line on a program whose long sums were split.
pub fn split(split: &Result<Split, &str>) {
    let split = match split {
        Ok(split) => split,
        Err(name) => {
            println!("FAILED: {name} is split into other rules than it must be");
            return;
        }
    };
    let written =
        split.written.map_or(String::from("refused with 66"), |(rules, bytes)| format!("split into {rules} rules of {bytes} bytes"));
    println!(
        "splitting of {}, groups of {}: {} bytes, {written} in {:.3} ms (least {:.3})",
        split.name,
        split.group,
        split.bytes,
        milliseconds(split.splitting.median),
        milliseconds(split.splitting.least),
    );
}

/// The lines on reading.
pub fn reading(reading: Option<&Reading>) {
    let Some(reading) = reading else {
        println!("FAILED: a text that should be read is refused");
        return;
    };
    reading_row("read_program", "rules", &reading.program);
    reading_row("read_line", "lines", &reading.proof);
}

fn reading_row(service: &str, what: &str, (amount, times): &(Amount, Times)) {
    println!(
        "{service} on {}: {} bytes, {} {what} in {:.3} ms (least {:.3}), {:.2} ns a byte",
        amount.name,
        amount.bytes,
        amount.count,
        milliseconds(times.median),
        milliseconds(times.least),
        times.median.as_secs_f64() * 1e9 / amount.bytes as f64,
    );
}

pub fn beside_heading(repetitions: usize) {
    println!("The other program and this one in turn, {repetitions} times; milliseconds.");
    println!("{:<26} {:>17} {:>17} {:>17}", "", "other", "this one", "difference");
    println!("{:<26} {:>8} {:>8} {:>8} {:>8} {:>8} {:>8}", "", "median", "least", "median", "least", "median", "least");
}

pub fn beside(name: &str, other: &Times, own: &Times) {
    let pair = |times: &Times| (milliseconds(times.median), milliseconds(times.least));
    let (other, own) = (pair(other), pair(own));
    println!(
        "{name:<26} {:>8.4} {:>8.4} {:>8.4} {:>8.4} {:>8.4} {:>8.4}",
        other.0,
        other.1,
        own.0,
        own.1,
        own.0 - other.0,
        own.1 - other.1
    );
}

pub fn growth_heading(repetitions: usize) {
    println!("Time a step against live nogoods, the least of {repetitions} times; microseconds.");
    println!("{:<12} {:>6} {:>6} {:>9} {:>9} {:>11}", "input", "steps", "live", "before", "after", "unverified");
}

/// A row on growth; without another program there is nothing before.
pub fn growth(row: &Row) {
    let before = row.before.map_or(String::from("-"), |time| format!("{time:.2}"));
    println!("{:<12} {:>6} {:>6} {before:>9} {:>9.2} {:>11.2}", row.name, row.steps, row.live, row.after, row.unverified);
}

pub fn long_heading(repetitions: usize) {
    println!("The long check, {repetitions} times on each input; times are the least.");
    println!(
        "{:<20} {:>9} {:>8} {:>8} {:>8} {:>11} {:>13} {:>6} {:>12} {:>9} {:>11}",
        "input", "proof", "steps", "live", "words", "verified ms", "unverified ms", "ratio", "to reach", "ns a byte", "unverified"
    );
}

pub fn long_row(input: &Input, measured: &Measured) {
    let (verified, unverified) = (measured.verified_times.least, measured.unverified_times.least);
    let (steps, live) = counts_of(&measured.verified).map_or((0, 0), |counts| (counts.steps, counts.nogoods));
    let bytes = input.texts.proof.len();
    let each = |time: Duration| time.as_secs_f64() * 1e9 / bytes as f64;
    println!(
        "{:<20} {bytes:>9} {steps:>8} {live:>8} {:>8} {:>11.2} {:>13.2} {:>6.2} {:>12} {:>9.1} {:>11.1}",
        input.name,
        input.store,
        milliseconds(verified),
        milliseconds(unverified),
        milliseconds(verified) / milliseconds(unverified),
        goal_of(input),
        each(verified),
        each(unverified),
    );
}

/// The line on noise that is refused at its first line.
pub fn noise(bytes: usize, good: bool, times: &Times) {
    if good {
        println!(
            "noise of {bytes} bytes: refused at its first line in {:.3} ms (least {:.3})",
            milliseconds(times.median),
            milliseconds(times.least)
        );
    } else {
        println!("FAILED: noise is not refused at its first line");
    }
}

/// The counts of a proof that was gone through.
pub fn counts_of(answer: &Answer) -> Option<&Counts> {
    match answer {
        Ok(Verdict::Inconsistent(counts) | Verdict::Open(counts)) => Some(counts),
        _ => None,
    }
}

/// The line that `verdict` prints, or that there is none.
fn line_of(answer: &Answer) -> String {
    match answer {
        Ok(verdict) => verdict.to_string(),
        Err(unknown) => unknown.to_string(),
    }
}

fn milliseconds(time: Duration) -> f64 {
    time.as_secs_f64() * 1e3
}

pub fn microseconds_each(time: Duration, steps: usize) -> f64 {
    time.as_secs_f64() * 1e6 / steps.max(1) as f64
}
