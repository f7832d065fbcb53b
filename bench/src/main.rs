//! The benchmark: the whole check through the static library beside an unverified checker, on inputs made from fixed
//! seeds. Both must give the same verdict on each input. Then the packets of the longest proof, written, read back and
//! moved, two halves and a tree of 64 ends each merged into one proof, refutations trimmed, a cheapest set certified,
//! long sums split, and reading alone. The last line is 'N passed, M failed'; the exit status is 0 where none failed.
//!
//! With `--once` each input is run once by each checker, and only small ones are trimmed. Without arguments the times are medians of 31 repetitions; a number as
//! the argument says how many others there are to be. With `--slow` the inputs that were made to be slow are run once in place of the others.
//! With `--beside OTHER`, and a number where it is not to be 31, this program and OTHER, a build of it over another library, are run in turn;
//! each does a `--round`. With `--growth`, and OTHER where there is one, both run refutations of growing size, each in a `--growth-round`; the
//! picture goes to docs/growth.svg. With `--long` the check for proofs of any length is run on proofs of 0.1 to 16 megabytes, 5 times each or as a
//! number behind it says, with COMMAND, which is `aspdrupe`, also on those that it finds of the weeks of examples/plans; the picture goes to
//! docs/length.svg. With `--fallbacks` it counts, on a copy of the library in plain Rust, the steps that the search left to sweeps.

#![forbid(unsafe_code)]

mod beside;
mod cases;
mod costs;
mod fallbacks;
mod growth;
mod long;
mod measure;
mod merging;
mod packets;
mod picture;
mod reading;
mod report;
mod sums;
mod trees;
mod trimming;
mod unverified;

use cases::Input;
use measure::Measured;
use std::process::ExitCode;

const REPETITIONS: usize = 31;
const LONG_REPETITIONS: usize = 5;

fn main() -> ExitCode {
    let words: Vec<String> = std::env::args().skip(1).collect();
    let words: Vec<&str> = words.iter().map(String::as_str).collect();
    let failed = match words.as_slice() {
        [] => Some(run_all(REPETITIONS)),
        ["--once"] => Some(run_all(1)),
        ["--slow"] => Some(run_slow()),
        ["--fallbacks"] => Some(fallbacks::run()),
        ["--round"] => Some(beside::round()),
        ["--growth-round"] => Some(growth::round()),
        ["--growth"] => Some(growth::run(None, REPETITIONS)),
        ["--growth", other] => Some(growth::run(Some(other), REPETITIONS)),
        ["--growth", other, count] => repetitions(count).map(|count| growth::run(Some(other), count)),
        ["--long"] => Some(long::run(None, LONG_REPETITIONS)),
        ["--long", command] => Some(long::run(Some(command), LONG_REPETITIONS)),
        ["--long", command, count] => repetitions(count).map(|count| long::run(Some(command), count)),
        ["--beside", other] => Some(beside::run(other, REPETITIONS)),
        ["--beside", other, count] => repetitions(count).map(|count| beside::run(other, count)),
        [count] => repetitions(count).map(run_all),
        _ => None,
    };
    let Some(failed) = failed else {
        eprintln!(
            "usage: bench [--once | --slow | --fallbacks | REPETITIONS | --beside OTHER [REPETITIONS] | --growth [OTHER [REPETITIONS]] | --long [COMMAND [REPETITIONS]]]"
        );
        eprintln!("       bench --round | --growth-round");
        return ExitCode::from(2);
    };
    ExitCode::from(u8::from(failed > 0))
}

fn repetitions(word: &str) -> Option<usize> {
    word.parse().ok().filter(|count| *count > 0)
}

/// Runs the inputs that were made to be slow, once; on how many the checkers differ.
fn run_slow() -> usize {
    let inputs = cases::slow();
    let measured = measure::measure(&inputs, 1);
    report::heading(1);
    let failed = report_inputs(&inputs, &measured);
    println!("{} passed, {failed} failed", inputs.len() - failed);
    failed
}

/// Runs all inputs, the packets of the longest proof, the merges, trimming, the cheapest set and reading alone; on how
/// many inputs the checkers differ, one more where a packet is not read back or not moved, one more where the halves
/// are not merged, one more where the tree is not, one more for each proof of which other steps are left than must be,
/// one more where the set is not certified, one more for each program whose sums are split into other rules than must
/// be, and one more where a text is refused that should be read.
fn run_all(repetitions: usize) -> usize {
    let inputs = cases::all();
    let measured = measure::measure(&inputs, repetitions);
    let packed = packets::measure(&inputs, repetitions);
    let merged = merging::measure(&cases::split(), repetitions);
    let tree = trees::measure(&cases::tree(), repetitions);
    let trimmed = trimming::measure(&inputs, repetitions);
    let certified = costs::measure(&cases::certificate(), repetitions);
    let split = sums::measure(repetitions);
    let read = reading::measure(&inputs, repetitions);
    report::heading(repetitions);
    let mut others = vec![packed.is_none(), merged.is_none(), tree.is_none(), certified.is_none(), read.is_none()];
    others.extend(trimmed.iter().map(Result::is_err));
    others.extend(split.iter().map(Result::is_err));
    let failed = report_inputs(&inputs, &measured) + others.iter().filter(|failed| **failed).count();
    report::packet(packed.as_ref());
    report::merging(merged.as_ref());
    report::tree(tree.as_ref());
    trimmed.iter().for_each(report::trimming);
    report::certified(certified.as_ref());
    split.iter().for_each(report::split);
    report::reading(read.as_ref());
    report::long_heading(1);
    let (long, differing) = long::once();
    println!("{} passed, {} failed", inputs.len() + others.len() + long - failed - differing, failed + differing);
    failed + differing
}

/// Reports every input; on how many the checkers differ.
fn report_inputs(inputs: &[Input], measured: &[Measured]) -> usize {
    let mut failed = 0;
    for (input, measured) in inputs.iter().zip(measured) {
        if measured.verified == measured.unverified {
            report::row(input, measured);
        } else {
            failed += 1;
            report::difference(input, measured);
        }
    }
    failed
}
