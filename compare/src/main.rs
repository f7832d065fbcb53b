//! Holds the static library and the program `verdict` against a slow and plain reference written from documents 01 and 02.
//! From the repository's root, after `bindings/library`, and `rt run` in crates/verdict or `rt ci`:
//! cargo run --release --offline --package compare
//! Usage: compare [--seed N] [--count N] [--verdict PATH|none] [--only FAMILY/INDEX]
//!        compare --prove PATH [--split D] [--seed N] [--count N] [--only prove/INDEX]
//!        compare --plans PATH [--seed N] [--count N] [--only plans/INDEX]
//!        compare --show PATH [--seed N] [--count N] [--only show/INDEX]
//! --count says how many programs are refuted; the other random families grow with it. --verdict names the program `verdict`,
//! which is crates/verdict/out/verdict otherwise, or leaves it out. --only runs one input again, as a failure names it. --prove names the command
//! `aspdrupe`: it is run on --count random programs, and each must get a proof that is accepted or an answer set (prove.rs), nothing else; with
//! --split D it is run with that option.
//! --plans names it too: its `core`, `optimum`, `forced` and `why` are run on --count random plans each and held to enumeration (plans.rs).
//! --show names it too: its `show` is run on --count random programs with proofs, and what it says of each step is held to the reference (shows.rs).
//! The last line is 'N passed, M failed'; the exit status is 0 exactly when nothing failed.

#![forbid(unsafe_code)]

mod binary;
mod brute;
mod cases;
mod comparison;
mod costs;
mod families;
mod json;
mod long;
mod merges;
mod one_rate;
mod packets;
mod plans;
mod prove;
mod reference;
mod shows;
mod shrink;
mod sums;
mod tables;
mod tally;
mod trees;
mod trims;

use std::process::ExitCode;

use binary::Binary;
use comparison::Comparison;
use families::{families, Family};
use inputs::random::Random;
use plans::Planner;
use prove::Prover;
use shows::Shower;

struct Arguments {
    seed: u64,
    count: u64,
    verdict: String,
    prove: Option<String>,
    plans: Option<String>,
    show: Option<String>,
    split: Option<String>,
    only: Option<(String, u64)>,
}

fn arguments() -> Result<Arguments, String> {
    let verdict = String::from("crates/verdict/out/verdict");
    let mut given = Arguments { seed: 20_261_115, count: 2_000, verdict, prove: None, plans: None, show: None, split: None, only: None };
    let mut words = std::env::args().skip(1);
    while let Some(word) = words.next() {
        let value = words.next().ok_or(format!("{word} needs a value"))?;
        match word.as_str() {
            "--seed" => given.seed = value.parse().map_err(|_| format!("{value} is no seed"))?,
            "--count" => given.count = value.parse().map_err(|_| format!("{value} is no count"))?,
            "--verdict" => given.verdict = value,
            "--prove" => given.prove = Some(value),
            "--plans" => given.plans = Some(value),
            "--show" => given.show = Some(value),
            "--split" => given.split = Some(value),
            "--only" => given.only = Some(input_named(&value).ok_or(format!("{value} is no FAMILY/INDEX"))?),
            _ => {
                return Err(format!(
                    "{word} is not known; known are --seed, --count, --verdict, --prove, --split, --plans, --show and --only"
                ))
            }
        }
    }
    Ok(given)
}

fn input_named(place: &str) -> Option<(String, u64)> {
    let (family, index) = place.split_once('/')?;
    let known = ["prove", "plans", "show"].contains(&family) || families().iter().any(|listed| listed.name == family);
    Some((String::from(family), index.parse().ok()?)).filter(|_| known)
}

fn main() -> ExitCode {
    let run = |given: Arguments| match (&given.prove, &given.plans, &given.show) {
        (Some(_), ..) => prove(given),
        (None, Some(_), _) => plan(given),
        (None, None, Some(_)) => show(given),
        (None, None, None) => compare(given),
    };
    match arguments().and_then(run) {
        Ok(true) => ExitCode::SUCCESS,
        Ok(false) => ExitCode::FAILURE,
        Err(message) => {
            eprintln!("{message}");
            ExitCode::from(2)
        }
    }
}

/// A run of `aspdrupe prove` on random programs; whether nothing failed.
fn prove(given: Arguments) -> Result<bool, String> {
    let command = given.prove.unwrap_or_default();
    let prover = Prover::of(&command, given.split).map_err(|error| format!("{command}: {error}"))?;
    let mut comparison = Comparison::of(None);
    let indexes = given.only.map_or(0..given.count, |(_, index)| index..index.saturating_add(1));
    prove::run(&mut comparison, &prover, given.seed, indexes);
    println!("{} passed, {} failed", comparison.passed, comparison.failed);
    Ok(comparison.failed == 0)
}

/// A run of `aspdrupe core`, `optimum` and `forced` on random plans; whether nothing failed.
fn plan(given: Arguments) -> Result<bool, String> {
    let command = given.plans.unwrap_or_default();
    let planner = Planner::of(&command).map_err(|error| format!("{command}: {error}"))?;
    let mut comparison = Comparison::of(None);
    let indexes = given.only.map_or(0..given.count, |(_, index)| index..index.saturating_add(1));
    plans::run(&mut comparison, &planner, given.seed, indexes);
    println!("{} passed, {} failed", comparison.passed, comparison.failed);
    Ok(comparison.failed == 0)
}

/// A run of `aspdrupe show` on random programs with proofs; whether nothing failed.
fn show(given: Arguments) -> Result<bool, String> {
    let command = given.show.unwrap_or_default();
    let shower = Shower::of(&command).map_err(|error| format!("{command}: {error}"))?;
    let mut comparison = Comparison::of(None);
    let indexes = given.only.map_or(0..given.count, |(_, index)| index..index.saturating_add(1));
    shows::run(&mut comparison, &shower, given.seed, indexes);
    println!("{} passed, {} failed", comparison.passed, comparison.failed);
    Ok(comparison.failed == 0)
}

/// The whole run; whether nothing failed.
fn compare(given: Arguments) -> Result<bool, String> {
    let binary = match given.verdict.as_str() {
        "none" => None,
        path => Some(Binary::of(path).map_err(|error| format!("{path}: {error} (--verdict none leaves the program out)"))?),
    };
    let mut comparison = Comparison::of(binary);
    for family in &families() {
        match &given.only {
            None => run_family(&mut comparison, family, &given),
            Some((name, index)) if name == family.name => run_input(&mut comparison, family, given.seed, *index),
            Some(_) => {}
        }
    }
    if given.only.is_none() {
        account_for_tally(&mut comparison);
    }
    println!("{} passed, {} failed", comparison.passed, comparison.failed);
    Ok(comparison.failed == 0)
}

fn run_family(comparison: &mut Comparison, family: &Family, given: &Arguments) {
    let started = std::time::Instant::now();
    let before = comparison.passed;
    let count = family.fixed_count.unwrap_or(family.share * given.count / 100);
    for index in 0..count {
        run_input(comparison, family, given.seed, index);
    }
    println!(
        "{}: {count} inputs, {} comparisons passed, {:.1} s",
        family.name,
        comparison.passed - before,
        started.elapsed().as_secs_f64()
    );
}

fn run_input(comparison: &mut Comparison, family: &Family, seed: u64, index: u64) {
    comparison.open(format!("{}/{index} --seed {seed}", family.name), Random::of(seed, family.name, index));
    (family.run)(comparison, index);
}

/// Prints the tally; an answer that was never seen is a failure.
fn account_for_tally(comparison: &mut Comparison) {
    comparison.tally.print();
    for what in comparison.tally.missing(comparison.binary.is_some()) {
        comparison.settle(false, || format!("never seen: {what}"));
    }
}
