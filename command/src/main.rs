//! The command `aspdrupe`: from a program to a certified answer. What decides is the proved library (`bindings/rust`); here files are read,
//! gringo and cadical are run, and what the library says is shown. `aspdrupe --help` has the subcommands.

#![deny(unsafe_code)] // save in `signals`

mod arguments;
mod certify;
mod cheapest;
mod check;
mod constrained;
mod core;
mod ends;
mod explain;
mod files;
mod forced;
mod ground;
mod interrupt;
mod json;
mod library;
mod locate;
mod merge;
mod names;
mod optimum;
mod outcome;
mod outputs;
mod packet;
mod page;
mod plan;
mod progress;
mod prove;
mod quote;
mod rules;
mod set_test;
mod show;
mod signals;
mod source;
mod spelling;
mod split;
mod statements;
mod sums;
mod terms;
mod tools;
mod totalizer;
mod tree;
mod trim;
mod why;

use std::ffi::OsString;
use std::io::Write;
use std::process::ExitCode;
use std::sync::mpsc::channel;

use arguments::{Given, Subcommand};
use json::Json;
use outcome::{Failure, Outcome, Status};

/// In the order in which `--help` lists them.
const SUBCOMMANDS: [&Subcommand; 14] = [
    &prove::SUBCOMMAND,
    &core::SUBCOMMAND,
    &optimum::SUBCOMMAND,
    &forced::SUBCOMMAND,
    &why::SUBCOMMAND,
    &check::SUBCOMMAND,
    &show::SUBCOMMAND,
    &set_test::SUBCOMMAND,
    &cheapest::SUBCOMMAND,
    &ground::SUBCOMMAND,
    &trim::SUBCOMMAND,
    &merge::SUBCOMMAND,
    &tree::SUBCOMMAND,
    &packet::SUBCOMMAND,
];

/// The bytes of stack for everything: four times those of the library's largest call.
pub const STACK: usize = 4 * aspdrupe::TREE_STACK;

fn main() -> ExitCode {
    signals::catch();
    let words: Vec<OsString> = std::env::args_os().skip(1).collect();
    let (sender, receiver) = channel();
    let work = words.clone();
    let started = std::thread::Builder::new().stack_size(STACK).spawn(move || sender.send(run(work)));
    if let Err(error) = started {
        say(&format!("there is no room for a thread: {error}"));
    }
    // A thread that panics, or is none, sends nothing.
    let status = interrupt::wait_for(&receiver, |signal| show_interrupt(signal, &words)).unwrap_or(Status::Misuse);
    ExitCode::from(status as u8)
}

/// The whole run; its status.
fn run(words: Vec<OsString>) -> Status {
    let json = asks_for_json(&words);
    let (name, outcome) = outcome(words);
    interrupt::answer();
    let written = match &outcome {
        Ok(outcome) => show(name, outcome, json),
        Err(failure) => show_failure(name, failure.status as i64, &failure.message, json),
    };
    match (written, outcome) {
        (Ok(()), Ok(outcome)) => outcome.status,
        (Ok(()), Err(failure)) => failure.status,
        (Err(error), _) => {
            say(&format!("the answer cannot be written: {}", files::reason(&error)));
            Status::Misuse
        }
    }
}

pub fn asks_for_json(words: &[OsString]) -> bool {
    words.iter().take_while(|word| *word != "--").any(|word| word == "--json")
}

fn named(first: &OsString) -> Option<&'static Subcommand> {
    SUBCOMMANDS.into_iter().find(|listed| first == listed.name)
}

/// What the words come to, with the subcommand's name where one is named. `--json` may stand before it too.
fn outcome(words: Vec<OsString>) -> (&'static str, Result<Outcome, Failure>) {
    let before = words.iter().take_while(|word| *word == "--json").count();
    let Some((first, others)) = words[before..].split_first() else {
        return ("", Err(Failure::misuse("which subcommand? `aspdrupe --help` lists them")));
    };
    if first == "--help" || first == "-h" || first == "help" {
        let text = others.iter().find_map(named).map_or_else(|| arguments::overview(&SUBCOMMANDS), arguments::help);
        return ("", Ok(Outcome::text(text)));
    }
    if first == "--version" {
        return ("", Ok(Outcome::text(format!("aspdrupe {}", env!("CARGO_PKG_VERSION")))));
    }
    let Some(subcommand) = named(first) else {
        let message = format!("there is no subcommand `{}`; `aspdrupe --help` lists them", first.to_string_lossy());
        return ("", Err(Failure::misuse(message)));
    };
    let run = match arguments::read(subcommand, others) {
        Ok(Given::Help) => Ok(Outcome::text(arguments::help(subcommand))),
        Ok(Given::Work(given)) => arguments::keep_inputs(subcommand, &given).and_then(|()| (subcommand.run)(&given)),
        Err(message) => Err(Failure::misuse(format!("{message}; `aspdrupe {} --help` says more", subcommand.name))),
    };
    (subcommand.name, run)
}

/// Writes the result to the standard output and then the words for people to the standard error.
fn show(name: &str, outcome: &Outcome, json: bool) -> std::io::Result<()> {
    let mut result = if json { whole(name, outcome.status as i64, outcome.fields.clone()).to_string() } else { outcome.line.clone() };
    if !result.is_empty() && !result.ends_with('\n') {
        result.push('\n');
    }
    print(&result)?;
    outcome.words.iter().for_each(|line| say(line));
    Ok(())
}

fn show_failure(name: &str, status: i64, message: &str, json: bool) -> std::io::Result<()> {
    say(message);
    if json {
        let fields = vec![("error", Json::text(message))];
        return print(&format!("{}\n", whole(name, status, fields)));
    }
    Ok(())
}

/// The last words of a run that a signal ends; the status is the one that a shell tells of it.
fn show_interrupt(signal: i32, words: &[OsString]) {
    let name = words.iter().find_map(named).map_or("", |subcommand| subcommand.name);
    let message = "interrupted: there is no answer, and no file is left half-written";
    let _ = show_failure(name, 128 + i64::from(signal), message, asks_for_json(words));
}

fn whole(name: &str, status: i64, fields: Vec<(&'static str, Json)>) -> Json {
    let before = [("command", Json::text(name)), ("status", Json::Number(status))];
    Json::Object(before.into_iter().chain(fields).collect())
}

/// A reader of the output that has enough closes it: that is no fault.
fn print(text: &str) -> std::io::Result<()> {
    let mut out = std::io::stdout().lock();
    match out.write_all(text.as_bytes()).and_then(|()| out.flush()) {
        Err(error) if error.kind() == std::io::ErrorKind::BrokenPipe => Ok(()),
        written => written,
    }
}

/// A line for people. Where the standard error cannot be written there is no one to tell.
pub fn say(line: &str) {
    let _ = writeln!(std::io::stderr(), "{line}");
}
