//! `aspdrupe trim`: of a proof that is accepted only the steps that it needs.

use aspdrupe::Trimming;

use crate::arguments::{Subcommand, Words};
use crate::files::{self, TEXT_LIMIT};
use crate::json::Json;
use crate::outcome::{Failure, Outcome};
use crate::progress::{Part, Progress};
use crate::{explain, library};

pub const SUBCOMMAND: Subcommand = Subcommand {
    name: "trim",
    form: "PROGRAM PROOF [-o OUT.drupe] [--table N] [--store N]",
    about: "Leaves of a proof that is accepted only what it needs: without any single one of the steps left it is not accepted.",
    more: "Prints the verdict on what is left, `inconsistent N R S K`, or
    refused program NUMBER LINE
    refused trim NUMBER      the proof is not accepted; what `aspdrupe check` says of it is on the standard error
A pass is a whole check for each step, and there can be as many passes as steps: most long proofs take some seconds, with two passes.
--table N and --store N are the words for rules and nogoods, 16384 each where nothing is said, as in `verdict`.",
    options: &["-o", "--table", "--store"],
    lists: &[],
    flags: &[],
    inputs: &[0, 1],
    operands: (2, 2),
    run,
};

fn run(words: &Words) -> Result<Outcome, Failure> {
    let (table, store) = (words.room("--table")?, words.room("--store")?);
    let program = files::read(words.path(0)?, TEXT_LIMIT)?;
    let mut proof = files::read(words.path(1)?, TEXT_LIMIT)?;
    let before = steps(&proof);
    let progress = Progress::start();
    progress.begin(Part::Trimming);
    let bytes = match aspdrupe::trim_proof(&program, &mut proof, &mut library::lent(table)?, &mut library::lent(store)?)? {
        Trimming::RefusedProgram(refusal) => return Ok(explain::program(refusal, &program)),
        Trimming::Refused(question) => {
            let refusal = explain::question("trim", question.number(), question.to_string(), question.mend());
            let check = explain::verdict(library::check_texts(&program, &proof, table, store)?, (&program, &proof), table);
            return Ok(refusal.explained_by("check", "the check of the proof", check));
        }
        Trimming::Trimmed(bytes) => bytes,
    };
    drop(progress);
    proof.truncate(bytes);
    let verdict = library::check_texts(&program, &proof, table, store)?;
    if let Some(path) = words.output("-o") {
        files::write(&path, &proof)?;
    }
    let mut outcome = explain::verdict(verdict, (&program, &proof), table);
    let gone = before - steps(&proof);
    outcome.words.push(format!("{gone} of {before} steps went; what is left has {bytes} bytes"));
    outcome.fields.extend([("removed", Json::count(gone)), ("bytes", Json::count(bytes))]);
    Ok(outcome)
}

/// The steps of a proof that is accepted: its lines.
fn steps(proof: &[u8]) -> usize {
    proof.iter().filter(|byte| **byte == b'\n').count()
}
