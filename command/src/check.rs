//! `aspdrupe check`: the verdict on a program and a proof.

use crate::arguments::{Subcommand, Words};
use crate::files::{self, PROOF_LIMIT, TEXT_LIMIT};
use crate::outcome::{Failure, Outcome};
use crate::progress::Progress;
use crate::{explain, library};

pub const SUBCOMMAND: Subcommand = Subcommand {
    name: "check",
    form: "PROGRAM PROOF [--table N] [--store N]",
    about: "Checks a proof: 'inconsistent', 'open', or a refusal with the offending line and what to mend.",
    more: "PROGRAM is a program text (ASPIF), PROOF a proof text (ASP-DRUPE). Prints the line of `verdict`:
    inconsistent N R S K     largest atom, rules, steps, live nogoods
    open N R S K
    refused program NUMBER LINE
    refused proof NUMBER STEP
A proof beyond 65,535 bytes goes to the check for proofs of any length; `verdict`, and a service of document 01, would refuse it with 21.
--table N and --store N are the words for rules and nogoods; where nothing is said 16384 each, as in `verdict`, and for a proof beyond 65,535 bytes
as long a store as it needs.",
    options: &["--table", "--store"],
    lists: &[],
    flags: &[],
    inputs: &[0, 1],
    operands: (2, 2),
    run,
};

fn run(words: &Words) -> Result<Outcome, Failure> {
    let (table, store) = (words.room("--table")?, words.room_told("--store")?);
    let program = files::read(words.path(0)?, TEXT_LIMIT)?;
    let proof = files::read(words.path(1)?, PROOF_LIMIT)?;
    let progress = Progress::start();
    progress.checking(proof.len());
    let checked = library::check(&program, &proof, table, store)?;
    Ok(explain::checked(&checked, (&program, &proof), table))
}
