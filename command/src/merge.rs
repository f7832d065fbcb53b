//! `aspdrupe merge`: the proofs of two halves into one proof of the program itself.

use aspdrupe::{MergeQuestion, Merging, ProgramQuestion};

use crate::arguments::{Subcommand, Words};
use crate::files::{self, TEXT_LIMIT};
use crate::json::Json;
use crate::outcome::{Failure, Outcome, Status};
use crate::{constrained, explain, library};

pub const SUBCOMMAND: Subcommand = Subcommand {
    name: "merge",
    form: "PROGRAM ATOM FIRST SECOND [-o PROOF.drupe] [--table N] [--store N]",
    about: "Merges the proofs of two halves of a program, split on an atom, into one proof of the program itself.",
    more:
        "FIRST is a proof for the program with the constraint `1 0 0 0 1 -ATOM` added, which demands the atom, SECOND for the program with
`1 0 0 0 1 ATOM` added, which forbids it. Prints the verdict on the merged proof, `inconsistent N R S K`, or
    refused program NUMBER LINE
    refused merge NUMBER     of 57, what `aspdrupe check` says of a half that is not accepted is on the standard error
--table N and --store N are the words for rules and nogoods, 16384 each where nothing is said, as in `verdict`.",
    options: &["-o", "--table", "--store"],
    lists: &[],
    flags: &[],
    inputs: &[0, 2, 3],
    operands: (4, 4),
    run,
};

fn run(words: &Words) -> Result<Outcome, Failure> {
    let (table, store) = (words.room("--table")?, words.room("--store")?);
    let name = words.operand(1)?.to_string_lossy();
    let atom = name.parse().map_err(|_| Failure::misuse(format!("`{name}` is no atom's number")))?;
    let program = files::read(words.path(0)?, TEXT_LIMIT)?;
    let first = files::read(words.path(2)?, TEXT_LIMIT)?;
    let second = files::read(words.path(3)?, TEXT_LIMIT)?;
    let mut output = vec![0; TEXT_LIMIT];
    let merging =
        aspdrupe::merge_halves(&program, atom, &first, &second, &mut library::lent(table)?, &mut library::lent(store)?, &mut output)?;
    let outcome = shown(words, merging, &program, output)?;
    if merging == Merging::Refused(MergeQuestion::Halves) {
        return Split { program, atom, store }.explained(outcome, [&first, &second]);
    }
    Ok(outcome)
}

/// What a merge comes to, and its text written where `-o` asks for it.
pub fn shown(words: &Words, merging: Merging, program: &[u8], mut output: Vec<u8>) -> Result<Outcome, Failure> {
    let (table, store) = (words.room("--table")?, words.room("--store")?);
    let bytes = match merging {
        Merging::RefusedProgram(refusal) => return Ok(explain::program(refusal, program)),
        Merging::Refused(question) => return Ok(explain::question("merge", question.number(), question.to_string(), question.mend())),
        Merging::Merged(bytes) => bytes,
    };
    output.truncate(bytes);
    let verdict = library::check_texts(program, &output, table, store)?;
    if let Some(path) = words.output("-o") {
        files::write(&path, &output)?;
    }
    let mut outcome = explain::verdict(verdict, (program, &output), table);
    outcome.words.push(format!("the merged proof has {bytes} bytes"));
    outcome.fields.push(("bytes", Json::count(bytes)));
    Ok(outcome)
}

/// A program, the atom at which it is split, and the words of the store for the halves.
struct Split {
    program: Vec<u8>,
    atom: usize,
    store: usize,
}

impl Split {
    /// Question 57 with what it does not say: whether it is the atom, and what the check says of a half that it does not accept.
    fn explained(&self, mut refusal: Outcome, proofs: [&[u8]; 2]) -> Result<Outcome, Failure> {
        let largest = library::read_program(&self.program, library::EVERY_TABLE)?.map_or(0, |program| program.atoms);
        if !(1..=largest).contains(&self.atom) {
            return Ok(refusal.for_reason(format!("{} is no atom of the program; its largest is {largest}", self.atom)));
        }
        for (half, proof) in proofs.into_iter().enumerate() {
            match self.check(half, proof)? {
                Ok(check) if check.status == Status::Good => {}
                Ok(check) => {
                    let named = ["first", "second"][half];
                    let service = format!("the check of the {named} half, the program with `{}` added,", self.constraint(half));
                    refusal = refusal.explained_by(named, &service, check);
                }
                Err(question) => {
                    let why = "which half it is cannot be told: with a constraint more the program has too many bytes or rules for a check of its own";
                    return Ok(refusal.for_reason(format!("{why} (question {})", question.number())));
                }
            }
        }
        if self.accepts(0, proofs[1])? && self.accepts(1, proofs[0])? {
            refusal = refusal.for_reason(String::from("the other way round both are accepted: FIRST is the half that demands the atom"));
        }
        Ok(refusal)
    }

    fn accepts(&self, half: usize, proof: &[u8]) -> Result<bool, Failure> {
        Ok(self.check(half, proof)?.is_ok_and(|check| check.status == Status::Good))
    }

    fn check(&self, half: usize, proof: &[u8]) -> Result<Result<Outcome, ProgramQuestion>, Failure> {
        constrained::check(&self.program, &[self.constraint(half)], proof, self.store)
    }

    /// The constraint of half 0, which demands the atom, or of half 1, which forbids it.
    fn constraint(&self, half: usize) -> String {
        format!("1 0 0 0 1 {}{}", ["-", ""][half], self.atom)
    }
}
