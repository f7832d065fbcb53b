//! `aspdrupe ground`: the ground program of a plan, cut down to what the checker takes.

use std::path::Path;

use crate::arguments::{Subcommand, Words};
use crate::json::Json;
use crate::names::Names;
use crate::outcome::{Failure, Outcome, Status};
use crate::statements::cut_down;
use crate::{explain, files, library, source};

pub const SUBCOMMAND: Subcommand = Subcommand {
    name: "ground",
    form: "PLAN.lp [-o OUT.aspif] [--assume LITERAL..]",
    about: "Grounds a plan with gringo and keeps what the checker takes; says of everything dropped why it cannot matter.",
    more: "Without -o the ground program goes to the standard output. With it the names of atoms are kept too, in the file OUT.aspif.names:
`prove`, `test` and `cheapest` then show atoms by name, as long as OUT.aspif is the program that they are of. A program that is ground already
is cut down in the same way.
Sums of more than 12 literals are split, those of more than 64 by code that is not proved.
Output, minimize, project and heuristic statements are dropped. External, assumption, edge and theory statements and
disjunctive heads are refused. --assume LITERAL.. adds a constraint for each: \"on(2,1,night)\" demands the atom, \"not on(2,1,night)\" forbids it.",
    options: &["-o"],
    lists: &["--assume"],
    flags: &[],
    inputs: &[0],
    operands: (1, 1),
    run,
};

fn run(words: &Words) -> Result<Outcome, Failure> {
    let ground = source::split(source::load_with(words.path(0)?, cut_down, &words.texts("--assume"))?)?;
    let program = match library::read_program(&ground.text, library::EVERY_TABLE)? {
        Ok(program) => program,
        Err(refusal) => {
            let mut outcome = explain::ground(refusal, &ground);
            outcome.words.insert(0, String::from("the ground program is none that the checker takes:"));
            return Ok(outcome);
        }
    };
    let mut outcome = Outcome {
        status: Status::Good,
        line: String::new(),
        words: ground.notes.clone(),
        fields: vec![
            ("atoms", Json::count(program.atoms)),
            ("rules", Json::count(program.rules)),
            ("names", Json::count(ground.names.count())),
        ],
    };
    let kept = match words.output("-o") {
        Some(path) => {
            outcome.line = format!("ground {} {}", program.atoms, program.rules);
            outcome.words.push(format!("largest atom {}, {} rules: {}", program.atoms, program.rules, path.display()));
            write(&path, &ground.text, &ground.names)?
        }
        None => {
            outcome.line = String::from_utf8_lossy(&ground.text).into_owned();
            outcome.fields.push(("program", Json::text(&outcome.line)));
            false
        }
    };
    outcome.words.extend(shown(ground.names.count(), kept));
    Ok(outcome)
}

/// What became of the output statements.
fn shown(count: usize, kept: bool) -> Option<String> {
    match (count, kept) {
        (0, _) => None,
        (_, true) => Some(format!("{count} output statements, which name atoms, are kept beside it")),
        (_, false) => {
            Some(format!("dropped, which cannot matter: {count} output statements; they say what is shown, and a file of -o keeps them"))
        }
    }
}

/// Writes the program, and its names beside it; a device or a pipe has nothing beside it. Whether the names are kept.
pub fn write(path: &Path, text: &[u8], names: &Names) -> Result<bool, Failure> {
    if path.extension().is_some_and(|ending| ending == "names") {
        return Err(Failure::misuse(format!("{} is a place for names: another ending, like `.aspif`", path.display())));
    }
    if path.exists() && !path.is_file() {
        return files::write(path, text).map(|()| false);
    }
    let (beside, statements) = names.file_beside(path, text)?;
    files::write_together(&[(&beside, &statements), (path, text)]).map(|()| true)
}
