//! `aspdrupe test`: whether a set of atoms is an answer set.

use aspdrupe::SetAnswer;

use crate::arguments::{Subcommand, Words};
use crate::json::Json;
use crate::library::{self, Program};
use crate::names::Names;
use crate::outcome::{Failure, Outcome, Status};
use crate::rules::{rules, Body, Rule};
use crate::statements::{as_it_is, Ground};
use crate::{explain, source};

pub const SUBCOMMAND: Subcommand = Subcommand {
    name: "test",
    form: "PROGRAM ATOM..",
    about: "Tests whether the atoms, and no others, are an answer set; if not, says which atom differs or which constraint is broken.",
    more: "PROGRAM is a ground program, as the checker takes it, or a plan. An ATOM is a number, or a name where the program has names;
without any it is the empty set. Facts are given by name all together, or by number. Prints
    yes
    no atom N        the lowest atom that lies in just one of the set and the least model of its reduct
    no rule N        the first broken constraint
and on the standard error on which side the atom lies, or the constraint with its line.",
    options: &[],
    lists: &[],
    flags: &[],
    inputs: &[0],
    operands: (1, usize::MAX),
    run,
};

fn run(words: &Words) -> Result<Outcome, Failure> {
    let ground = source::split(source::load(words.path(0)?, as_it_is)?)?;
    let program = match library::read_program(&ground.text, library::EVERY_TABLE)? {
        Ok(program) => program,
        Err(refusal) => return source::refused(refusal, &ground, words.path(0)?),
    };
    let set = named(&words.texts_from(1), &program, &ground)?;
    let mut outcome = told(&set.atoms, &program, &ground)?;
    outcome.words.extend(set.note());
    Ok(outcome)
}

/// A set that is given by words: its atoms, ascending, and those of them that are facts without a name.
pub struct Named {
    pub atoms: Vec<u16>,
    facts: Vec<u16>,
}

impl Named {
    /// What is said where facts are in the set that no word names.
    pub fn note(&self) -> Option<String> {
        let numbers = self.facts.iter().map(u16::to_string).collect::<Vec<_>>().join(" ");
        let note = format!("the set names the facts, so that the atoms of facts without a name are in it: {numbers}");
        (!self.facts.is_empty()).then_some(note)
    }
}

/// The set that the words name, with the atoms of split sums that belong to it.
pub fn named(words: &[String], program: &Program, ground: &Ground) -> Result<Named, Failure> {
    let names = &ground.names;
    let mut atoms = set_of(words, names)?;
    let facts = if names_facts(words, names)? { nameless_facts(program, names) } else { Vec::new() };
    atoms.extend(&facts);
    atoms.sort_unstable();
    atoms.dedup();
    if ground.added > 0 {
        atoms = library::extended(program, &atoms, program.atoms.saturating_sub(ground.added))?;
    }
    Ok(Named { atoms, facts })
}

/// What the set test says of a set.
pub fn told(set: &[u16], program: &Program, ground: &Ground) -> Result<Outcome, Failure> {
    let (answer, least_model) = library::test_set(program, set)?;
    Ok(match answer {
        SetAnswer::Yes => yes(set, &ground.names),
        SetAnswer::Differs(atom) => differs(atom, least_model.get(usize::from(atom)) == Some(&true), &ground.names),
        SetAnswer::Broken(rule) => broken(rule, program, ground),
        SetAnswer::Refused(question) => explain::question("set", question.number(), question.to_string(), question.mend()),
    })
}

/// The atoms that the words name; the name of a fact names none.
fn set_of(words: &[String], names: &Names) -> Result<Vec<u16>, Failure> {
    let atom = |word: &String| {
        names.number(word).ok_or_else(|| Failure::misuse(format!("`{word}` is neither an atom's number nor a name that the program has")))
    };
    words.iter().filter(|word| !is_fact(word, names)).map(atom).collect()
}

/// Whether a word is the name of a fact and of no atom.
fn is_fact(word: &str, names: &Names) -> bool {
    word.parse::<u16>().is_err() && names.atom(word).is_none() && names.facts().any(|fact| fact == word)
}

/// Whether the words name the facts. Which atom is which fact is not known, so that they name all or none.
fn names_facts(words: &[String], names: &Names) -> Result<bool, Failure> {
    let Some(fact) = words.iter().find(|word| is_fact(word, names)) else { return Ok(false) };
    match names.facts().find(|other| !words.iter().any(|word| word == other)) {
        None => Ok(true),
        Some(other) => Err(Failure::misuse(format!(
            "`{fact}` is a fact, and `{other}` is one too: which atoms they are is not known, so give all facts by name, or all by number"
        ))),
    }
}

/// The atoms without a name that rules without a body give.
fn nameless_facts(program: &Program, names: &Names) -> Vec<u16> {
    let fact = |rule: &Rule| match (&rule.heads[..], &rule.body) {
        ([atom], Body::Plain(literals)) if !rule.choice && literals.is_empty() && !names.has(*atom) => u16::try_from(*atom).ok(),
        _ => None,
    };
    rules(program).iter().filter_map(fact).collect()
}

fn yes(set: &[u16], names: &Names) -> Outcome {
    let shown = names.shown(set);
    let words = vec![format!("an answer set: {}", shown.join(" "))];
    let fields = vec![("answer", Json::text("yes")), ("shown", Json::texts(&shown))];
    Outcome { status: Status::Good, line: String::from("yes"), words, fields }
}

fn differs(atom: u16, in_least_model: bool, names: &Names) -> Outcome {
    let (side, why) = if in_least_model {
        ("least model", "the rules give it, and the set has it not")
    } else {
        ("set", "the set has it, and the rules do not give it")
    };
    let name = names.of(i32::from(atom));
    let fields = vec![
        ("answer", Json::text("no")),
        ("atom", Json::Number(i64::from(atom))),
        ("name", Json::text(&name)),
        ("side", Json::text(side)),
    ];
    let words = vec![format!("no answer set: atom {atom} ({name}) is in the {side} only: {why}")];
    Outcome { status: Status::No, line: format!("no atom {atom}"), words, fields }
}

fn broken(rule: usize, program: &Program, ground: &Ground) -> Outcome {
    let constraint = rules(program).get(rule.wrapping_sub(1)).map_or(String::new(), |rule| ground.names.rule(rule));
    let line = ground.line(rule + 1);
    let text = explain::nth_line(&ground.text, rule + 1).map_or(&b""[..], |(text, _)| text);
    let text = String::from_utf8_lossy(text).into_owned();
    let words = vec![
        format!("no answer set: a constraint is broken, line {line} of the {}:", ground.called()),
        format!("    {text}"),
        format!("    {constraint}"),
    ];
    let fields = vec![
        ("answer", Json::text("no")),
        ("rule", Json::count(rule)),
        ("line", Json::count(line)),
        ("text", Json::text(&text)),
        ("constraint", Json::text(&constraint)),
    ];
    Outcome { status: Status::No, line: format!("no rule {rule}"), words, fields }
}

#[cfg(test)]
mod tests {
    use super::*;

    #[test]
    fn sets_of_words() {
        let mut names = Names::default();
        names.take(b"4 1 a 1 7");
        names.take(b"4 1 f 0");
        let words = |line: &str| line.split(' ').map(String::from).collect::<Vec<_>>();
        assert_eq!(set_of(&words("9 a f 3"), &names), Ok(vec![9, 7, 3]));
        for wrong in ["b", "-3", "65536", "1.5", ""] {
            assert!(set_of(&words(wrong), &names).is_err(), "{wrong}");
        }
    }
}
