//! What is asked: the literal, and the answer set that it is of.

use std::collections::HashSet;

use aspdrupe::SetAnswer;

use crate::arguments::Words;
use crate::certify::{timed, Answer, AnswerSet, Certifier};
use crate::library;
use crate::names::Names;
use crate::outcome::{Failure, Outcome, Status};
use crate::rules::holds;
use crate::set_test;
use crate::source::Source;
use crate::statements::{as_it_is, Ground};

/// The literal and the set as they are written. Where no literal stands apart, the last word of the set is it.
pub struct Asked {
    pub literal: String,
    pub set: Option<Vec<String>>,
}

pub fn asked(words: &Words) -> Result<Asked, Failure> {
    let mut set = words.given("--set").then(|| words.texts("--set"));
    let mut literal = words.texts_from(1);
    if literal.is_empty() {
        let list = set.as_mut().ok_or_else(|| Failure::misuse("which literal? An atom of the answer set, or `not` and one that is not"))?;
        literal.extend(list.pop());
        if list.last().is_some_and(|word| word == "not") {
            literal.splice(0..0, list.pop());
        }
    }
    let literal = literal.join(" ");
    if literal.trim().is_empty() {
        return Err(Failure::misuse("which literal? An atom of the answer set, or `not` and one that is not"));
    }
    Ok(Asked { literal, set })
}

/// A name as gringo writes it: without spaces outside quotation marks.
fn tight(name: &str) -> String {
    let mut quoted = false;
    let kept = |letter: &char| {
        quoted ^= *letter == '"';
        quoted || !letter.is_whitespace()
    };
    name.chars().filter(kept).collect()
}

/// The literal that a text is.
pub fn literal(text: &str, names: &Names, atoms: usize) -> Result<i32, Failure> {
    let (name, sign) = text.trim().strip_prefix("not ").map_or((text.trim(), 1), |name| (name.trim(), -1));
    let number = names.atom(name).or_else(|| names.atom(&tight(name)));
    let number = number.or_else(|| name.parse::<u16>().ok().map(i32::from));
    let known = number.filter(|number| *number > 0 && *number as usize <= atoms);
    let unknown = || {
        let why = "no rule of the ground program has it, so that it is in no answer set, or it is another word";
        Failure::misuse(format!("`{name}` is neither an atom's number nor a name that the program has: {why}"))
    };
    known.map(|number| sign * number).ok_or_else(unknown)
}

/// The answer set that is asked about, or what is told where there is none.
pub enum Found {
    Set(AnswerSet),
    Other(Answer),
    Told(Outcome),
}

/// Finds the answer set of a program that is given by words, or where none are the one that `prove` finds.
pub struct Finder<'a, 'b> {
    pub source: &'a Source<'a>,
    pub ground: &'a Ground,
    pub certifier: &'a mut Certifier<'b>,
}

impl Finder<'_, '_> {
    pub fn find(&mut self, given: Option<&[String]>) -> Result<Found, Failure> {
        match given {
            Some(words) => self.given(words),
            None if self.source.is_ground() => Ok(of_answer(self.certifier.answer(&self.ground.text)?)),
            None => self.of_plan(),
        }
    }

    /// The set that `prove` finds, carried over by name to the program with its facts.
    fn of_plan(&mut self) -> Result<Found, Failure> {
        let source = self.source;
        let plain = timed(&mut self.certifier.times.grounding, || source.load(as_it_is, &[]))?;
        let set = match self.certifier.answer(&plain.text)? {
            Answer::Set(set) => set,
            Answer::Refused(_) => return Ok(of_answer(self.certifier.answer(&self.ground.text)?)),
            other => return Ok(Found::Other(other)),
        };
        let is_fact = |name: &str| plain.names.facts().any(|fact| fact == name);
        let literal = |(name, atom): (&str, i32)| match plain.names.atom(name) {
            Some(number) if holds(number, &set.atoms) => Some(atom),
            Some(_) => Some(-atom),
            None => is_fact(name).then_some(atom),
        };
        let literals: Vec<i32> = self.ground.names.atoms().filter_map(literal).collect();
        match self.certifier.set_with(&self.ground.text, &literals)? {
            Ok(Some(set)) => Ok(Found::Set(set)),
            Ok(None) => Err(Failure::misuse("the answer set found is none of the program with its facts")),
            Err(why) => Ok(Found::Other(Answer::Undecided(why))),
        }
    }

    /// The set that words name: as it stands, or where atoms are hidden or have no name the one that shows just these.
    fn given(&mut self, words: &[String]) -> Result<Found, Failure> {
        let names = &self.ground.names;
        let mut literals = Vec::new();
        for word in words {
            let name = tight(word);
            let known = names.condition(word).or_else(|| names.condition(&name)).map(<[i32]>::to_vec);
            let number = || word.parse::<u16>().ok().map(|number| vec![i32::from(number)]);
            let unknown = || Failure::misuse(format!("`{word}` is neither an atom's number nor a name that the program has"));
            literals.extend(known.or_else(number).ok_or_else(unknown)?);
        }
        let mut atoms: Vec<u16> = literals.iter().filter_map(|literal| u16::try_from(*literal).ok()).collect();
        atoms.sort_unstable();
        atoms.dedup();
        let exact = AnswerSet { text: Vec::new(), whole: Vec::new(), atoms, told: 0 };
        if let Some(refusal) = self.certifier.refusal(&self.ground.text)? {
            return Ok(Found::Other(Answer::Refused(refusal)));
        }
        if let Some(set) = self.certifier.tested(&self.ground.text, &exact)? {
            return Ok(Found::Set(set));
        }
        if !names.is_empty() {
            let others = names.literals().map(|(_, literal)| literal).filter(|literal| !literals.contains(literal));
            let all: Vec<i32> = literals.iter().copied().chain(others.map(|literal| -literal)).collect();
            match self.certifier.set_with(&self.ground.text, &all)? {
                Ok(Some(set)) if shows_only(names, &set.atoms, words) => return Ok(Found::Set(set)),
                Ok(_) => {}
                Err(why) => return Ok(Found::Other(Answer::Undecided(why))),
            }
        }
        self.refused(&exact.atoms).map(Found::Told)
    }

    /// What is told of a set that is no answer set.
    fn refused(&mut self, atoms: &[u16]) -> Result<Outcome, Failure> {
        let ground =
            crate::source::split(Ground { text: self.ground.text.clone(), lines: self.ground.lines.clone(), ..Ground::default() })?;
        let Ok(program) = library::read_program(&ground.text, library::EVERY_TABLE)? else {
            return Err(Failure::misuse("the program is read once and then refused"));
        };
        let told = program.atoms.saturating_sub(ground.added);
        let set = library::extended(&program, atoms, told)?;
        debug_assert!(library::test_set(&program, &set)?.0 != SetAnswer::Yes);
        let ground = Ground { names: self.ground.names.clone(), of_plan: self.ground.of_plan, ..ground };
        let mut outcome = set_test::told(&set, &program, &ground)?;
        if !self.ground.names.is_empty() {
            outcome.words.insert(0, String::from("no answer set shows just these; of the atoms that are named alone the set test says:"));
        }
        outcome.line = format!("refused set: {}", outcome.line.trim_start_matches("refused set "));
        outcome.status = Status::Refused;
        Ok(outcome)
    }
}

/// Whether all that is shown of a set is named by words. Several terms can be shown under one literal.
fn shows_only(names: &Names, set: &[u16], words: &[String]) -> bool {
    let number = |word: &String| word.parse::<u16>().ok().map(|number| names.of(i32::from(number)));
    let listed: HashSet<String> = words.iter().flat_map(|word| [Some(tight(word)), number(word)]).flatten().collect();
    names.shown(set).iter().all(|name| listed.contains(&tight(name)))
}

fn of_answer(answer: Answer) -> Found {
    match answer {
        Answer::Set(set) => Found::Set(set),
        other => Found::Other(other),
    }
}

#[cfg(test)]
mod tests {
    use super::*;

    #[test]
    fn all_that_is_shown() {
        let mut names = Names::default();
        ["4 1 a 1 1", "4 1 f 1 -9", "4 4 g(1) 1 -9"].iter().for_each(|line| assert!(names.take(line.as_bytes())));
        let words = |line: &str| line.split(' ').map(String::from).collect::<Vec<_>>();
        assert!(["a f g(1)", "1 f g(1)", "f g(1) a h"].iter().all(|line| shows_only(&names, &[1], &words(line))));
        assert!(!["a f", "f g(1)", "a g(1)"].iter().any(|line| shows_only(&names, &[1], &words(line))));
    }

    #[test]
    fn literals_of_texts() {
        let mut names = Names::default();
        for line in ["4 6 p(1,2) 1 3", "4 8 q(\"a b\") 1 4", "4 1 7 1 5"] {
            assert!(names.take(line.as_bytes()));
        }
        let of = |text: &str| literal(text, &names, 9).map_err(|failure| failure.status);
        assert_eq!(of("p(1,2)"), Ok(3));
        assert_eq!((of("not p( 1, 2 )"), of("q(\"a b\")"), of("not 2"), of("7")), (Ok(-3), Ok(4), Ok(-2), Ok(5)));
        for unknown in ["p(1)", "10", "0", "-1", "not", "q(\"ab\")"] {
            assert_eq!(of(unknown), Err(Status::Misuse), "{unknown}");
        }
    }
}
