//! Refusals in words: the line or step quoted, the question, and what to mend.

use aspdrupe::{Counts, ProgramRefusal, ProofRefusal, Verdict};

use crate::json::Json;
use crate::library::Checked;
use crate::outcome::{Outcome, Status};
use crate::statements::Ground;
use crate::{library, locate, quote, split};

/// A refusal as the subcommands show it. Where the line, the step or the column is not told, there is none.
struct Refusal<'a> {
    /// What is refused, what it is called in words, and how its lines are called.
    of: &'static str,
    called: &'static str,
    place: &'static str,
    number: u8,
    question: String,
    mend: String,
    at: usize,
    text: Option<&'a [u8]>,
    column: Option<usize>,
}

/// A refused program.
pub fn program(refusal: ProgramRefusal, text: &[u8]) -> Outcome {
    program_at(refusal, text, refusal.line, "program", String::from(refusal.question.mend()))
}

/// A refused ground program, with the line of the text that it came from.
pub fn ground(refusal: ProgramRefusal, ground: &Ground) -> Outcome {
    let mend = split::mend(&ground.text, refusal).unwrap_or(String::from(refusal.question.mend()));
    program_at(refusal, &ground.text, ground.line(refusal.line), ground.called(), mend)
}

/// A refused program whose refused line is told as another.
fn program_at(refusal: ProgramRefusal, text: &[u8], at: usize, called: &'static str, mend: String) -> Outcome {
    let line = nth_line(text, refusal.line);
    Refusal {
        of: "program",
        called,
        place: "line",
        number: refusal.question.number(),
        question: refusal.question.to_string(),
        mend,
        at,
        text: line.map(|(line, _)| line),
        column: line.and_then(|(line, ended)| locate::in_program(refusal.question, line, ended)),
    }
    .outcome(ProgramRefusal { line: at, ..refusal }.to_string())
}

/// A refused proof of the program.
pub fn proof(refusal: ProofRefusal, program: &[u8], text: &[u8], table: usize) -> Outcome {
    let line = nth_line(text, refusal.step);
    let atoms = library::read_program(program, table).ok().and_then(Result::ok).map_or(0, |read| read.atoms);
    let before = text.split(|byte| *byte == b'\n').take(refusal.step.saturating_sub(1));
    let names: Vec<i64> = before.filter_map(locate::introduced).collect();
    Refusal {
        of: "proof",
        called: "proof",
        place: "step",
        number: refusal.question.number(),
        question: refusal.question.to_string(),
        mend: String::from(refusal.question.mend()),
        at: refusal.step,
        text: line.map(|(line, _)| line),
        column: line.and_then(|(line, ended)| locate::in_proof(refusal.question, line, ended, atoms, &names)),
    }
    .outcome(refusal.to_string())
}

/// The verdict on two texts that were checked with a table of so many words.
pub fn verdict(verdict: Verdict, texts: (&[u8], &[u8]), table: usize) -> Outcome {
    let (status, word, counts) = match verdict {
        Verdict::Inconsistent(counts) => (Status::Good, "inconsistent", counts),
        Verdict::Open(counts) => (Status::No, "open", counts),
        Verdict::RefusedProgram(refusal) => return program(refusal, texts.0),
        Verdict::RefusedProof(refusal) => return proof(refusal, texts.0, texts.1, table),
    };
    let words = match verdict {
        Verdict::Inconsistent(_) => "the program has no answer set, nor has it one with any further constraints",
        _ => "every step is good, but the empty nogood does not stand at the end: nothing is shown of the program",
    };
    let fields = [vec![("verdict", Json::text(word))], count_fields(counts)].concat();
    Outcome { status, line: verdict.to_string(), words: vec![String::from(words)], fields }
}

/// The same of the check that the proof's length asks for. What only the long one takes is said.
pub fn checked(checked: &Checked, texts: (&[u8], &[u8]), table: usize) -> Outcome {
    let mut outcome = verdict(checked.verdict, texts, table);
    let Some(bytes) = checked.long else {
        return outcome;
    };
    outcome.fields.push(("service", Json::text("check_long")));
    if !matches!(checked.verdict, Verdict::RefusedProgram(_)) {
        outcome.words.push(format!(
            "the proof has {bytes} bytes and went to the check for proofs of any length: `verdict`, and a service of document 01, would refuse it with 21"
        ));
    }
    outcome
}

fn count_fields(counts: Counts) -> Vec<(&'static str, Json)> {
    let of = |name, count| (name, Json::count(count));
    vec![of("atoms", counts.atoms), of("rules", counts.rules), of("steps", counts.steps), of("nogoods", counts.nogoods)]
}

/// A question of a service that names no place, answered no.
pub fn question(of: &'static str, number: u8, question: String, mend: &'static str) -> Outcome {
    Refusal { of, called: of, place: "", number, question, mend: String::from(mend), at: 0, text: None, column: None }
        .outcome(format!("refused {of} {number}"))
}

impl Refusal<'_> {
    /// The option that lends more memory, where that is what is missing.
    fn option(&self) -> String {
        match self.number {
            10 => format!("; --table {} holds every program", library::EVERY_TABLE),
            34 | 59 => String::from("; --store N lends one"),
            _ => String::new(),
        }
    }

    fn outcome(&self, line: String) -> Outcome {
        let mut words = Vec::new();
        let mut fields = vec![("refused", Json::text(self.of)), ("number", Json::Number(i64::from(self.number)))];
        if self.at > 0 {
            let column = self.column.map_or(String::new(), |at| format!(", column {}", at + 1));
            words.push(format!("{} {} of the {}{column}:", self.place, self.at, self.called));
            words.extend(self.text.map_or(vec![String::from("    (the text ends before it)")], |text| quote::quote(text, self.column)));
            fields.push((self.place, Json::count(self.at)));
            fields.extend(self.column.map(|at| ("column", Json::count(at + 1))));
            fields.extend(self.text.map(|text| ("text", Json::text(&String::from_utf8_lossy(&text[..text.len().min(1_000)])))));
        }
        words.push(format!("question {}, answered no: {}", self.number, self.question));
        words.push(format!("to mend: {}{}", self.mend, self.option()));
        fields.extend([("question", Json::text(&self.question)), ("mend", Json::text(&self.mend))]);
        Outcome { status: Status::Refused, line, words, fields }
    }
}

/// Line n of a text, counted from 1, and whether a newline ends it.
pub fn nth_line(text: &[u8], n: usize) -> Option<(&[u8], bool)> {
    let mut lines = text.split_inclusive(|byte| *byte == b'\n');
    let line = lines.nth(n.checked_sub(1)?)?;
    Some(line.strip_suffix(b"\n").map_or((line, false), |whole| (whole, true)))
}

#[cfg(test)]
mod tests {
    use super::*;
    use aspdrupe::{ProgramQuestion, ProofQuestion};

    #[test]
    fn lines_of_texts() {
        assert_eq!(nth_line(b"a\nbc", 1), Some((&b"a"[..], true)));
        assert_eq!(nth_line(b"a\nbc", 2), Some((&b"bc"[..], false)));
        assert_eq!(nth_line(b"a\n", 2), None);
        assert_eq!(nth_line(b"a\n", 0), None);
    }

    #[test]
    fn a_refused_rule() {
        let refusal = ProgramRefusal { question: ProgramQuestion::Literals, line: 2 };
        let outcome = program(refusal, b"asp 1 0 0\n1 0 1 1 0 2 3 -3\n0\n");
        assert_eq!(outcome.line, "refused program 8 2");
        assert_eq!(outcome.words[..3], ["line 2 of the program, column 15:", "    1 0 1 1 0 2 3 -3", "                  ^"]);
        assert!(outcome.words[4].ends_with("drop the rule; in a sum add up the weights"), "{}", outcome.words[4]);
        assert_eq!(outcome.words.len(), 5);
        assert_eq!(outcome.status, Status::Refused);
    }

    #[test]
    fn a_refused_step() {
        let refusal = ProofRefusal { question: ProofQuestion::Known, step: 2 };
        let outcome = proof(refusal, b"asp 1 0 0\n1 0 1 1 0 1 -1\n0\n", b"b 2 -1 0\na 2 3 0\n", 100);
        assert_eq!(outcome.words[..3], ["step 2 of the proof, column 5:", "    a 2 3 0", "        ^"]);
        let missing = program(ProgramRefusal { question: ProgramQuestion::Numbers, line: 2 }, b"asp 1 0 0\n");
        assert_eq!(missing.words[1], "    (the text ends before it)");
        let whole = proof(ProofRefusal { question: ProofQuestion::Length, step: 0 }, b"", b"", 1);
        assert!(whole.words[0].starts_with("question 21, answered no: "));
    }
}
