//! A program with constraints added, as a text, and the check of a proof for it. `merge`, `tree` and `cheapest` have the library put them in; this
//! says what their refusals do not.

use aspdrupe::{ProgramQuestion, Verdict};

use crate::explain;
use crate::library::{self, Checked};
use crate::outcome::{Failure, Outcome};

/// The text with the constraints' lines behind the rules. The program is one that was read, and so ends with the line `0`.
pub fn text(program: &[u8], constraints: &[String]) -> Vec<u8> {
    let rules = program.strip_suffix(b"0\n").unwrap_or(program);
    let lines: String = constraints.iter().map(|constraint| format!("{constraint}\n")).collect();
    [rules, lines.as_bytes(), b"0\n"].concat()
}

/// What the check of a proof for that text says, or the question that the text is refused by: 1 or 9, which are not put to constraints that the
/// library puts in.
pub fn check(program: &[u8], constraints: &[String], proof: &[u8], store: usize) -> Result<Result<Outcome, ProgramQuestion>, Failure> {
    let text = text(program, constraints);
    let verdict = library::check_texts(&text, proof, library::EVERY_TABLE, store)?;
    Ok(told(&Checked { verdict, long: None }, (&text, proof)))
}

/// The same, where a proof beyond a text's limit goes to the check for proofs of any length.
pub fn check_long(
    program: &[u8],
    constraints: &[String],
    proof: &[u8],
    store: Option<usize>,
) -> Result<Result<Outcome, ProgramQuestion>, Failure> {
    let text = text(program, constraints);
    Ok(told(&library::check(&text, proof, library::EVERY_TABLE, store)?, (&text, proof)))
}

fn told(checked: &Checked, texts: (&[u8], &[u8])) -> Result<Outcome, ProgramQuestion> {
    match checked.verdict {
        Verdict::RefusedProgram(refusal) => Err(refusal.question),
        _ => Ok(explain::checked(checked, texts, library::EVERY_TABLE)),
    }
}

#[cfg(test)]
mod tests {
    use super::*;
    use crate::outcome::Status;

    #[test]
    fn a_constraint_more() {
        let program = b"asp 1 0 0\n1 1 1 10 0 0\n0\n";
        let lines = |constraints: &[&str]| constraints.iter().map(|line| String::from(*line)).collect::<Vec<_>>();
        assert_eq!(text(program, &[]), program);
        assert_eq!(text(program, &lines(&["1 0 0 0 1 10", "1 0 0 0 0"])), b"asp 1 0 0\n1 1 1 10 0 0\n1 0 0 0 1 10\n1 0 0 0 0\n0\n");
        let status = |constraint: &str, proof: &[u8]| check(program, &lines(&[constraint]), proof, 100).unwrap().map(|told| told.status);
        assert_eq!(status("1 0 0 0 0", b"b 11 0\nc 11 0\na 0\n"), Ok(Status::Good));
        assert_eq!(status("1 0 0 0 1 10", b"b 11 10 0\n"), Ok(Status::No));
        assert_eq!(status("1 0 0 0 1 10", b"b 11 -10 0\n"), Ok(Status::Refused));
    }

    #[test]
    fn beyond_the_limits() {
        let rules = |count| format!("asp 1 0 0\n{}0\n", "1 1 1 1 0 0\n".repeat(count)).into_bytes();
        let refused =
            |count| check(&rules(count), &[String::from("1 0 0 0 1 1")], b"", 100).unwrap().err().map(|question| question.number());
        assert_eq!([1_023, 1_024].map(refused), [None, Some(9)]);
        let long = format!("asp 1 0 0\n{}0\n", format!("1 0 0 0 64{}\n", " 1000".repeat(64)).repeat(198)).into_bytes();
        assert_eq!(check(&long, &[String::from("1 0 0 0 1 1")], b"", 100).unwrap().err().map(|question| question.number()), Some(1));
    }
}
