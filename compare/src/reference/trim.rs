//! Trimmed proofs, Change 10 of document 02, with its question 60: a whole check for each trial.

use super::check::{check, run, Verdict};
use super::filled;
use super::program::{read, Program};

/// The bytes of the trimmed text, the program's refusal, or a refusal's number.
#[derive(Clone, Copy, Debug, PartialEq, Eq)]
pub enum Answer {
    Trimmed(usize),
    RefusedProgram { number: u8, line: usize },
    Refused(u8),
}

/// The answer with every byte and word lent; and how many passes there were, for the tally.
#[derive(Clone, Debug, PartialEq, Eq)]
pub struct Trimming {
    pub answer: Answer,
    pub text: Vec<u8>,
    pub table: Vec<i32>,
    pub store: Vec<i32>,
    pub passes: usize,
}

/// The service, lent a table and a store of so many words. "An input that isn't accepted itself is handed back untouched with 60, asked right
/// after the program's own questions; a program refusal leaves the text untouched too."
pub fn trim(program_text: &[u8], proof_text: &[u8], table_room: usize, store_room: usize) -> Trimming {
    let untouched =
        |answer| Trimming { answer, text: proof_text.to_vec(), table: vec![0; table_room], store: vec![0; store_room], passes: 0 };
    let program = match read(program_text, table_room) {
        Ok(program) => program,
        Err((number, line)) => return untouched(Answer::RefusedProgram { number, line }),
    };
    if !is_accepted(&program, proof_text, store_room) {
        return untouched(Answer::Refused(60));
    }
    let (steps, passes) = needed(steps_of(proof_text), |steps| is_accepted(&program, &steps.concat(), store_room));
    let text = steps.concat();
    let ending = check(program_text, &text, table_room, store_room);
    debug_assert!(matches!(ending.verdict, Verdict::Inconsistent(_)));
    let answer = Answer::Trimmed(text.len());
    Trimming { answer, text: filled(text, proof_text.len()), table: ending.table, store: ending.store, passes }
}

/// "a proof with verdict "inconsistent" (called accepted from here on)", with the lent store.
pub fn is_accepted(program: &Program, text: &[u8], store_room: usize) -> bool {
    run(program, text, store_room).is_ok_and(|ran| ran.state.has_empty())
}

/// The lines of a text, each with its newline.
pub fn steps_of(text: &[u8]) -> Vec<&[u8]> {
    text.split_inclusive(|byte| *byte == b'\n').collect()
}

/// "Steps are tried for removal from the last to the first, and passes repeat until one removes none." What is left, and how many passes there
/// were.
fn needed<'a>(mut steps: Vec<&'a [u8]>, accepted: impl Fn(&[&'a [u8]]) -> bool) -> (Vec<&'a [u8]>, usize) {
    let mut passes = 0;
    loop {
        passes += 1;
        let before = steps.len();
        for place in (0..before).rev() {
            let mut without = steps.clone();
            without.remove(place);
            if accepted(&without) {
                steps = without;
            }
        }
        if steps.len() == before {
            return (steps, passes);
        }
    }
}

#[cfg(test)]
mod tests {
    use super::*;

    const PROGRAM: &[u8] = b"asp 1 0 0\n1 0 1 1 0 1 -1\n0\n";

    /// The pass does not start again with the last step after a removal: `a -2` is left, and not `a 1`.
    #[test]
    fn worked_case_by_its_bytes_and_words() {
        let proof = b"b 2 -1 0\nc 2 1 0\ns 1 2 0\na 1 0\nd 1 0\na -2 0\na 0\n";
        let left = b"b 2 -1 0\nc 2 1 0\ns 1 2 0\na -2 0\na 0\n";
        let trimming = trim(PROGRAM, proof, 7, 24);
        assert_eq!((trimming.answer, trimming.passes), (Answer::Trimmed(36), 2));
        assert_eq!(trimming.text, filled(left.to_vec(), 48));
        assert_eq!(trimming.table, [0, 1, 0, 1, 1, -1, 0]);
        assert_eq!(trimming.store, [1, 2, -1, -2, 1, 2, 1, 2, 2, 2, -1, 2, 3, 2, 1, -2, 4, 1, -2, 5, 0, 0, 0, 0]);
        let open = [&left[..], b"d 0\n"].concat();
        let untouched = Trimming { answer: Answer::Refused(60), text: open.clone(), table: vec![0; 6], store: vec![0; 99], passes: 0 };
        assert_eq!(trim(PROGRAM, &open, 6, 99), untouched);
    }

    /// Of a list that is accepted where it has a `c`, or an `a` before a `b`; each pass goes from the last to the first.
    #[test]
    fn passes_go_on_with_the_step_before() {
        let accepted = |steps: &[&[u8]]| {
            let text = steps.concat();
            let a = text.iter().position(|byte| *byte == b'a');
            text.contains(&b'c') || a.is_some_and(|place| text[place..].contains(&b'b'))
        };
        let left = |text: &str| {
            let steps: Vec<&[u8]> = text.as_bytes().chunks(1).collect();
            let (steps, passes) = needed(steps, accepted);
            (String::from_utf8(steps.concat()).unwrap(), passes)
        };
        assert_eq!(left("abc"), (String::from("ab"), 2));
        assert_eq!(left("cab"), (String::from("c"), 2));
        assert_eq!(left("ccab"), (String::from("c"), 2));
        assert_eq!(left("ab"), (String::from("ab"), 1));
        assert_eq!(left("aabb"), (String::from("ab"), 2));
    }
}
