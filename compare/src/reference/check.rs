//! The whole check over two texts: its verdict, the words it leaves in table and store, and the line that `verdict` prints.

use super::filled;
use super::lines::{line_from, Answer};
use super::program::{read, table_words, Program};
use super::steps::{step, State};
use super::{LONG_LIMIT, TEXT_LIMIT};

#[derive(Clone, Copy, Debug, PartialEq, Eq)]
pub struct Counts {
    pub atoms: usize,
    pub rules: usize,
    pub steps: usize,
    pub nogoods: usize,
}

#[derive(Clone, Copy, Debug, PartialEq, Eq)]
pub enum Verdict {
    Inconsistent(Counts),
    Open(Counts),
    RefusedProgram { number: u8, line: usize },
    RefusedProof { number: u8, step: usize },
}

/// The verdict with every word of the lent table and store; and what became of the dead, for the tally.
pub struct Ending {
    pub verdict: Verdict,
    pub table: Vec<i32>,
    pub store: Vec<i32>,
    pub dead_left: bool,
    pub closed_up: bool,
}

/// The whole check, lent a table and a store of so many words.
pub fn check(program_text: &[u8], proof_text: &[u8], table_room: usize, store_room: usize) -> Ending {
    check_within(program_text, proof_text, table_room, store_room, TEXT_LIMIT)
}

/// The check for proofs of any length: the same, "save that question 21 is put with 2,147,483,647 bytes".
pub fn check_long(program_text: &[u8], proof_text: &[u8], table_room: usize, store_room: usize) -> Ending {
    check_within(program_text, proof_text, table_room, store_room, LONG_LIMIT)
}

fn check_within(program_text: &[u8], proof_text: &[u8], table_room: usize, store_room: usize, limit: usize) -> Ending {
    match course(program_text, proof_text, table_room, store_room, limit) {
        Ok((program, Ran { state, closed_up })) => Ending {
            verdict: judged(&program, &state),
            table: filled(table_words(&program.rules), table_room),
            store: filled(state.store_words(), store_room),
            dead_left: !state.dead().is_empty(),
            closed_up,
        },
        Err(verdict) => Ending { verdict, table: vec![0; table_room], store: vec![0; store_room], dead_left: false, closed_up: false },
    }
}

/// The state after the last step, and whether dead nogoods were taken out on the way.
pub struct Ran {
    pub state: State,
    pub closed_up: bool,
}

fn course(program: &[u8], proof: &[u8], table_room: usize, store_room: usize, limit: usize) -> Result<(Program, Ran), Verdict> {
    let program = read(program, table_room).map_err(|(number, line)| Verdict::RefusedProgram { number, line })?;
    let ran = run_within(&program, proof, store_room, limit).map_err(|(number, step)| Verdict::RefusedProof { number, step })?;
    Ok((program, ran))
}

/// The steps of a proof within a text's limit.
pub fn run(program: &Program, text: &[u8], store_room: usize) -> Result<Ran, (u8, usize)> {
    run_within(program, text, store_room, TEXT_LIMIT)
}

/// All steps of the proof: the state after the last, or a refusal's number and step. The store is closed up for a step that "would not fit
/// otherwise", all of its nogoods taken together; since none of these is dead, it is the same to filter once they stand at the end.
fn run_within(program: &Program, text: &[u8], store_room: usize, limit: usize) -> Result<Ran, (u8, usize)> {
    if text.len() > limit {
        return Err((21, 0));
    }
    let mut state = State::start(program);
    let mut closed_up = false;
    let mut position = 0;
    loop {
        let place = state.steps + 1;
        match line_from(text, position) {
            Answer::End => return Ok(Ran { state, closed_up }),
            Answer::Refused(number) => return Err((number, place)),
            Answer::Line(line) => {
                step(program, &mut state, &line).map_err(|number| (number, place))?;
                if state.live_words() > store_room {
                    return Err((34, place));
                }
                if state.used_words() > store_room {
                    state.close_up();
                    closed_up = true;
                }
                position = line.next;
            }
        }
    }
}

/// The words of the shortest store that holds the live nogoods after every step, and of the shortest that is never closed up, up to the
/// first refusal other than 34.
pub fn store_lengths(program: &Program, text: &[u8]) -> (usize, usize) {
    let mut state = State::start(program);
    let mut position = 0;
    let mut least = 0;
    while let Answer::Line(line) = line_from(text, position) {
        if step(program, &mut state, &line).is_err() {
            break;
        }
        least = least.max(state.live_words());
        position = line.next;
    }
    (least, state.used_words())
}

fn judged(program: &Program, state: &State) -> Verdict {
    let counts = Counts { atoms: program.atoms as usize, rules: program.rules.len(), steps: state.steps, nogoods: state.live().len() };
    if state.has_empty() {
        Verdict::Inconsistent(counts)
    } else {
        Verdict::Open(counts)
    }
}

/// The line that `verdict` prints, without its newline.
pub fn verdict_line(verdict: &Verdict) -> String {
    let counted = |word: &str, c: &Counts| format!("{word} {} {} {} {}", c.atoms, c.rules, c.steps, c.nogoods);
    match verdict {
        Verdict::Inconsistent(counts) => counted("inconsistent", counts),
        Verdict::Open(counts) => counted("open", counts),
        Verdict::RefusedProgram { number, line } => format!("refused program {number} {line}"),
        Verdict::RefusedProof { number, step } => format!("refused proof {number} {step}"),
    }
}

#[cfg(test)]
mod tests {
    use super::*;

    const PROGRAM: &[u8] = b"asp 1 0 0\n1 0 1 1 0 1 -1\n0\n";
    const PROOF: &[u8] = b"b 2 -1 0\nc 2 1 0\ns 1 2 0\na 1 0\na 0\n";

    #[test]
    fn starred_example_1() {
        let ending = check(PROGRAM, PROOF, 6, 21);
        assert_eq!(verdict_line(&ending.verdict), "inconsistent 1 1 5 6");
        assert_eq!(ending.store, [1, 2, -1, -2, 1, 2, 1, 2, 2, 2, -1, 2, 3, 2, 1, -2, 4, 1, 1, 5, 0]);
        assert_eq!(ending.table, [0, 1, 0, 1, 1, -1]);
    }

    #[test]
    fn closed_up_late() {
        let fact = b"asp 1 0 0\n1 0 1 1 0 0\n0\n";
        let proof = b"b 2 0\nc 2 1 0\nd -2 0\nc 2 1 0\nc 2 1 0\n";
        let left = |room| check(fact, proof, 5, room);
        assert_eq!(left(15).store, [-1, 1, -2, 2, 2, -1, 2, 4, 2, -1, 2, 5, 2, -1, 2]);
        assert_eq!(left(14).store, [2, 2, -1, 2, 4, 2, -1, 2, 5, 2, -1, 2, 0, 0]);
        assert_eq!(left(11).verdict, Verdict::RefusedProof { number: 34, step: 5 });
        assert!(left(15).dead_left && !left(15).closed_up && !left(14).dead_left && left(14).closed_up);
        assert_eq!(store_lengths(&read(fact, 5).unwrap(), proof), (12, 15));
    }

    #[test]
    fn beyond_a_text() {
        let proof = [&b"d 0\n".repeat(16_384)[..], PROOF].concat();
        assert_eq!(check(PROGRAM, &proof, 6, 21).verdict, Verdict::RefusedProof { number: 21, step: 0 });
        let ending = check_long(PROGRAM, &proof, 6, 21);
        assert_eq!(verdict_line(&ending.verdict), "inconsistent 1 1 16389 6");
        assert_eq!(ending.store[..4], [16_385, 2, -1, -2]);
    }

    #[test]
    fn a_word_less() {
        let short = check(PROGRAM, PROOF, 6, 20);
        assert_eq!(short.verdict, Verdict::RefusedProof { number: 34, step: 5 });
        assert!(short.store.iter().chain(&short.table).all(|word| *word == 0));
        assert_eq!(check(PROGRAM, PROOF, 5, 21).verdict, Verdict::RefusedProgram { number: 10, line: 2 });
    }
}
