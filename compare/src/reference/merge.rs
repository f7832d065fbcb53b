//! Two halves into one, Change 9 of document 02, with its questions 57 to 59.

use std::collections::{BTreeMap, BTreeSet};

use super::check::run;
use super::lines::{lines_of, Line};
use super::program::{read, table_words, Body, InputRule, Program, Rule};
use super::steps::State;
use super::{filled, LARGEST, LINE_LIMIT, TEXT_LIMIT};

/// A program, the atom that it is split on, and a proof for each half: "for the program with a constraint added that demands the atom", and
/// "for the program with a constraint that forbids it".
#[derive(Clone, Debug, PartialEq, Eq)]
pub struct Split {
    pub program: Vec<u8>,
    pub atom: u64,
    pub first: Vec<u8>,
    pub second: Vec<u8>,
}

/// The words of table and store and the bytes of the output that are lent.
#[derive(Clone, Copy, Debug, PartialEq, Eq)]
pub struct Rooms {
    pub table: usize,
    pub store: usize,
    pub output: usize,
}

/// The bytes of the text written, the program's refusal, or a refusal's number.
#[derive(Clone, Copy, Debug, PartialEq, Eq)]
pub enum Answer {
    Merged(usize),
    RefusedProgram { number: u8, line: usize },
    Refused(u8),
}

/// What became of a line of a half, for the tally.
#[derive(Clone, Copy, Debug, PartialEq, Eq, PartialOrd, Ord)]
pub enum Turn {
    Deletion,
    OnlyAllowedByAdded,
    SharedBody,
    Renamed,
    ByExtension,
    Widened,
    BothWays,
    AsItStands,
}

impl Turn {
    pub const ALL: [Turn; 8] = [
        Turn::Deletion,
        Turn::OnlyAllowedByAdded,
        Turn::SharedBody,
        Turn::Renamed,
        Turn::ByExtension,
        Turn::Widened,
        Turn::BothWays,
        Turn::AsItStands,
    ];

    pub fn told(self) -> &'static str {
        match self {
            Turn::Deletion => "a deletion is left out",
            Turn::OnlyAllowedByAdded => "a `c` line that only the added constraint allowed is left out",
            Turn::SharedBody => "the second `b` line of a body is left out",
            Turn::Renamed => "a line has new names",
            Turn::ByExtension => "the added body is defined by `e`",
            Turn::Widened => "an `a` line is widened",
            Turn::BothWays => "an `a` line with the atom both ways is skipped",
            Turn::AsItStands => "a line stays as it is",
        }
    }
}

/// The answer with every word and byte lent, and what became of the lines.
#[derive(Clone, Debug, PartialEq, Eq)]
pub struct Merging {
    pub answer: Answer,
    pub table: Vec<i32>,
    pub store: Vec<i32>,
    pub output: Vec<u8>,
    pub turns: BTreeSet<Turn>,
}

/// The service. "Output and refusals are as in Change 1": 0 past what is written, and 0 throughout where it is refused.
pub fn merge(split: &Split, rooms: Rooms) -> Merging {
    match merged_within(split, rooms) {
        Ok(merging) => merging,
        Err(answer) => Merging {
            answer,
            table: vec![0; rooms.table],
            store: vec![0; rooms.store],
            output: vec![0; rooms.output],
            turns: BTreeSet::new(),
        },
    }
}

/// "judged in this order after the program's own questions"
fn merged_within(split: &Split, rooms: Rooms) -> Result<Merging, Answer> {
    let program = read(&split.program, rooms.table).map_err(|(number, line)| Answer::RefusedProgram { number, line })?;
    let (first, second) = halves(&program, split, rooms.store).ok_or(Answer::Refused(57))?;
    let (merged, turns) = joined(&program, split.atom as i32, &first, &second, rooms).map_err(Answer::Refused)?;
    Ok(Merging {
        answer: Answer::Merged(merged.text.len()),
        table: filled(table_words(&program.rules), rooms.table),
        store: filled(merged.state.store_words(), rooms.store),
        output: filled(merged.text, rooms.output),
        turns,
    })
}

/// A proof that is accepted for some program: its text and lines, and the state that they lead to.
pub struct Accepted {
    pub text: Vec<u8>,
    lines: Vec<Line>,
    pub state: State,
}

/// None where the check with the lent store refuses the text or finds it open.
pub fn accepted(program: &Program, text: &[u8], store_room: usize) -> Option<Accepted> {
    let state = run(program, text, store_room).ok()?.state;
    let lines = lines_of(text)?;
    state.has_empty().then_some(Accepted { text: text.to_vec(), lines, state })
}

/// Both halves; none where one of them is refused or open "with the lent store", or the atom is foreign.
fn halves(program: &Program, split: &Split, store_room: usize) -> Option<(Accepted, Accepted)> {
    let atom = i32::try_from(split.atom).ok().filter(|atom| (1..=program.atoms).contains(atom))?;
    let first = accepted(&demanding(program, atom), &split.first, store_room)?;
    let second = accepted(&demanding(program, -atom), &split.second, store_room)?;
    Some((first, second))
}

/// The merge of two halves that are accepted, with what became of their lines; or 58 or 59, "live words past the store". "The merged proof is
/// accepted whenever it fits".
pub fn joined(program: &Program, atom: i32, first: &Accepted, second: &Accepted, rooms: Rooms) -> Result<(Accepted, BTreeSet<Turn>), u8> {
    let (first, second) = (Half { literal: atom, proof: first }, Half { literal: -atom, proof: second });
    let (lines, turns) = merged_lines(program, &first, &second);
    let text = text_within(&lines, rooms.output).ok_or(58)?;
    match run(program, &text, rooms.store) {
        Ok(ran) => Ok((Accepted { text, lines, state: ran.state }, turns)),
        Err((34, _)) => Err(59),
        Err(refusal) => panic!("a merged text is refused: {refusal:?}"),
    }
}

/// A half that is accepted, with its literal.
struct Half<'a> {
    literal: i32,
    proof: &'a Accepted,
}

/// The program with the constraint that demands the literal: its body is the complement. "Questions 1, 9 and 10 are not put to added
/// constraints".
pub fn demanding(program: &Program, literal: i32) -> Program {
    let mut rules = program.rules.clone();
    rules.push(InputRule { choice: false, heads: Vec::new(), body: Body::Plain(vec![-literal]) });
    Program::of(rules)
}

impl Half<'_> {
    /// The names that it introduces, in that order.
    fn introduced(&self) -> Vec<i32> {
        let introduces = |line: &&Line| line.letter == b'b' || line.letter == b'e';
        self.proof.lines.iter().filter(introduces).map(|line| line.numbers[0]).collect()
    }

    /// The name in the other half of the body that has this name here.
    fn shared(&self, name: i32, other: &Half) -> Option<i32> {
        self.proof.state.body_named(name).and_then(|body| other.proof.state.name_of(body))
    }
}

/// New names of variables; all others stay.
type Names = BTreeMap<i32, i32>;

/// "A body that both halves name keeps the first half's name [..]. Any other name of the second half that the first half introduces becomes,
/// in order of introduction, the lowest number above N that neither half uses and that was not given out yet."
fn new_names(program: &Program, first: &Half, second: &Half) -> Names {
    let used: BTreeSet<i32> = first.introduced().into_iter().chain(second.introduced()).collect();
    let mut names = Names::new();
    let mut given = BTreeSet::new();
    for name in second.introduced() {
        if let Some(shared) = second.shared(name, first) {
            names.insert(name, shared);
        } else if first.introduced().contains(&name) {
            let lowest = (program.atoms + 1..).find(|number| !used.contains(number) && !given.contains(number));
            names.extend(lowest.map(|number| (name, number)));
            given.extend(lowest);
        }
    }
    names
}

/// "The first half's lines come before the second's." "A closing `a 0` ends it."
fn merged_lines(program: &Program, first: &Half, second: &Half) -> (Vec<Line>, BTreeSet<Turn>) {
    let mut lines = Vec::new();
    let mut turns = BTreeSet::new();
    let names = new_names(program, first, second);
    for (half, before, names) in [(first, None, &Names::new()), (second, Some(first), &names)] {
        for line in &half.proof.lines {
            let (turn, numbers) = turned(program, half, before, line);
            turns.insert(turn);
            let Some(numbers) = numbers else { continue };
            let letter = if turn == Turn::ByExtension { b'e' } else { line.letter };
            let renamed: Vec<i32> = numbers.iter().map(|number| renamed(names, *number)).collect();
            if renamed != numbers {
                turns.insert(Turn::Renamed);
            }
            lines.push(Line { letter, numbers: renamed, next: 0 });
        }
    }
    lines.push(Line { letter: b'a', numbers: Vec::new(), next: 0 });
    (lines, turns)
}

fn renamed(names: &Names, literal: i32) -> i32 {
    names.get(&literal.abs()).map_or(literal, |name| name * literal.signum())
}

/// What becomes of a line, and its numbers under the old names where it stays. The half that stands before is given for the second.
fn turned(program: &Program, half: &Half, before: Option<&Half>, line: &Line) -> (Turn, Option<Vec<i32>>) {
    let (turn, stays) = match line.letter {
        b'd' => (Turn::Deletion, false),
        b'c' if !allows(program, half, &line.numbers) => (Turn::OnlyAllowedByAdded, false),
        b'b' if before.is_some_and(|other| half.shared(line.numbers[0], other).is_some()) => (Turn::SharedBody, false),
        b'b' if lacks(program, half, line.numbers[0]) => (Turn::ByExtension, true),
        b'a' if line.numbers.contains(&-half.literal) => (Turn::BothWays, false),
        b'a' if !line.numbers.contains(&half.literal) => (Turn::Widened, true),
        _ => (Turn::AsItStands, true),
    };
    let mut numbers = line.numbers.clone();
    if turn == Turn::Widened {
        numbers.push(half.literal);
    }
    (turn, stays.then_some(numbers))
}

/// Whether a rule of the program itself allows the `c` line: left out is "each `c` line that only the added constraint allowed".
fn allows(program: &Program, half: &Half, numbers: &[i32]) -> bool {
    let body = half.proof.state.body_named(numbers[0]);
    let fits = |rule: &Rule| !rule.choice && Some(rule.body.as_slice()) == body && rule.heads == numbers[1..];
    program.plain.iter().any(fits)
}

/// "A half's constraint body that the program lacks"
fn lacks(program: &Program, half: &Half, name: i32) -> bool {
    let body = half.proof.state.body_named(name);
    !program.plain.iter().any(|rule| Some(rule.body.as_slice()) == body)
}

/// The text of the lines; none for "a line or name over its limit or a text over 65,535 bytes or the lent output".
fn text_within(lines: &[Line], room: usize) -> Option<Vec<u8>> {
    let good = |line: &Line| line.numbers.len() <= LINE_LIMIT && line.numbers.iter().all(|number| number.abs() <= LARGEST);
    let text: Vec<u8> = lines.iter().flat_map(line_text).collect();
    (lines.iter().all(good) && text.len() <= TEXT_LIMIT.min(room)).then_some(text)
}

/// "A line is the letter, a space, up to 65 nonzero numbers, a closing `0`, newline."
fn line_text(line: &Line) -> Vec<u8> {
    let numbers: String = line.numbers.iter().map(|number| format!("{number} ")).collect();
    format!("{} {numbers}0\n", char::from(line.letter)).into_bytes()
}

#[cfg(test)]
mod tests {
    use super::*;

    const PROGRAM: &[u8] = b"asp 1 0 0\n1 0 1 1 0 1 -1\n0\n";
    const FIRST: &[u8] = b"b 2 -1 0\nc 2 0\nc 2 1 0\ns 1 2 0\na 0\n";
    const SECOND: &[u8] = b"b 2 -1 0\nb 3 1 0\nc 3 0\nc 2 1 0\ns 1 2 0\na 0\n";
    const MERGED: &[u8] = b"b 2 -1 0\nc 2 1 0\ns 1 2 0\na 1 0\ne 3 1 0\nc 2 1 0\ns 1 2 0\na -1 0\na 0\n";

    fn starred() -> Split {
        Split { program: PROGRAM.to_vec(), atom: 1, first: FIRST.to_vec(), second: SECOND.to_vec() }
    }

    #[test]
    fn starred_example_1() {
        let merging = merge(&starred(), Rooms { table: 6, store: 40, output: 70 });
        assert_eq!((merging.answer, &merging.output[..66]), (Answer::Merged(66), MERGED));
        assert_eq!((&merging.output[66..], merging.table), (&[0; 4][..], vec![0, 1, 0, 1, 1, -1]));
        let first = [1, 2, -1, -2, 1, 2, 1, 2, 2, 2, -1, 2, 3, 2, 1, -2, 4, 1, 1];
        let second = [5, 2, 1, -3, 5, 2, -1, 3, 6, 2, -1, 2, 7, 2, 1, -2, 8, 1, -1];
        assert_eq!(merging.store, [&first[..], &second, &[9, 0]].concat());
    }

    #[test]
    fn refusals_leave_zeros() {
        let good = Rooms { table: 6, store: 40, output: 66 };
        for (rooms, answer) in [
            (Rooms { table: 5, ..good }, Answer::RefusedProgram { number: 10, line: 2 }),
            (Rooms { store: 14, ..good }, Answer::Refused(57)),
            (Rooms { output: 65, ..good }, Answer::Refused(58)),
            (Rooms { store: 39, output: 65, ..good }, Answer::Refused(58)),
            (Rooms { store: 39, ..good }, Answer::Refused(59)),
        ] {
            let merging = merge(&starred(), rooms);
            assert_eq!(merging.answer, answer);
            assert_eq!((merging.table.len(), merging.store.len(), merging.output.len()), (rooms.table, rooms.store, rooms.output));
            assert!(merging.table.iter().chain(&merging.store).all(|word| *word == 0) && merging.output.iter().all(|byte| *byte == 0));
        }
    }

    #[test]
    fn foreign_atoms() {
        let rooms = Rooms { table: 6, store: 40, output: 66 };
        for atom in [0, 2, 8_191, 1 << 32 | 1, u64::MAX] {
            assert_eq!(merge(&Split { atom, ..starred() }, rooms).answer, Answer::Refused(57), "{atom}");
        }
    }
}
