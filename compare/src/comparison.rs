//! Holds the library and the program `verdict` against the reference: every answer and every lent word.

use std::collections::HashSet;

use inputs::random::Random;
use inputs::{Pair, ROOM};

use crate::binary::Binary;
use crate::brute;
use crate::reference::check::{check, verdict_line, Counts, Verdict};
use crate::reference::program::{read, table_words, InputRule};
use crate::reference::{filled, lines, models, LINE_LIMIT, TEXT_LIMIT};
use crate::shrink::{cut, shrunk};
use crate::tally::Tally;

/// One in so many texts goes to the check for proofs of any length too, which has to say the same of them.
const LONG_TOO: usize = 16;

/// How many failures are told in full.
const TOLD: u64 = 20;

pub struct Comparison {
    pub passed: u64,
    pub failed: u64,
    pub tally: Tally,
    pub random: Random,
    pub binary: Option<Binary>,
    place: String,
    refuted: HashSet<Vec<InputRule>>,
}

impl Comparison {
    pub fn of(binary: Option<Binary>) -> Comparison {
        let random = Random::of(0, "patterns", 0);
        Comparison { passed: 0, failed: 0, tally: Tally::default(), random, binary, place: String::new(), refuted: HashSet::new() }
    }

    /// Names the input that the next comparisons belong to, and takes up its random numbers.
    pub fn open(&mut self, place: String, random: Random) {
        self.place = place;
        self.random = random;
    }

    /// Counts a comparison; where it failed, tells about it.
    pub fn settle(&mut self, good: bool, account: impl FnOnce() -> String) {
        if good {
            self.passed += 1;
            return;
        }
        self.failed += 1;
        if self.failed <= TOLD {
            println!("FAILED (--only {}): {}", self.place, account());
        }
    }

    /// Words that a lent buffer holds before the call.
    pub fn pattern(&mut self, length: usize) -> Vec<i32> {
        let word = *self.random.pick(&[0x5A5A_5A5A, -1, 1, 0, i32::MIN, 2]);
        let mut words = vec![word; length];
        if self.random.percent(30) {
            words.iter_mut().enumerate().for_each(|(place, word)| *word = place as i32 % 7 - 3);
        }
        words
    }

    /// The whole check with a table and a store of so many words.
    pub fn check_texts(&mut self, pair: &Pair, table_room: usize, store_room: usize) -> Verdict {
        let expected = check(&pair.program, &pair.proof, table_room, store_room);
        let (mut table, mut store) = (self.pattern(table_room), self.pattern(store_room));
        let answered = aspdrupe::check_texts(&pair.program, &pair.proof, &mut table, &mut store);
        let good = says(&answered, &expected.verdict) && table == expected.table && store == expected.store;
        self.settle(good, || told_check(pair, table_room, store_room));
        if pair.proof.len() <= TEXT_LIMIT && (pair.proof.len() + store_room).is_multiple_of(LONG_TOO) {
            self.same_of_long(pair, &expected);
        }
        self.tally.verdict("check_texts", &expected.verdict);
        self.tally.store(expected.dead_left, expected.closed_up);
        if matches!(answered, Ok(aspdrupe::Verdict::Inconsistent(_))) {
            self.count_letters(&pair.proof);
            self.no_answer_set(&pair.program, table_room);
        }
        expected.verdict
    }

    /// Counts which letters the proof of an 'inconsistent' has.
    pub fn count_letters(&mut self, proof: &[u8]) {
        let letters: HashSet<u8> = proof.split(|byte| *byte == b'\n').filter_map(|line| line.first().copied()).collect();
        for letter in letters {
            self.tally.count(format!("inconsistent by a proof with {}", letter as char));
        }
    }

    /// An 'inconsistent' on a small program, tried against every set of its atoms and with further constraints.
    fn no_answer_set(&mut self, text: &[u8], room: usize) {
        let Ok(program) = read(text, room) else {
            self.settle(false, || format!("inconsistent, but the program is refused: {}", cut(text)));
            return;
        };
        if !brute::is_small(&program) || !self.refuted.insert(program.rules.clone()) {
            return;
        }
        let found = brute::answer_set(&program, program.atoms);
        self.settle(found.is_none(), || format!("inconsistent, but {found:?} is an answer set of {}", cut(text)));
        let kind = if program.rules.iter().any(InputRule::has_weights) { "program with weights" } else { "program" };
        self.tally.count(format!("no answer set: {kind}"));
        for _ in 0..3 {
            let wider = brute::with_further_constraints(&program, &mut self.random);
            let found = brute::answer_set(&wider, program.atoms);
            self.settle(found.is_none(), || format!("inconsistent, but {found:?} is an answer set of {:?}", wider.rules));
            self.tally.count(String::from("no answer set: program with further constraints"));
        }
    }

    /// The line that the program `verdict` prints, where the program is at hand.
    pub fn verdict(&mut self, program: Option<&[u8]>, proof: Option<&[u8]>) {
        let Some(binary) = &self.binary else { return };
        let printed = binary.printed(program, proof);
        let expected = check(program.unwrap_or(b""), proof.unwrap_or(b""), ROOM, ROOM).verdict;
        let line = verdict_line(&expected) + "\n";
        self.tally.verdict("verdict", &expected);
        self.settle(printed == line, || {
            format!(
                "verdict printed {printed:?}, not {line:?}: program {} proof {}",
                cut(program.unwrap_or(b"")),
                cut(proof.unwrap_or(b""))
            )
        });
    }

    /// The program reader with a table of so many words.
    pub fn read_program(&mut self, text: &[u8], room: usize) {
        let (expected, words) = match read(text, room) {
            Ok(program) => {
                self.tally.count(String::from("read_program: read"));
                (Ok((program.atoms as usize, program.rules.len())), filled(table_words(&program.rules), room))
            }
            Err((number, line)) => {
                self.tally.count(format!("read_program: refused {number:02}"));
                (Err((number, line)), vec![0; room])
            }
        };
        let mut table = self.pattern(room);
        let answered = aspdrupe::read_program(text, &mut table);
        self.settle(answered.as_ref().map(reading_as_numbers) == Ok(expected) && table == words, || {
            format!("read_program, table {room}: {answered:?}, not {expected:?}{}: {}", difference(&table, &words), cut(text))
        });
    }

    /// The proof-line reader at a position; answers the position after the line.
    pub fn read_line(&mut self, text: &[u8], position: usize) -> Option<usize> {
        let expected = lines::read_line(text, position);
        self.tally.count(format!("read_line: {}", line_kind(&expected)));
        let answered = aspdrupe::read_line(text, position);
        let good = matches!(&answered, Ok((answer, numbers)) if line_answer_fits(answer, numbers, &expected));
        self.settle(good, || format!("read_line at {position}: {answered:?}, not {expected:?}: {}", cut(text)));
        match expected {
            lines::Answer::Line(line) => Some(line.next),
            _ => None,
        }
    }

    /// The set test with so many marks.
    pub fn test_set(&mut self, table: &[i32], rules: usize, set: &[u16], marks_room: usize) {
        let (expected, expected_marks) = models::test_set(table, rules, set, marks_room);
        let mut marks = vec![self.random.below(256) as u8; marks_room];
        let answered = aspdrupe::test_set(table, rules, set, &mut marks);
        let good = marks == expected_marks && answered.as_ref().map(set_answer_in_reference_form) == Ok(expected);
        self.tally.count(format!("test_set: {}", set_kind(&expected, set)));
        self.settle(good, || {
            let told = if marks == expected_marks { "" } else { ", and the marks differ" };
            let used = table.iter().rposition(|word| *word != 0).map_or(0, |last| last + 1);
            format!(
                "test_set, {rules} rules, set {set:?}, {marks_room} marks: {answered:?}, not {expected:?}{told}: table of {} words {:?}",
                table.len(),
                &table[..used.min(400)]
            )
        });
    }
}

/// The account of a whole check that failed, for the smallest texts that still fail.
fn told_check(pair: &Pair, table_room: usize, store_room: usize) -> String {
    let small = shrunk(pair, |smaller| check_differs(smaller, table_room, store_room).is_some());
    let (answered, expected, where_) = check_differs(&small, table_room, store_room).unwrap_or_default();
    format!(
        "check_texts, table {table_room}, store {store_room}: {answered}, not {expected}{where_}: program {} proof {}",
        cut(&small.program),
        cut(&small.proof)
    )
}

/// What the library and the reference say of the texts, and where the words differ; none where all is the same.
fn check_differs(pair: &Pair, table_room: usize, store_room: usize) -> Option<(String, String, String)> {
    let expected = check(&pair.program, &pair.proof, table_room, store_room);
    let (mut table, mut store) = (vec![0x5A5A_5A5A; table_room], vec![0x5A5A_5A5A; store_room]);
    let answered = aspdrupe::check_texts(&pair.program, &pair.proof, &mut table, &mut store);
    if says(&answered, &expected.verdict) && table == expected.table && store == expected.store {
        return None;
    }
    let words = format!("; table{}; store{}", difference(&table, &expected.table), difference(&store, &expected.store));
    Some((format!("{answered:?}"), format!("{:?}", expected.verdict), words))
}

/// Where two rows of words or bytes differ first.
pub fn difference<T: PartialEq + std::fmt::Display>(found: &[T], expected: &[T]) -> String {
    match found.iter().zip(expected).position(|(one, other)| one != other) {
        Some(place) => format!(" (place {place} is {}, not {})", found[place], expected[place]),
        None => String::from(" (the same)"),
    }
}

/// Whether the library's verdict is the reference's, and is displayed as the line that `verdict` must print.
pub fn says(answered: &Result<aspdrupe::Verdict, aspdrupe::UnknownAnswer>, expected: &Verdict) -> bool {
    answered.is_ok_and(|verdict| in_reference_form(&verdict) == *expected && verdict.to_string() == verdict_line(expected))
}

/// The library's verdict as the reference would say it.
fn in_reference_form(verdict: &aspdrupe::Verdict) -> Verdict {
    let counted = |c: &aspdrupe::Counts| Counts { atoms: c.atoms, rules: c.rules, steps: c.steps, nogoods: c.nogoods };
    match verdict {
        aspdrupe::Verdict::Inconsistent(counts) => Verdict::Inconsistent(counted(counts)),
        aspdrupe::Verdict::Open(counts) => Verdict::Open(counted(counts)),
        aspdrupe::Verdict::RefusedProgram(refusal) => Verdict::RefusedProgram { number: refusal.question.number(), line: refusal.line },
        aspdrupe::Verdict::RefusedProof(refusal) => Verdict::RefusedProof { number: refusal.question.number(), step: refusal.step },
    }
}

/// The largest atom and the number of rules, or a refusal's number and line.
fn reading_as_numbers(reading: &aspdrupe::ProgramReading) -> Result<(usize, usize), (u8, usize)> {
    match *reading {
        aspdrupe::ProgramReading::Read { atoms, rules } => Ok((atoms, rules)),
        aspdrupe::ProgramReading::Refused(refusal) => Err((refusal.question.number(), refusal.line)),
    }
}

/// Whether the answer is the expected one, with the line's numbers and 0 after them; 0 throughout where there is no line.
fn line_answer_fits(answer: &aspdrupe::LineAnswer, numbers: &[i32], expected: &lines::Answer) -> bool {
    let (good, listed): (bool, &[i32]) = match (answer, expected) {
        (aspdrupe::LineAnswer::End, lines::Answer::End) => (true, &[]),
        (aspdrupe::LineAnswer::Refused(question), lines::Answer::Refused(number)) => (question.number() == *number, &[]),
        (aspdrupe::LineAnswer::Line { letter, count, next }, lines::Answer::Line(line)) => {
            ((letter.number(), *count, *next) == (line.letter, line.numbers.len(), line.next), &line.numbers)
        }
        _ => (false, &[]),
    };
    good && numbers == filled(listed.to_vec(), LINE_LIMIT)
}

/// The library's answer to the set test as the reference would say it.
fn set_answer_in_reference_form(answer: &aspdrupe::SetAnswer) -> models::Answer {
    match *answer {
        aspdrupe::SetAnswer::Yes => models::Answer::Yes,
        aspdrupe::SetAnswer::Differs(atom) => models::Answer::Differs(i32::from(atom)),
        aspdrupe::SetAnswer::Broken(rule) => models::Answer::Broken(rule),
        aspdrupe::SetAnswer::Refused(question) => models::Answer::Refused(question.number()),
    }
}

/// The answer's kind; of an atom shown, which of the two it lies in.
fn set_kind(answer: &models::Answer, set: &[u16]) -> String {
    match answer {
        models::Answer::Yes => String::from("yes"),
        models::Answer::Differs(atom) if set.iter().any(|listed| i32::from(*listed) == *atom) => String::from("differs, in the set only"),
        models::Answer::Differs(_) => String::from("differs, in the model only"),
        models::Answer::Broken(_) => String::from("broken"),
        models::Answer::Refused(number) => format!("refused {number}"),
    }
}

fn line_kind(answer: &lines::Answer) -> String {
    match answer {
        lines::Answer::End => String::from("end"),
        lines::Answer::Refused(number) => format!("refused {number}"),
        lines::Answer::Line(line) => String::from(line.letter as char),
    }
}

#[cfg(test)]
mod tests {
    use super::*;
    use aspdrupe::{LineAnswer, ProgramQuestion, ProgramRefusal, ProofQuestion, SetAnswer, SetQuestion};

    const COUNTS: Counts = Counts { atoms: 1, rules: 2, steps: 3, nogoods: 4 };

    #[test]
    fn verdicts_that_differ() {
        let refusal = ProgramRefusal { question: ProgramQuestion::Kinds, line: 7 };
        let answered = Ok(aspdrupe::Verdict::RefusedProgram(refusal));
        assert!(says(&answered, &Verdict::RefusedProgram { number: 5, line: 7 }));
        for other in [
            Verdict::RefusedProgram { number: 6, line: 7 },
            Verdict::RefusedProgram { number: 5, line: 8 },
            Verdict::RefusedProof { number: 5, step: 7 },
            Verdict::Open(COUNTS),
        ] {
            assert!(!says(&answered, &other), "{other:?}");
        }
        let counts = aspdrupe::Counts { atoms: 1, rules: 2, steps: 3, nogoods: 4 };
        assert!(says(&Ok(aspdrupe::Verdict::Open(counts)), &Verdict::Open(COUNTS)));
        assert!(!says(&Ok(aspdrupe::Verdict::Inconsistent(counts)), &Verdict::Open(COUNTS)));
        assert!(!says(&Ok(aspdrupe::Verdict::Open(counts)), &Verdict::Open(Counts { nogoods: 5, ..COUNTS })));
        assert!(!says(&Err(aspdrupe::UnknownAnswer { wanted: "code", number: 9 }), &Verdict::Open(COUNTS)));
    }

    #[test]
    fn lines_that_differ() {
        let expected = lines::read_line(b"b 3 -1 0\n", 0);
        let line = LineAnswer::Line { letter: aspdrupe::Letter::Body, count: 2, next: 9 };
        let mut numbers = [0; LINE_LIMIT];
        assert!(!line_answer_fits(&line, &numbers, &expected));
        numbers[..2].copy_from_slice(&[3, -1]);
        assert!(line_answer_fits(&line, &numbers, &expected));
        assert!(!line_answer_fits(&LineAnswer::End, &numbers, &expected));
        assert!(!line_answer_fits(&LineAnswer::Line { letter: aspdrupe::Letter::Body, count: 2, next: 8 }, &numbers, &expected));
        let refused = LineAnswer::Refused(ProofQuestion::Signs);
        assert!(line_answer_fits(&refused, &[0; LINE_LIMIT], &lines::Answer::Refused(24)));
        assert!(!line_answer_fits(&refused, &[0; LINE_LIMIT], &lines::Answer::Refused(25)));
        assert!(!line_answer_fits(&refused, &numbers, &lines::Answer::Refused(24)));
    }

    #[test]
    fn set_answers_that_differ() {
        let said = |answer| set_answer_in_reference_form(&answer);
        let expected = models::Answer::Differs(1);
        assert_eq!([0, 1, 2, 8_191].map(|atom| said(SetAnswer::Differs(atom)) == expected), [false, true, false, false]);
        assert!(said(SetAnswer::Yes) != expected && said(SetAnswer::Broken(1)) != expected);
        assert_eq!(said(SetAnswer::Yes), models::Answer::Yes);
        assert_eq!(said(SetAnswer::Broken(3)), models::Answer::Broken(3));
        assert_eq!(said(SetAnswer::Refused(SetQuestion::Set)), models::Answer::Refused(42));
    }

    #[test]
    fn kinds_of_set_answers() {
        let kind = |answer| set_kind(&answer, &[1, 3]);
        assert_eq!(kind(models::Answer::Differs(3)), "differs, in the set only");
        assert_eq!(kind(models::Answer::Differs(2)), "differs, in the model only");
        assert_eq!(kind(models::Answer::Broken(2)), "broken");
        assert_eq!(kind(models::Answer::Refused(43)), "refused 43");
    }

    #[test]
    fn failures_are_counted() {
        let mut comparison = Comparison::of(None);
        comparison.settle(true, || panic!("nothing is to be told"));
        comparison.settle(false, || String::from("meant to fail"));
        assert_eq!((comparison.passed, comparison.failed), (1, 1));
    }
}
