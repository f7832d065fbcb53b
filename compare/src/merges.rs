//! The families of merges: the cases of document 02, and random splits with damaged ones. Each is tried with every buffer at its least length
//! and one less.

use inputs::Pair;

use crate::cases::halves;
use crate::cases::merges::{cases, PLENTY};
use crate::comparison::{difference, Comparison};
use crate::reference::check::{check, store_lengths, Verdict};
use crate::reference::merge::{demanding, merge, Answer, Merging, Rooms, Split};
use crate::reference::program::{read, table_words};
use crate::shrink::cut;

/// The bytes of a half from which on few lengths are tried.
const HEAVY: usize = 10_000;

impl Comparison {
    /// The merge of two halves; answers what the reference says. Where that is a text, its own check of it must say 'inconsistent'.
    pub fn merge_halves(&mut self, split: &Split, rooms: Rooms) -> Merging {
        let expected = merge(split, rooms);
        let (mut table, mut store) = (self.pattern(rooms.table), self.pattern(rooms.store));
        let mut output = vec![self.random.below(256) as u8; rooms.output];
        let Split { program, atom, first, second } = split;
        let answered = aspdrupe::merge_halves(program, *atom as usize, first, second, &mut table, &mut store, &mut output);
        let good = answered.as_ref().map(in_reference_form) == Ok(expected.answer);
        let good = good && table == expected.table && store == expected.store && output == expected.output;
        self.tally.count(format!("merge_halves: {}", kind(&expected.answer)));
        self.settle(good, || {
            let differences = (difference(&table, &expected.table), difference(&store, &expected.store));
            format!(
                "merge_halves, {rooms:?}: {answered:?}, not {:?}; table{}; store{}; output{}: {}",
                expected.answer,
                differences.0,
                differences.1,
                difference(&output, &expected.output),
                told(split)
            )
        });
        if let Answer::Merged(bytes) = expected.answer {
            self.accepted(split, rooms, &expected.output[..bytes]);
        }
        expected
    }

    /// "The merged proof is accepted whenever it fits": a test of the reference by its own check.
    fn accepted(&mut self, split: &Split, rooms: Rooms, text: &[u8]) {
        let verdict = check(&split.program, text, rooms.table, rooms.store).verdict;
        let good = matches!(verdict, Verdict::Inconsistent(_));
        self.settle(good, || format!("a merged text is not accepted, {verdict:?}: {} for {}", cut(text), told(split)));
    }
}

/// The split with long texts cut.
fn told(split: &Split) -> String {
    format!("program {} atom {} first {} second {}", cut(&split.program), split.atom, cut(&split.first), cut(&split.second))
}

/// The library's answer as the reference would say it.
pub fn in_reference_form(merging: &aspdrupe::Merging) -> Answer {
    match *merging {
        aspdrupe::Merging::Merged(bytes) => Answer::Merged(bytes),
        aspdrupe::Merging::RefusedProgram(refusal) => Answer::RefusedProgram { number: refusal.question.number(), line: refusal.line },
        aspdrupe::Merging::Refused(question) => Answer::Refused(question.number()),
    }
}

/// The answer without its length or line.
pub fn kind(answer: &Answer) -> String {
    match answer {
        Answer::Merged(_) => String::from("merged"),
        Answer::RefusedProgram { number, .. } => format!("refused program {number:02}"),
        Answer::Refused(number) => format!("refused {number}"),
    }
}

/// A case of document 02; other lengths are tried where it is not about lengths itself.
pub fn run_worked(comparison: &mut Comparison, index: u64) {
    let case = &cases()[index as usize];
    let found = comparison.merge_halves(&case.split, case.rooms);
    let text = case.text.as_ref().is_none_or(|text| found.output.starts_with(text));
    comparison.settle(found.answer == case.answer && text, || format!("{}: the reference says {:?}", case.name, found.answer));
    if case.rooms == PLENTY {
        compare_lengths(comparison, &case.split);
    }
}

/// The merge with plenty of everything and, where a text is written, with every buffer at its least length and one less; then the whole
/// check of that text.
fn compare_lengths(comparison: &mut Comparison, split: &Split) {
    let found = comparison.merge_halves(split, PLENTY);
    comparison.merge_halves(split, Rooms { table: 0, store: 0, output: 0 });
    let Answer::Merged(output) = found.answer else { return };
    for turn in &found.turns {
        comparison.tally.count(format!("merge_halves: {}", turn.told()));
    }
    let text = &found.output[..output];
    let (table, halves, store) = least(split, text);
    let least = Rooms { table, store, output };
    let enough = comparison.merge_halves(split, least).answer;
    comparison.settle(enough == found.answer, || format!("{enough:?} with {least:?} for {}", told(split)));
    for (rooms, kinds) in one_less(least) {
        let answer = comparison.merge_halves(split, rooms).answer;
        comparison.settle(kinds.contains(&kind(&answer).as_str()), || format!("{answer:?} with {rooms:?} for {}", told(split)));
    }
    if split.first.len() + split.second.len() < HEAVY {
        for rooms in further_lengths(least, halves) {
            comparison.merge_halves(split, rooms);
        }
    }
    comparison.check_texts(&Pair::of(&split.program, text), table, store);
}

/// The least table, the least store for the halves, and the least for the merged text too.
fn least(split: &Split, text: &[u8]) -> (usize, usize, usize) {
    let Ok(program) = read(&split.program, usize::MAX) else { return (0, 0, 0) };
    let atom = split.atom as i32;
    let of_half = |literal, text| store_lengths(&demanding(&program, literal), text).0;
    let halves = of_half(atom, &split.first).max(of_half(-atom, &split.second));
    (table_words(&program.rules).len(), halves, halves.max(store_lengths(&program, text).0))
}

/// Each buffer one short of its least length, with the kinds that the answer may be of.
fn one_less(least: Rooms) -> [(Rooms, &'static [&'static str]); 3] {
    [
        (Rooms { table: least.table - 1, ..least }, &["refused program 10"]),
        (Rooms { store: least.store - 1, ..least }, &["refused 57", "refused 59"]),
        (Rooms { output: least.output - 1, ..least }, &["refused 58"]),
    ]
}

/// The least store for the halves and one less, two buffers that are short, and buffers that are longer than they need to be.
fn further_lengths(least: Rooms, halves: usize) -> [Rooms; 6] {
    let Rooms { table, store, output } = least;
    [
        Rooms { store: halves, ..least },
        Rooms { store: halves - 1, ..least },
        Rooms { store: store - 1, output: output - 1, ..least },
        Rooms { store: halves - 1, output: output - 1, ..least },
        Rooms { table: table + 1, store: store + 1, output: output + 1 },
        Rooms { table: 70_000, store: 70_000, output: 70_000 },
    ]
}

/// A random split with all lengths, and damaged ones with plenty or with just enough for the good one.
pub fn run_random(comparison: &mut Comparison, _: u64) {
    let Some(split) = halves::split(&mut comparison.random) else { return };
    compare_lengths(comparison, &split);
    let Answer::Merged(output) = merge(&split, PLENTY).answer else { return };
    for _ in 0..8 {
        let other = halves::damaged(&split, &mut comparison.random);
        let store = comparison.random.below(600);
        let rooms = *comparison.random.pick(&[PLENTY, PLENTY, Rooms { output, ..PLENTY }, Rooms { store, ..PLENTY }]);
        comparison.merge_halves(&other, rooms);
    }
}

#[cfg(test)]
mod tests {
    use super::*;
    use aspdrupe::{MergeQuestion, ProgramQuestion, ProgramRefusal};

    #[test]
    fn answers_in_reference_form() {
        assert_eq!(in_reference_form(&aspdrupe::Merging::Merged(66)), Answer::Merged(66));
        let refusal = ProgramRefusal { question: ProgramQuestion::Weights, line: 3 };
        let expected = Answer::RefusedProgram { number: 54, line: 3 };
        assert_eq!(in_reference_form(&aspdrupe::Merging::RefusedProgram(refusal)), expected);
        assert_eq!(kind(&expected), "refused program 54");
        for (question, number) in [(MergeQuestion::Halves, 57), (MergeQuestion::Limits, 58), (MergeQuestion::Store, 59)] {
            assert_eq!(in_reference_form(&aspdrupe::Merging::Refused(question)), Answer::Refused(number));
        }
    }
}
