//! The families of long sums: cases, and random programs whose answer sets are found by trying every set of their
//! atoms. Those of the split program, cut down to the atoms of the program as written, must be the same.

use crate::brute::{answer_sets, Marks};
use crate::cases::sums::{cases, random_text, PLENTY};
use crate::comparison::{difference, Comparison};
use crate::reference::program::{read, rules_within, table_words, Body, InputRule};
use crate::reference::sums::{split_sums, Answer, Limit, Rooms, Splitting};
use crate::reference::{MARKS, PART_LIMIT, WEIGHTED_LIMIT};
use crate::shrink::cut;

impl Comparison {
    /// The splitting of a program's long sums; answers what the reference says.
    pub fn split_sums(&mut self, text: &[u8], group: usize, rooms: Rooms) -> Splitting {
        let expected = split_sums(text, group, rooms);
        let mut table = self.pattern(rooms.table);
        let mut output = vec![self.random.below(256) as u8; rooms.output];
        let answered = aspdrupe::split_sums(text, group, &mut table, &mut output);
        let good = answered.as_ref().map(in_reference_form) == Ok(expected.answer);
        self.tally.count(format!("split_sums: {}", kind(&expected.answer)));
        for limit in &expected.over {
            self.tally.count(format!("split_sums: {}", over(*limit)));
        }
        self.settle(good && table == expected.table && output == expected.output, || {
            format!(
                "split_sums, groups of {group}, {rooms:?}: {answered:?}, not {:?}; table{}; output{}: {}",
                expected.answer,
                difference(&table, &expected.table),
                difference(&output, &expected.output),
                cut(text)
            )
        });
        expected
    }
}

/// The library's answer as the reference would say it.
fn in_reference_form(splitting: &aspdrupe::Splitting) -> Answer {
    match *splitting {
        aspdrupe::Splitting::Split { bytes, atoms, rules, old_atoms } => Answer::Split { bytes, atoms, rules, old_atoms },
        aspdrupe::Splitting::RefusedProgram(refusal) => Answer::RefusedProgram { number: refusal.question.number(), line: refusal.line },
        aspdrupe::Splitting::Refused(question) => Answer::Refused(question.number()),
    }
}

/// The answer without its numbers or line.
fn kind(answer: &Answer) -> String {
    match answer {
        Answer::Split { .. } => String::from("split"),
        Answer::RefusedProgram { number, .. } => format!("refused program {number:02}"),
        Answer::Refused(number) => format!("refused {number}"),
    }
}

fn over(limit: Limit) -> &'static str {
    match limit {
        Limit::Rules => "too many rules",
        Limit::Atoms => "too large an atom",
        Limit::Text => "too long a text",
        Limit::Output => "too short an output",
    }
}

/// What a run has to see, beside the refusals of programs; 55 is never given.
pub const WANTED: [&str; 18] = [
    "split",
    "refused 65",
    "refused 66",
    "too many rules",
    "too large an atom",
    "too long a text",
    "too short an output",
    NO_ANSWER_SET,
    ANSWER_SETS,
    "a constraint",
    "a head",
    "a choice",
    "a head in its own sum",
    "a negated literal",
    "a weight of 0",
    "equal weights",
    "a bound of 0",
    "a bound that is not reached",
];

const NO_ANSWER_SET: &str = "no answer set";
const ANSWER_SETS: &str = "the same answer sets";

/// A case, and the lengths around those that it needs.
pub fn run_worked(comparison: &mut Comparison, index: u64) {
    let case = &cases()[index as usize];
    let found = comparison.split_sums(&case.text, case.group, case.rooms);
    comparison.settle(found.answer == case.answer, || format!("{}: the reference says {:?}", case.name, found.answer));
    if let (Some(written), Answer::Split { bytes, .. }) = (&case.written, found.answer) {
        comparison.settle(found.output[..bytes] == written[..], || format!("{}: the reference writes another text", case.name));
    }
    compare_lengths(comparison, &case.text, case.group, &found);
}

/// Every length near those that the words and the text need, and none.
fn compare_lengths(comparison: &mut Comparison, text: &[u8], group: usize, found: &Splitting) {
    let words = rules_within(text, usize::MAX, PART_LIMIT as usize).map_or(20, |rules| table_words(&rules).len());
    let bytes = if let Answer::Split { bytes, .. } = found.answer { bytes } else { 100 };
    for table in [0, words.saturating_sub(1), words, words + 1] {
        comparison.split_sums(text, group, Rooms { table, output: bytes });
    }
    for output in [0, bytes - 2, bytes - 1, bytes, bytes + 1, bytes + 2, bytes / 2] {
        comparison.split_sums(text, group, Rooms { table: words, output });
    }
}

/// A random program with a group size, now and then one that is none, and its answer sets.
pub fn run_random(comparison: &mut Comparison, _: u64) {
    let text = random_text(&mut comparison.random);
    let group = comparison.random.between(2, WEIGHTED_LIMIT as i32) as usize;
    let found = comparison.split_sums(&text, group, PLENTY);
    compare_lengths(comparison, &text, group, &found);
    let other = *comparison.random.pick(&[0, 1, 13, 14, 300]);
    comparison.split_sums(&text, other, PLENTY);
    if let Answer::Split { bytes, old_atoms, .. } = found.answer {
        compare_answer_sets(comparison, &text, &found.rules, old_atoms as i32);
        let read_back = read(&found.output[..bytes], usize::MAX).map(|program| program.rules);
        comparison.settle(read_back.as_ref() == Ok(&found.rules), || format!("what is written is not read so: {}", cut(&text)));
    }
}

/// The answer sets of both programs by the atoms of the program as written, and the set test of those of the split
/// program.
fn compare_answer_sets(comparison: &mut Comparison, text: &[u8], split: &[InputRule], old: i32) {
    let Ok(rules) = rules_within(text, usize::MAX, PART_LIMIT as usize) else { return };
    count_kinds(comparison, &rules);
    comparison.settle(only_old_negated(split, old), || format!("a new atom is negated or chosen: {}", cut(text)));
    let of_program = answer_sets(&rules, old);
    let of_split = answer_sets(split, old);
    let cut_down: Vec<&[bool]> = of_split.iter().map(|set| &set[..=old as usize]).collect();
    let same = cut_down.iter().eq(of_program.iter().map(|set| &set[..]).collect::<Vec<_>>().iter());
    comparison.tally.count(format!("split_sums: {}", if of_program.is_empty() { NO_ANSWER_SET } else { ANSWER_SETS }));
    comparison.settle(same, || format!("{} answer sets, but {} of the split program: {}", of_program.len(), of_split.len(), cut(text)));
    compare_set_test(comparison, split, &of_split);
}

/// The set test of two of the sets.
fn compare_set_test(comparison: &mut Comparison, split: &[InputRule], sets: &[Marks]) {
    let table = table_words(split);
    for set in sets.iter().take(2) {
        let listed: Vec<u16> = (1..set.len()).filter(|atom| set[*atom]).map(|atom| atom as u16).collect();
        comparison.test_set(&table, split.len(), &listed, MARKS);
    }
}

/// Whether the atoms above those of the program are neither negated nor chosen.
fn only_old_negated(split: &[InputRule], old: i32) -> bool {
    split.iter().all(|rule| {
        let chosen = rule.choice && rule.heads.iter().any(|head| *head > old);
        !chosen && rule.literals().iter().all(|literal| *literal >= -old)
    })
}

/// Which kinds of long sums the program has.
fn count_kinds(comparison: &mut Comparison, rules: &[InputRule]) {
    for rule in rules {
        let Body::Weights { bound, pairs } = &rule.body else { continue };
        if pairs.len() <= WEIGHTED_LIMIT {
            continue;
        }
        let sum: i32 = pairs.iter().map(|(_, weight)| weight).sum();
        let kinds = [
            (!rule.choice && rule.heads.is_empty(), "a constraint"),
            (!rule.choice && !rule.heads.is_empty(), "a head"),
            (rule.choice, "a choice"),
            (rule.heads.iter().any(|head| pairs.iter().any(|(literal, _)| literal == head)), "a head in its own sum"),
            (pairs.iter().any(|(literal, _)| *literal < 0), "a negated literal"),
            (pairs.iter().any(|(_, weight)| *weight == 0), "a weight of 0"),
            (pairs.iter().all(|(_, weight)| *weight == pairs[0].1), "equal weights"),
            (*bound == 0, "a bound of 0"),
            (*bound > sum, "a bound that is not reached"),
        ];
        for (_, what) in kinds.iter().filter(|(is_so, _)| *is_so) {
            comparison.tally.count(format!("split_sums: {what}"));
        }
    }
}

#[cfg(test)]
mod tests {
    use super::*;
    use aspdrupe::{ProgramQuestion, ProgramRefusal, SplitQuestion};

    #[test]
    fn answers_in_reference_form() {
        let split = aspdrupe::Splitting::Split { bytes: 1, atoms: 2, rules: 3, old_atoms: 4 };
        assert_eq!(in_reference_form(&split), Answer::Split { bytes: 1, atoms: 2, rules: 3, old_atoms: 4 });
        let refusal = ProgramRefusal { question: ProgramQuestion::Weights, line: 3 };
        let expected = Answer::RefusedProgram { number: 54, line: 3 };
        assert_eq!(in_reference_form(&aspdrupe::Splitting::RefusedProgram(refusal)), expected);
        for (question, number) in [(SplitQuestion::Group, 65), (SplitQuestion::Room, 66)] {
            assert_eq!(in_reference_form(&aspdrupe::Splitting::Refused(question)), Answer::Refused(number));
        }
    }
}
