//! The families of trimmed proofs: the cases of document 02, and random refutations with damaged ones. What is left is trimmed again, and
//! checked without each of its steps.

use inputs::{Pair, ROOM};

use crate::cases::changes;
use crate::cases::trims::{cases, refutation};
use crate::comparison::{difference, Comparison};
use crate::reference::check::{store_lengths, Verdict};
use crate::reference::program::{read, table_words};
use crate::reference::trim::{steps_of, trim, Answer, Trimming};
use crate::shrink::cut;

impl Comparison {
    /// The trimming of a proof; answers what the reference says.
    pub fn trim_proof(&mut self, pair: &Pair, table_room: usize, store_room: usize) -> Trimming {
        let expected = trim(&pair.program, &pair.proof, table_room, store_room);
        let (mut table, mut store, mut text) = (self.pattern(table_room), self.pattern(store_room), pair.proof.clone());
        let answered = aspdrupe::trim_proof(&pair.program, &mut text, &mut table, &mut store);
        let good = answered.as_ref().map(in_reference_form) == Ok(expected.answer);
        let good = good && text == expected.text && table == expected.table && store == expected.store;
        self.tally.count(format!("trim_proof: {}", kind(&expected.answer)));
        self.settle(good, || {
            let differences = (difference(&table, &expected.table), difference(&store, &expected.store));
            format!(
                "trim_proof, table {table_room}, store {store_room}: {answered:?}, not {:?}; text{}; table{}; store{}: {}",
                expected.answer,
                difference(&text, &expected.text),
                differences.0,
                differences.1,
                told(pair)
            )
        });
        expected
    }
}

/// The texts, long ones cut.
fn told(pair: &Pair) -> String {
    format!("program {} proof {}", cut(&pair.program), cut(&pair.proof))
}

/// The library's answer as the reference would say it.
fn in_reference_form(trimming: &aspdrupe::Trimming) -> Answer {
    match *trimming {
        aspdrupe::Trimming::Trimmed(bytes) => Answer::Trimmed(bytes),
        aspdrupe::Trimming::RefusedProgram(refusal) => Answer::RefusedProgram { number: refusal.question.number(), line: refusal.line },
        aspdrupe::Trimming::Refused(question) => Answer::Refused(question.number()),
    }
}

/// The answer without its length or line.
fn kind(answer: &Answer) -> String {
    match answer {
        Answer::Trimmed(_) => String::from("trimmed"),
        Answer::RefusedProgram { number, .. } => format!("refused program {number:02}"),
        Answer::Refused(number) => format!("refused {number}"),
    }
}

/// A case of document 02.
pub fn run_worked(comparison: &mut Comparison, index: u64) {
    let case = &cases()[index as usize];
    let found = compare_trimmed(comparison, &case.pair, case.table, case.store);
    let good = found.answer == case.answer && found.text == case.text;
    comparison.settle(good, || format!("{}: the reference says {:?}", case.name, found.answer));
}

/// The trimming, and where a text is left: the same trimming of that, which must leave it as it is, and the check of it without each of its
/// steps, which must not say 'inconsistent'.
fn compare_trimmed(comparison: &mut Comparison, pair: &Pair, table: usize, store: usize) -> Trimming {
    let found = comparison.trim_proof(pair, table, store);
    let Answer::Trimmed(bytes) = found.answer else { return found };
    count_passes(comparison, &found);
    let left = Pair::of(&pair.program, &found.text[..bytes]);
    let again = comparison.trim_proof(&left, table, store);
    comparison.settle(again.text == left.proof, || format!("the trimmed text does not stay: {}", told(&left)));
    let steps = steps_of(&left.proof);
    for place in 0..steps.len() {
        let without = Pair::of(&pair.program, [&steps[..place], &steps[place + 1..]].concat().concat());
        let verdict = comparison.check_texts(&without, table, store);
        let needed = !matches!(verdict, Verdict::Inconsistent(_));
        comparison.settle(needed, || format!("step {} of a trimmed text could go: {}", place + 1, told(&left)));
    }
    found
}

/// How many passes there were, and whether a deletion is left.
fn count_passes(comparison: &mut Comparison, found: &Trimming) {
    comparison.tally.count(format!("trim_proof: {}", passes(found.passes)));
    if steps_of(&found.text).iter().any(|step| step.starts_with(b"d")) {
        comparison.tally.count(format!("trim_proof: {DELETION_LEFT}"));
    }
}

fn passes(count: usize) -> &'static str {
    match count {
        0 | 1 => "one pass",
        2 => "two passes",
        _ => "three passes or more",
    }
}

const DELETION_LEFT: &str = "a deletion is left";

/// What a run has to see of trimming, beside the refusals of programs.
pub const WANTED: [&str; 6] = ["trimmed", "refused 60", "one pass", "two passes", "three passes or more", DELETION_LEFT];

/// A random refutation with the least store, one word more and plenty of it, each buffer one word short; then damaged ones.
pub fn run_random(comparison: &mut Comparison, _: u64) {
    let Some(pair) = refutation(&mut comparison.random) else { return };
    let Ok(program) = read(&pair.program, usize::MAX) else { return };
    let table = table_words(&program.rules).len();
    let least = store_lengths(&program, &pair.proof).0;
    for store in [least, least + 1, ROOM] {
        let answer = compare_trimmed(comparison, &pair, table, store).answer;
        comparison.settle(kind(&answer) == "trimmed", || format!("{answer:?} with store {store} for {}", told(&pair)));
    }
    for (table, store, expected) in [(table, least - 1, "refused 60"), (table - 1, least, "refused program 10")] {
        let answer = comparison.trim_proof(&pair, table, store).answer;
        comparison.settle(kind(&answer) == expected, || format!("{answer:?} with table {table}, store {store} for {}", told(&pair)));
    }
    for _ in 0..3 {
        let proof = changes::changed(&pair.proof, &mut comparison.random);
        let store = *comparison.random.pick(&[least, least + 1, ROOM]);
        comparison.trim_proof(&Pair::of(&pair.program, proof), table, store);
    }
}

#[cfg(test)]
mod tests {
    use super::*;
    use aspdrupe::{ProgramQuestion, ProgramRefusal, TrimQuestion};

    #[test]
    fn answers_in_reference_form() {
        assert_eq!(in_reference_form(&aspdrupe::Trimming::Trimmed(35)), Answer::Trimmed(35));
        assert_eq!(in_reference_form(&aspdrupe::Trimming::Refused(TrimQuestion::Accepted)), Answer::Refused(60));
        let refusal = ProgramRefusal { question: ProgramQuestion::Weights, line: 3 };
        let expected = Answer::RefusedProgram { number: 54, line: 3 };
        assert_eq!(in_reference_form(&aspdrupe::Trimming::RefusedProgram(refusal)), expected);
        assert_eq!(kind(&expected), "refused program 54");
    }
}
