//! The families of cheapest answer sets: the cases of document 02; and random programs with random costs, of which all sets are tried. The set of
//! least cost is certified with a refutation that a search finds, dearer ones are not. At every bound where an answer set falls out the
//! restricted program has just those that cost less.

use std::collections::BTreeSet;

use inputs::ROOM;

use crate::cases::changes;
use crate::cases::costs::{cases, damaged, lent, with_costs};
use crate::cases::refutations::{refute, Author, Found};
use crate::comparison::{difference, Comparison};
use crate::reference::cheapest::{answer_sets, certify, restricted, Answer, Costs, Offer};
use crate::reference::check::store_lengths;
use crate::reference::models::Set;
use crate::reference::program::{table_words, Program};
use crate::reference::WEIGHT_LARGEST;
use crate::shrink::cut;

impl Comparison {
    /// The check of a cheapest answer set; answers what the reference says.
    pub fn check_cheapest(&mut self, offer: &Offer, table_room: usize, store_room: usize) -> Answer {
        self.ask_cheapest(offer, table_room, store_room).0
    }

    /// The total that the library returns, where it certifies.
    pub fn returned_total(&mut self, offer: &Offer, table_room: usize, store_room: usize) -> Option<i32> {
        match self.ask_cheapest(offer, table_room, store_room).1 {
            Some(Answer::Certified(total)) => Some(total),
            _ => None,
        }
    }

    /// What the reference answers, and what the library does: the same, to the last word of table and store.
    fn ask_cheapest(&mut self, offer: &Offer, table_room: usize, store_room: usize) -> (Answer, Option<Answer>) {
        let expected = certify(offer, table_room, store_room);
        let (mut table, mut store) = (self.pattern(table_room), self.pattern(store_room));
        let answered = aspdrupe::check_cheapest(&offer.program, &offer.set, &offer.costs, &offer.proof, &mut table, &mut store);
        let returned = answered.as_ref().ok().map(in_reference_form);
        let good = returned == Some(expected.answer) && table == expected.table && store == expected.store;
        self.tally.count(format!("check_cheapest: {}", kind(&expected.answer)));
        self.settle(good, || {
            let differences = (difference(&table, &expected.table), difference(&store, &expected.store));
            format!(
                "check_cheapest, table {table_room}, store {store_room}: {answered:?}, not {:?}; table{}; store{}: {}",
                expected.answer,
                differences.0,
                differences.1,
                told(offer)
            )
        });
        (expected.answer, returned)
    }
}

/// What is lent, long texts cut.
fn told(offer: &Offer) -> String {
    format!("program {} set {:?} costs {:?} proof {}", cut(&offer.program), offer.set, offer.costs, cut(&offer.proof))
}

/// The library's answer as the reference would say it.
fn in_reference_form(cheapest: &aspdrupe::Cheapest) -> Answer {
    match *cheapest {
        aspdrupe::Cheapest::Certified(cost) => Answer::Certified(cost as i32),
        aspdrupe::Cheapest::RefusedProgram(refusal) => Answer::RefusedProgram { number: refusal.question.number(), line: refusal.line },
        aspdrupe::Cheapest::Refused(question) => Answer::Refused(question.number()),
    }
}

/// The answer without its cost, but for 0, and without its line.
fn kind(answer: &Answer) -> String {
    match answer {
        Answer::Certified(0) => String::from("certified without a proof"),
        Answer::Certified(_) => String::from("certified"),
        Answer::RefusedProgram { number, .. } => format!("refused program {number:02}"),
        Answer::Refused(number) => format!("refused {number}"),
    }
}

/// A proof of a lower bound that is good for the bound itself, and one that is not.
const LOWER: [&str; 2] = ["a proof for a lower bound is good", "a proof for a lower bound is refused"];

/// What a run has to see of cheapest answer sets, beside the refusals of programs.
pub const WANTED: [&str; 7] = ["certified", "certified without a proof", "refused 42", "refused 62", "refused 63", LOWER[0], LOWER[1]];

/// A case of document 02.
pub fn run_worked(comparison: &mut Comparison, index: u64) {
    let case = &cases()[index as usize];
    let answer = comparison.check_cheapest(&case.offer, case.table, case.store);
    comparison.settle(answer == case.answer, || format!("{}: the reference says {answer:?}, not {:?}", case.name, case.answer));
}

/// The set as it is lent.
pub fn listed(set: &Set) -> Vec<u16> {
    set.iter().map(|atom| *atom as u16).collect()
}

/// A refutation of the program restricted to less than the bound, where the search finds one.
pub fn refutation(comparison: &mut Comparison, program: &Program, costs: &[(i32, i32)], bound: i32) -> Option<Vec<u8>> {
    let wider = restricted(program, costs, bound);
    let mut author = Author::of(&wider);
    let at_first = if wider.plain.len() > 100 { 0 } else { *comparison.random.pick(&[100, 100, 50, 0]) };
    let found = refute(&mut author, &mut comparison.random, at_first);
    (found == Found::Refutation).then(|| author.text())
}

/// A random program with random costs: a set of least cost, with its proof at all lengths that matter, and up to eight dearer answer sets.
pub fn run_random(comparison: &mut Comparison, _: u64) {
    let (text, program, costs) = with_costs(&mut comparison.random);
    let sets = answer_sets(&program, &costs);
    let offer = Offer { program: text, set: Vec::new(), costs: lent(&costs), proof: Vec::new() };
    compare_any_set(comparison, &offer, &program);
    compare_bounds(comparison, &offer, &program, &costs, &sets);
    let Some((cheapest, least)) = sets.iter().min_by_key(|(_, cost)| *cost) else { return };
    let offer = Offer { set: listed(cheapest), ..offer };
    let proof = if (1..=WEIGHT_LARGEST).contains(least) { refutation(comparison, &program, &costs, *least) } else { None };
    if let Some(proof) = proof {
        let offer = Offer { proof, ..offer };
        compare_certified(comparison, &offer, &program, &costs, *least);
        compare_dearer(comparison, &offer, &program, &costs, &sets);
        compare_lower(comparison, &offer, &program, &costs, *least);
        compare_damaged(comparison, &offer);
    } else {
        let answer = comparison.check_cheapest(&offer, ROOM, 50);
        let expected = if *least == 0 { Answer::Certified(0) } else { Answer::Refused(if *least > WEIGHT_LARGEST { 62 } else { 63 }) };
        comparison.settle(answer == expected, || format!("{answer:?}, not {expected:?}: {}", told(&offer)));
        compare_damaged(comparison, &offer);
    }
}

/// Any set, most often no answer set, without a proof.
fn compare_any_set(comparison: &mut Comparison, offer: &Offer, program: &Program) {
    let mut set: Vec<u16> = (1..=program.atoms as u16 + 1).filter(|_| comparison.random.percent(40)).collect();
    if comparison.random.percent(10) {
        comparison.random.shuffle(&mut set);
    }
    comparison.check_cheapest(&Offer { set, ..offer.clone() }, ROOM, 50);
}

/// "so that a cost of C or more breaks it": at the bounds where an answer set falls out, the restricted program has just those that cost less.
fn compare_bounds(comparison: &mut Comparison, offer: &Offer, program: &Program, costs: &Costs, sets: &[(Set, i32)]) {
    let next_to = sets.iter().flat_map(|(_, cost)| [*cost, cost + 1]).chain([1]);
    let bounds: BTreeSet<i32> = next_to.filter(|bound| (1..=WEIGHT_LARGEST).contains(bound)).collect();
    for bound in bounds {
        let left = answer_sets(&restricted(program, costs, bound), costs);
        let cheaper = sets.iter().filter(|(_, cost)| *cost < bound);
        comparison.settle(left.iter().eq(cheaper), || format!("restricted to less than {bound} it has {left:?}: {}", told(offer)));
    }
}

/// The least lengths, a word less of each and plenty; the pairs in another order.
fn compare_certified(comparison: &mut Comparison, offer: &Offer, program: &Program, costs: &Costs, least: i32) {
    let table = table_words(&program.rules).len();
    let store = store_lengths(&restricted(program, costs, least), &offer.proof).0;
    let mut other = costs.clone();
    comparison.random.shuffle(&mut other);
    let reordered = Offer { costs: lent(&other), ..offer.clone() };
    for (offer, table, store, expected) in [
        (offer, table, store, Answer::Certified(least)),
        (&reordered, table + 1, ROOM, Answer::Certified(least)),
        (offer, table, store - 1, Answer::Refused(63)),
    ] {
        let answer = comparison.check_cheapest(offer, table, store);
        comparison.settle(answer == expected, || format!("{answer:?}, not {expected:?}, store {store}: {}", told(offer)));
    }
    let answer = comparison.check_cheapest(offer, table - 1, store);
    comparison.settle(matches!(answer, Answer::RefusedProgram { number: 10, .. }), || format!("{answer:?}: {}", told(offer)));
    compare_written(comparison, offer, least);
}

/// The store is that of the whole check of a text which has the restriction, as it is lent, for its last rule.
fn compare_written(comparison: &mut Comparison, offer: &Offer, bound: i32) {
    let Some(rules) = offer.program.strip_suffix(b"0\n") else { return };
    let pairs: String = offer.costs.iter().map(|number| format!(" {number}")).collect();
    let wider = [rules, format!("1 0 0 1 {bound} {}{pairs}\n0\n", offer.costs.len() / 2).as_bytes()].concat();
    let (mut table, mut certified, mut checked) = (vec![0; ROOM], vec![0; ROOM], vec![0; ROOM]);
    let answer = aspdrupe::check_cheapest(&offer.program, &offer.set, &offer.costs, &offer.proof, &mut table, &mut certified);
    let verdict = aspdrupe::check_texts(&wider, &offer.proof, &mut table, &mut checked);
    let good = answer.is_ok() && matches!(verdict, Ok(aspdrupe::Verdict::Inconsistent(_))) && certified == checked;
    comparison
        .settle(good, || format!("{answer:?}, but {verdict:?} as written; store{}: {}", difference(&certified, &checked), told(offer)));
}

/// An answer set that costs more is refused with the proof for the least cost, which is one for a lower bound, and with what the search writes
/// for its own: a search never refutes the program restricted to less than that.
fn compare_dearer(comparison: &mut Comparison, offer: &Offer, program: &Program, costs: &Costs, sets: &[(Set, i32)]) {
    let least = sets.iter().map(|(_, cost)| *cost).min().unwrap_or(0);
    for (set, cost) in sets.iter().filter(|(_, cost)| *cost > least).take(8) {
        let dearer = Offer { set: listed(set), ..offer.clone() };
        let answer = comparison.check_cheapest(&dearer, ROOM, ROOM);
        let expected = Answer::Refused(if *cost > WEIGHT_LARGEST { 62 } else { 63 });
        comparison.settle(answer == expected, || format!("{answer:?}, not {expected:?}: {}", told(&dearer)));
        if *cost <= WEIGHT_LARGEST {
            let found = refutation(comparison, program, costs, *cost);
            comparison.settle(found.is_none(), || format!("refuted, though {least} is less: {}", told(&dearer)));
        }
    }
}

/// A proof for the program restricted to a lower bound, for the set of least cost: it is good or not, as its bodies are those of the bound.
fn compare_lower(comparison: &mut Comparison, offer: &Offer, program: &Program, costs: &Costs, least: i32) {
    let bound = comparison.random.between(1, least);
    let Some(proof) = refutation(comparison, program, costs, bound) else { return };
    let answer = comparison.check_cheapest(&Offer { proof, ..offer.clone() }, ROOM, ROOM);
    if bound < least {
        comparison.tally.count(format!("check_cheapest: {}", LOWER[usize::from(answer == Answer::Refused(63))]));
    }
}

/// Changes of the costs and of the proof.
fn compare_damaged(comparison: &mut Comparison, offer: &Offer) {
    for _ in 0..3 {
        let costs = damaged(&offer.costs, &mut comparison.random);
        comparison.check_cheapest(&Offer { costs, ..offer.clone() }, ROOM, ROOM);
        let proof = changes::changed(&offer.proof, &mut comparison.random);
        comparison.check_cheapest(&Offer { proof, ..offer.clone() }, ROOM, ROOM);
    }
}

#[cfg(test)]
mod tests {
    use super::*;
    use aspdrupe::{Cheapest, CheapestQuestion, ProgramQuestion, ProgramRefusal};

    #[test]
    fn answers_in_reference_form() {
        assert_eq!(in_reference_form(&Cheapest::Certified(35)), Answer::Certified(35));
        assert_eq!(in_reference_form(&Cheapest::Refused(CheapestQuestion::Costs)), Answer::Refused(62));
        let refusal = ProgramRefusal { question: ProgramQuestion::Weights, line: 3 };
        let expected = Answer::RefusedProgram { number: 54, line: 3 };
        assert_eq!(in_reference_form(&Cheapest::RefusedProgram(refusal)), expected);
        assert_eq!(
            (kind(&expected), kind(&Answer::Certified(0))),
            (String::from("refused program 54"), String::from("certified without a proof"))
        );
    }
}
