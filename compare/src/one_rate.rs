//! The families of one cost that moves, Change 13 of document 02: its worked cases; and one cost is changed at random, and the least totals of all
//! answer sets differ by no more than the change; so do the totals that the library returns, wherever a search finds the proof for each.

use inputs::ROOM;

use crate::cases::costs::{lent, one_rate, with_costs};
use crate::comparison::Comparison;
use crate::costs::{listed, refutation};
use crate::reference::cheapest::{answer_sets, costs_of, Answer, Costs, Offer};
use crate::reference::program::{read, Program};
use crate::reference::WEIGHT_LARGEST;

const BOTH: &str = "both totals are certified";
const REACHED: &str = "the change is reached";

/// What a run has to see of one cost that moves.
pub const WANTED: [&str; 2] = [BOTH, REACHED];

/// A pair of worked cases: each is certified with its total, which is the least, and the totals differ by at most the change.
pub fn run_worked(comparison: &mut Comparison, index: u64) {
    let (cases, change) = &one_rate()[index as usize];
    let totals = cases.each_ref().map(|case| {
        let total = comparison.returned_total(&case.offer, case.table, case.store);
        let good = total.map(Answer::Certified) == Some(case.answer) && total == least_of(&case.offer);
        comparison.settle(good, || format!("{}: {total:?} is returned, not {:?}", case.name, case.answer));
        total
    });
    let apart = totals[0].zip(totals[1]).map(|(one, other)| (one - other).abs());
    let good = apart.is_some_and(|apart| apart <= *change);
    comparison.settle(good, || format!("{}, then {}: {totals:?} are returned", cases[0].name, cases[1].name));
}

/// The least total of all answer sets.
fn least_of(offer: &Offer) -> Option<i32> {
    let program = read(&offer.program, ROOM).ok()?;
    let costs = costs_of(&offer.costs, program.atoms)?;
    answer_sets(&program, &costs).into_iter().map(|(_, cost)| cost).min()
}

pub fn run_random(comparison: &mut Comparison, _: u64) {
    let (text, program, costs) = with_costs(&mut comparison.random);
    let Some((moved, change)) = moved(comparison, &costs) else { return };
    let least = |costs: &Costs| answer_sets(&program, costs).into_iter().map(|(_, cost)| cost).min();
    let (Some(one), Some(other)) = (least(&costs), least(&moved)) else { return };
    let apart = (one - other).abs();
    comparison.settle(apart <= change, || format!("{one} and {other} are more than {change} apart: {costs:?} and {moved:?}"));
    if apart == change && change > 0 {
        comparison.tally.count(format!("one rate: {REACHED}"));
    }
    let certified = [&costs, &moved].map(|costs| certified(comparison, &text, &program, costs));
    if let [Some(one), Some(other)] = certified {
        comparison.tally.count(format!("one rate: {BOTH}"));
        comparison.settle((one - other).abs() <= change, || format!("{one} and {other} are returned: {costs:?} and {moved:?}"));
    }
}

/// The costs with another one in one place, and how far apart the two are; nothing where there are none.
fn moved(comparison: &mut Comparison, costs: &Costs) -> Option<(Costs, i32)> {
    let place = (!costs.is_empty()).then(|| comparison.random.below(costs.len()))?;
    let before = costs[place].1;
    let near = (before + comparison.random.between(-3, 3)).clamp(0, WEIGHT_LARGEST);
    let any = comparison.random.between(0, WEIGHT_LARGEST);
    let after = *comparison.random.pick(&[near, near, 0, any]);
    let mut moved = costs.clone();
    moved[place].1 = after;
    Some((moved, (before - after).abs()))
}

/// The total that the library returns for a set of least cost, where a proof is found.
fn certified(comparison: &mut Comparison, text: &[u8], program: &Program, costs: &Costs) -> Option<i32> {
    let (set, least) = answer_sets(program, costs).into_iter().min_by_key(|(_, cost)| *cost)?;
    let proof = match least {
        0 => Vec::new(),
        1..=WEIGHT_LARGEST => refutation(comparison, program, costs, least)?,
        _ => return None,
    };
    let offer = Offer { program: text.to_vec(), set: listed(&set), costs: lent(costs), proof };
    let total = comparison.returned_total(&offer, ROOM, ROOM);
    comparison.settle(total == Some(least), || format!("{total:?} is returned, not {least}: {offer:?}"));
    total
}
