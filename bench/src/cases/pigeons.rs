//! Pigeonhole programs: one pigeon more than holes.

use super::{refutations, Goal, Input};
use inputs::{programs, TEXT_LIMIT};

/// So many holes: the refutation that is found for six does not fit the limit of a proof's text.
const HOLES: [i32; 3] = [3, 4, 5];

pub fn inputs() -> Vec<Input> {
    HOLES.iter().map(|&holes| input(holes)).collect()
}

fn input(holes: i32) -> Input {
    let rules = programs::pigeons(holes);
    let lines = refutations::refute(&rules, TEXT_LIMIT, holes as u64).expect("one pigeon has no hole");
    Input::of(format!("pigeons-{}-{holes}", holes + 1), &rules, &lines).with_goal(Goal::Ratio(2.5))
}
