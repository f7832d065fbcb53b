//! A hard case for propagation: a long chain of names, each the one before, and additions and deletions at its far end. Each
//! addition is refuted only once propagation has gone down the whole chain.

use super::{Goal, Input};
use inputs::lines::{self, Line};
use inputs::rules::normal;

/// The names of the chain, and the pairs of an addition and a deletion.
const LINKS: i32 = 2_000;
const PAIRS: usize = 1_600;

pub fn input() -> Input {
    let mut lines = vec![Line::of(b'b', &[2, -1]), Line::of(b'c', &[2, 1]), Line::of(b's', &[1, 2])];
    lines.extend(lines::chain(2, 3, 2 + LINKS));
    for _ in 0..PAIRS {
        lines.push(Line::of(b'a', &[2 + LINKS]));
        lines.push(Line::of(b'd', &[2 + LINKS]));
    }
    Input::of("chain-2000", &[normal(1, &[-1])], &lines).with_goal(Goal::Ratio(3.0))
}
