//! The chain of nogoods by which an addition follows: unit propagation over the live nogoods, and of it only what the conflict needs.

use std::collections::HashSet;

use super::replay::{Effect, Replay};
use crate::certify::propagation::Checker;

/// The largest variable.
pub const LARGEST: i32 = 8_191;

/// A nogood of a chain: the step that added it, its literals, and the literal that it gives, where all of its others hold; none where all hold.
#[derive(Debug, Clone, PartialEq, Eq)]
pub struct Link {
    pub step: usize,
    pub nogood: Vec<i32>,
    pub gives: Option<i32>,
}

/// Propagation over the live nogoods of a replay, by their places.
pub struct Chains(Checker);

/// How far propagation comes.
pub enum Propagated {
    /// To a conflict, by these nogoods in this order.
    Conflict(Vec<usize>),
    /// To no conflict: what was assumed, and what each nogood gave.
    Open(Vec<(i32, Option<usize>)>),
}

impl Chains {
    /// Over the nogoods that are live now. As steps are gone through it is told what they do.
    pub fn of(replay: &Replay) -> Chains {
        Chains(Checker::of(LARGEST, &replay.log, replay.log.learned()))
    }

    /// Takes in what a step did.
    pub fn follow(&mut self, effect: &Effect, replay: &Replay) {
        effect.added.clone().for_each(|place| self.0.enter(replay.log.clauses.at(place).iter().copied()));
        effect.removed.iter().for_each(|place| self.0.leave(*place));
    }

    /// Assumes the literals of a nogood.
    pub fn propagate(&mut self, nogood: &[i32]) -> Propagated {
        let clause: Vec<i32> = nogood.iter().map(|literal| -literal).collect();
        match self.0.derive(&clause, usize::MAX) {
            Some((hints, _)) => Propagated::Conflict(hints.into_iter().rev().map(|hint| hint as usize).collect()),
            None => Propagated::Open(self.0.trail().map(|(literal, reason)| (literal, reason.map(|place| place as usize))).collect()),
        }
    }
}

/// The nogoods of a chain with what each gives, where literals are assumed: each but the last gives a literal, and of the last all hold. None where
/// it is no such chain.
pub fn links(assumed: &[i32], nogoods: impl Iterator<Item = (usize, Vec<i32>)>) -> Option<Vec<Link>> {
    let mut held: HashSet<i32> = assumed.iter().copied().collect();
    let mut links: Vec<Link> = Vec::new();
    for (step, nogood) in nogoods {
        if links.last().is_some_and(|link| link.gives.is_none()) {
            return None;
        }
        let mut open = nogood.iter().filter(|literal| !held.contains(literal));
        let (gives, more) = (open.next().map(|literal| -literal), open.next());
        if more.is_some() {
            return None;
        }
        held.extend(gives);
        links.push(Link { step, nogood, gives });
    }
    links.last().is_some_and(|link| link.gives.is_none()).then_some(links)
}

#[cfg(test)]
mod tests {
    use super::*;
    use crate::certify::completion::tests::completion;
    use crate::show::step::Step;

    #[test]
    fn chains_in_order() {
        let completion = completion(&["1 1 1 1 0 0", "1 0 1 2 0 1 1", "1 0 0 0 1 2"]);
        let mut replay = Replay::of(&completion);
        let mut chains = Chains::of(&replay);
        for line in ["b 3 1 0", "b 4 2 0", "c 3 2 0", "c 4 0", "e 5 1 2 0"] {
            let effect = replay.go(&Step::of(line.as_bytes()).unwrap());
            chains.follow(&effect, &replay);
        }
        for mut chains in [chains, Chains::of(&replay)] {
            let Propagated::Conflict(places) = chains.propagate(&[1]) else { panic!("no conflict") };
            let links = links(&[1], places.iter().map(|place| (replay.origin(*place), replay.nogood(*place)))).unwrap();
            let steps: HashSet<usize> = links.iter().map(|link| link.step).collect();
            assert_eq!((links.len(), steps), (4, HashSet::from([1, 2, 3, 4])));
            assert!(
                matches!(chains.propagate(&[-1]), Propagated::Open(trail) if trail.contains(&(-5, Some(replay.log.clauses.len() - 2))))
            );
        }
    }

    #[test]
    fn what_is_no_chain() {
        let gives = |nogoods: &[&[i32]]| links(&[1], nogoods.iter().map(|nogood| (7, nogood.to_vec()))).map(|links| links.len());
        assert_eq!(gives(&[&[1, 2], &[-2]]), Some(2));
        assert_eq!(gives(&[&[]]), Some(1));
        for wrong in [&[&[1, 2][..]][..], &[&[2, 3]], &[&[1], &[1]], &[], &[&[-2], &[1, 2, 3]]] {
            assert_eq!(gives(wrong), None, "{wrong:?}");
        }
    }
}
