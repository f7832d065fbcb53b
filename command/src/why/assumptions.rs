//! Which assumptions an answer set rests on, and which of them a literal needs.

use std::collections::BTreeSet;

use super::closure::{Assumption, Closure, Lines, Reason};
use super::program::Plain;
use crate::rules::holds;

/// What may be assumed of an answer set: that a choice is taken where its body holds in the set, and that an atom which
/// is not in the set, and which is negated in some rule or could be chosen, does not hold. What follows without
/// assumptions is not assumed.
pub fn candidates(plain: &Plain, set: &[u16], well_founded: &Closure) -> Vec<Assumption> {
    let body_holds = |body: usize| plain.bodies[body].iter().all(|literal| holds(*literal, set));
    let open = (1..=plain.atoms as i32).filter(|atom| !well_founded.holds(*atom) && !well_founded.holds(-*atom));
    let mut found = Vec::new();
    for atom in open {
        let chosen = || plain.supports[atom as usize].iter().filter(|support| support.choice && body_holds(support.body));
        if holds(atom, set) {
            let bodies: BTreeSet<usize> = chosen().map(|support| support.body).collect();
            found.extend(bodies.into_iter().map(|body| Assumption::Taken { head: atom, body }));
        } else if !plain.with(-atom).is_empty() || chosen().next().is_some() {
            found.push(Assumption::Left(atom));
        }
    }
    found
}

/// Whether nothing else can take an assumption's place: of a choice that is left whose body holds, or that alone gives
/// what is taken.
fn is_alone(assumption: Assumption, plain: &Plain, set: &[u16]) -> bool {
    let body_holds = |body: usize| plain.bodies[body].iter().all(|literal| holds(*literal, set));
    match assumption {
        Assumption::Left(atom) => plain.supports[atom as usize].iter().any(|support| support.choice && body_holds(support.body)),
        Assumption::Taken { head, body } => {
            !plain.supports[head as usize].iter().any(|other| body_holds(other.body) && (other.body != body || !other.choice))
        }
    }
}

/// The assumptions without those that follow from the others, tried from the last to the first. Where they come to the
/// whole answer set, they are a minimal assumption of it in the sense of source 003, with choices.
pub fn minimal(plain: &Plain, set: &[u16], all: &[Assumption]) -> Vec<Assumption> {
    let mut kept = all.to_vec();
    for place in (0..all.len()).rev().filter(|place| !is_alone(all[*place], plain, set)) {
        let removed = kept.remove(place);
        if !Closure::of(plain, &kept, Lines::All).holds(removed.literal()) {
            kept.insert(place, removed);
        }
    }
    kept
}

/// Of the assumptions a minimal part from which the literal follows: without any of them it does not. None where it does
/// not follow from all.
fn part(plain: &Plain, literal: i32, all: &[Assumption], lines: Lines) -> Option<Vec<Assumption>> {
    let mut kept = used(&Closure::of(plain, all, lines), literal)?;
    let mut place = 0;
    while place < kept.len() {
        let others: Vec<Assumption> = kept.iter().enumerate().filter(|(at, _)| *at != place).map(|(_, other)| *other).collect();
        match used(&Closure::of(plain, &others, lines), literal) {
            // What the literal rests on now is less; what stood before this place was needed then and is now.
            Some(fewer) => kept = fewer,
            None => place += 1,
        }
    }
    Some(kept)
}

/// The assumptions that the derivation of a literal takes; none where there is none.
fn used(closure: &Closure, literal: i32) -> Option<Vec<Assumption>> {
    let of = |literal: i32| match closure.reason(literal) {
        Some(Reason::Taken(body)) => Some(Assumption::Taken { head: literal, body: *body }),
        Some(Reason::Left) => Some(Assumption::Left(-literal)),
        _ => None,
    };
    let mut found: Vec<Assumption> = closure.reason(literal).map(|_| closure.needed(literal))?.into_iter().filter_map(of).collect();
    found.sort_unstable();
    Some(found)
}

/// What a literal of an answer set rests on.
pub struct Basis {
    pub assumptions: Vec<Assumption>,
    /// Whether a proof has lines for its derivation.
    pub lines: Lines,
}

/// The assumptions for a literal that holds in an answer set: a minimal part of a minimal assumption of the set. Where
/// the derivation from these has no proof lines, one of all that may be assumed; none where there is no derivation.
pub fn basis(plain: &Plain, set: &[u16], literal: i32) -> Option<Basis> {
    let all = candidates(plain, set, &Closure::of(plain, &[], Lines::All));
    let few = minimal(plain, set, &all);
    for (assumptions, lines) in [(&few, Lines::Writable), (&all, Lines::Writable), (&few, Lines::All)] {
        if let Some(assumptions) = part(plain, literal, assumptions, lines) {
            return Some(Basis { assumptions, lines });
        }
    }
    None
}

#[cfg(test)]
pub mod tests {
    use super::super::program::tests::plain;
    use super::*;

    // 1 a, 2 b, 3 c, 4 d, 5 e, 6 f, 7 k: example 14 of source 003.
    const EXAMPLE_14: [&str; 7] =
        ["1 0 1 1 0 2 6 -2", "1 0 1 2 0 2 5 -1", "1 0 1 5 0 0", "1 0 1 6 0 1 5", "1 0 1 4 0 2 3 5", "1 0 1 3 0 3 4 6 -7", "1 0 1 7 0 1 1"];

    #[test]
    fn example_14() {
        let plain = plain(&EXAMPLE_14);
        let set = [2, 5, 6];
        let well_founded = Closure::of(&plain, &[], Lines::All);
        assert_eq!((1..=7).map(|atom| well_founded.holds(atom)).collect::<Vec<_>>(), [false, false, false, false, true, true, false]);
        assert_eq!((1..=7).map(|atom| well_founded.holds(-atom)).collect::<Vec<_>>(), [false, false, true, true, false, false, false]);
        let all = candidates(&plain, &set, &well_founded);
        assert_eq!(all, [Assumption::Left(1), Assumption::Left(7)]);
        assert_eq!(minimal(&plain, &set, &all), [Assumption::Left(1)]);
        let of = |literal| basis(&plain, &set, literal).map(|basis| basis.assumptions);
        assert_eq!(of(-7), Some(vec![Assumption::Left(1)]));
        assert_eq!(of(-1), Some(vec![Assumption::Left(1)]));
        assert_eq!((of(-3), of(6)), (Some(Vec::new()), Some(Vec::new())));
    }

    #[test]
    fn choices() {
        // {1}. {2; 3} :- 1. 4 :- 2, not 3. 2 :- 4.
        let plain = plain(&["1 1 1 1 0 0", "1 1 2 2 3 0 1 1", "1 0 1 4 0 2 2 -3", "1 0 1 2 0 1 4"]);
        let body = |literals: &[i32]| plain.bodies.iter().position(|body| body == literals).unwrap();
        let taken = |head, literals: &[i32]| Assumption::Taken { head, body: body(literals) };
        let of = |literal, set: &[u16]| basis(&plain, set, literal).map(|basis| basis.assumptions);
        assert_eq!(of(4, &[1, 2, 4]), Some(vec![taken(1, &[]), taken(2, &[1]), Assumption::Left(3)]));
        // the rule 2 :- 4 gives 2 only where the choice does already
        assert_eq!(of(2, &[1, 2, 4]), Some(vec![taken(1, &[]), taken(2, &[1])]));
        assert_eq!(of(-4, &[]), Some(vec![Assumption::Left(1)]));
        assert_eq!(of(-4, &[1]), Some(vec![Assumption::Left(2)]));
        assert_eq!(of(4, &[1]), None);
    }
}
