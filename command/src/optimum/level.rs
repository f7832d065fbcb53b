//! What is to be minimized under one priority, as costs of 1 and more on literals, each atom once, and a constant.

use std::collections::{BTreeMap, BTreeSet};

use crate::rules::{holds, Body, Rule, SHORT};
use crate::statements::Minimize;
use crate::sums::{divisor, MOST};

/// The costs of a priority. A set costs the constant, and for each literal that it makes true the unit times the
/// literal's cost.
#[derive(Debug, Clone, PartialEq, Eq)]
pub struct Level {
    pub priority: i64,
    constant: i64,
    unit: i64,
    pub costs: Vec<(i32, i64)>,
}

/// The levels of statements, the highest priority first, of no statement one that costs nothing; none where a number is
/// out of reach. An atom that no rule gives is in no answer set.
pub fn levels(statements: &[Minimize], given: &BTreeSet<i32>) -> Option<Vec<Level>> {
    let mut by_priority: BTreeMap<i64, Vec<(i32, i64)>> = BTreeMap::new();
    if statements.is_empty() {
        by_priority.insert(0, Vec::new());
    }
    for statement in statements {
        by_priority.entry(statement.priority).or_default().extend(&statement.weights);
    }
    by_priority.into_iter().rev().map(|(priority, weights)| Level::of(priority, &weights, given)).collect()
}

impl Level {
    fn of(priority: i64, weights: &[(i32, i64)], given: &BTreeSet<i32>) -> Option<Level> {
        // What an atom costs where it holds more than where it does not.
        let mut more: BTreeMap<i32, i64> = BTreeMap::new();
        let mut constant: i64 = 0;
        for (literal, weight) in weights {
            let difference = more.entry(literal.checked_abs()?).or_default();
            if *literal > 0 {
                *difference = difference.checked_add(*weight)?;
            } else {
                constant = constant.checked_add(*weight)?;
                *difference = difference.checked_sub(*weight)?;
            }
        }
        more.retain(|atom, difference| given.contains(atom) && *difference != 0);
        let mut costs = Vec::new();
        for (atom, difference) in more {
            if difference < 0 {
                constant = constant.checked_add(difference)?;
            }
            costs.push((if difference < 0 { -atom } else { atom }, difference.checked_abs()?));
        }
        costs.iter().try_fold(0i64, |sum, (_, cost)| sum.checked_add(*cost))?.checked_add(constant)?;
        let unit = costs.iter().fold(0, |unit, (_, cost)| divisor(unit, *cost)).max(1);
        costs.iter_mut().for_each(|(_, cost)| *cost /= unit);
        Some(Level { priority, constant, unit, costs })
    }

    /// How many units a set costs beside the constant.
    pub fn units(&self, set: &[u16]) -> i64 {
        self.costs.iter().filter(|(literal, _)| holds(*literal, set)).map(|(_, cost)| cost).sum()
    }

    /// What a set costs in all that costs so many units.
    pub fn total(&self, units: i64) -> i64 {
        self.constant + self.unit * units
    }

    /// The constraint that a set breaks which costs so many units or more. A cost above that counts as that.
    pub fn restriction(&self, units: i64) -> Rule {
        // What is beyond these numbers is refused, as is what is near them.
        let number = |units: i64| i32::try_from(units).unwrap_or(i32::MAX);
        let pairs = self.costs.iter().map(|(literal, cost)| (*literal, number((*cost).min(units)))).collect();
        Rule { choice: false, heads: Vec::new(), body: Body::Weights { bound: number(units), pairs } }
    }

    /// The costs for the service of cheapest sets, where they are as it takes them.
    pub fn pairs(&self) -> Option<Vec<i16>> {
        let pair = |(literal, cost): &(i32, i64)| {
            Some([i16::try_from(*literal).ok()?, i16::try_from(*cost).ok().filter(|cost| i64::from(*cost) <= MOST)?])
        };
        let pairs: Vec<[i16; 2]> = self.costs.iter().map(pair).collect::<Option<_>>()?;
        (pairs.len() <= SHORT).then(|| pairs.concat())
    }
}

#[cfg(test)]
mod tests {
    use super::*;

    fn level(weights: &[(i32, i64)]) -> Level {
        levels(&[Minimize { priority: 1, weights: weights.to_vec() }], &(1..=9).collect()).unwrap().remove(0)
    }

    #[test]
    fn costs_with_signs_and_repetitions() {
        // 2a + 2a + 5(1 - a) - 4b + 3: 5 - a and -4b and 3, atom 12 is given by no rule
        let level = level(&[(1, 2), (1, 2), (-1, 5), (2, -4), (-12, 3), (13, 7), (3, 0), (4, 2), (-4, 2)]);
        assert_eq!((level.constant, level.unit), (5 + 3 + 2 - 1 - 4, 1));
        assert_eq!(level.costs, [(-1, 1), (-2, 4)]);
        for (set, total) in [(&[][..], 10), (&[1], 9), (&[2], 6), (&[1, 2], 5)] {
            assert_eq!(level.total(level.units(set)), total, "{set:?}");
        }
        assert_eq!(level.restriction(3).line(), "1 0 0 1 3 2 -1 1 -2 3");
        assert_eq!(level.pairs(), Some(vec![-1, 1, -2, 4]));
    }

    #[test]
    fn a_common_unit() {
        let level = level(&[(1, 60_000), (2, 90_000)]);
        assert_eq!((level.unit, &level.costs[..]), (30_000, &[(1, 2), (2, 3)][..]));
        assert_eq!(level.total(level.units(&[2])), 90_000);
    }

    #[test]
    fn levels_by_priority() {
        let of = |priority, weights: &[(i32, i64)]| Minimize { priority, weights: weights.to_vec() };
        let found = levels(&[of(-1, &[(1, 1)]), of(2, &[(2, 1)]), of(-1, &[(3, 1)])], &(1..=9).collect()).unwrap();
        assert_eq!(found.iter().map(|level| (level.priority, level.costs.len())).collect::<Vec<_>>(), [(2, 1), (-1, 2)]);
        assert_eq!(levels(&[of(0, &[(1, i64::MAX), (2, 1)])], &(1..=9).collect()), None);
        assert_eq!(levels(&[of(0, &[(1, i64::MIN)])], &(1..=9).collect()), None);
        assert_eq!(levels(&[], &BTreeSet::new()).unwrap()[0].total(0), 0);
        let many: Vec<(i32, i64)> = (1..=13).map(|atom| (atom, 1)).collect();
        assert_eq!(levels(&[of(0, &many)], &(1..=13).collect()).unwrap()[0].pairs(), None);
        assert_eq!(levels(&[of(0, &[(1, 4_096), (2, 1)])], &(1..=13).collect()).unwrap()[0].pairs(), None);
    }
}
