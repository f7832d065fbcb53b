//! Sums as a grounder writes them, made to fit: the weights of a literal that is named twice are added up, and where a
//! weight or the bound is too large, weights count as the bound at most and all are divided by a common divisor. Which
//! sets of literals reach the bound stays as it was.

use std::collections::BTreeMap;

/// The most that a weight or a bound may be.
pub const MOST: i64 = 4_095;

/// The bound, the count, and the literals each with its weight, changed; none where they are no sum, or there is
/// nothing to change.
pub fn smaller(numbers: &[i64]) -> Option<Vec<i64>> {
    let [bound, count, pairs @ ..] = numbers else { return None };
    let whole = *bound >= 0 && pairs.len() % 2 == 0 && usize::try_from(*count) == Ok(pairs.len() / 2);
    let pairs: Vec<(i64, i64)> = pairs.chunks_exact(2).map(|pair| (pair[0], pair[1])).collect();
    if !whole || pairs.iter().any(|(literal, weight)| *literal == 0 || *weight < 0) {
        return None;
    }
    let (bound, added) = fitting(*bound, added_up(&pairs)?);
    let changed = [vec![bound, added.len() as i64], added.iter().flat_map(|(literal, weight)| [*literal, *weight]).collect()].concat();
    (changed != numbers).then_some(changed)
}

/// Each literal once, where it was named first.
fn added_up(pairs: &[(i64, i64)]) -> Option<Vec<(i64, i64)>> {
    let mut sums: BTreeMap<i64, i64> = BTreeMap::new();
    let mut order = Vec::new();
    for (literal, weight) in pairs {
        if !sums.contains_key(literal) {
            order.push(*literal);
        }
        let sum = sums.entry(*literal).or_default();
        *sum = sum.checked_add(*weight)?;
    }
    Some(order.into_iter().map(|literal| (literal, sums[&literal])).collect())
}

/// A sum whose numbers are within the limit, where that is within reach.
fn fitting(bound: i64, pairs: Vec<(i64, i64)>) -> (i64, Vec<(i64, i64)>) {
    if bound <= MOST && pairs.iter().all(|(_, weight)| *weight <= MOST) {
        return (bound, pairs);
    }
    let capped = pairs.into_iter().map(|(literal, weight)| (literal, weight.min(bound)));
    let capped: Vec<(i64, i64)> = capped.collect();
    let unit = capped.iter().fold(0, |unit, (_, weight)| divisor(unit, *weight)).max(1);
    // Up to the next whole number: sums are multiples of the unit.
    let bound = bound / unit + i64::from(bound % unit > 0);
    (bound, capped.into_iter().map(|(literal, weight)| (literal, weight / unit)).collect())
}

/// The greatest common divisor.
pub fn divisor(one: i64, other: i64) -> i64 {
    if other == 0 {
        one
    } else {
        divisor(other, one % other)
    }
}

#[cfg(test)]
mod tests {
    use super::*;

    #[test]
    fn sums_that_are_changed() {
        for (numbers, changed) in [
            (&[6, 3, -9, 3, -8, 4, -9, 1][..], &[6, 2, -9, 4, -8, 4][..]),
            (&[6_000, 3, 1, 2_000, 2, 4_000, 3, 8_000], &[3, 3, 1, 1, 2, 2, 3, 3]),
            (&[9, 2, 1, 5_000, 2, 3], &[3, 2, 1, 3, 2, 1]),
            (&[7, 2, 1, 5_000, 2, 3], &[7, 2, 1, 7, 2, 3]),
            (&[5_001, 2, 1, 5_000, 2, 5_000], &[2, 2, 1, 1, 2, 1]),
            (&[5_001, 2, 1, 5_000, 2, 3], &[5_001, 2, 1, 5_000, 2, 3]),
        ] {
            assert_eq!(smaller(numbers), (numbers != changed).then(|| changed.to_vec()), "{numbers:?}");
        }
    }

    #[test]
    fn sums_that_stay() {
        // An atom and its complement are two literals: a set with one of them is another set than one with the other.
        for numbers in
            [&[][..], &[3], &[3, 0], &[3, 2, 1, 1, -1, 1], &[-1, 1, 1, 5_000], &[3, 1, 1, -5_000], &[3, 2, 1, 1], &[3, 1, 0, 9_000]]
        {
            assert_eq!(smaller(numbers), None, "{numbers:?}");
        }
        assert_eq!(smaller(&[3, 2, 1, i64::MAX, 1, 1]), None);
    }

    #[test]
    fn the_same_sets_reach_the_bound() {
        let reached = |numbers: &[i64]| -> Vec<bool> {
            let pairs: Vec<(i64, i64)> = numbers[2..].chunks(2).map(|pair| (pair[0], pair[1])).collect();
            let held = |set: i64, literal: i64| set >> literal & 1 == 1;
            (0..16)
                .map(|set| pairs.iter().filter(|(literal, _)| held(set, *literal)).map(|(_, weight)| weight).sum::<i64>() >= numbers[0])
                .collect()
        };
        for bound in (0..60_000).step_by(1_700) {
            for weights in [[4_200, 8_400, 12_600, 4_200], [5_000, 7_000, 40_000, 3_000], [1, 5_000, 9_000, 2], [4_096, 0, 2_048, 30_000]] {
                let numbers: Vec<i64> =
                    [bound, 4].into_iter().chain((0..4).flat_map(|literal| [literal + 1, weights[literal as usize]])).collect();
                let changed = smaller(&numbers).unwrap_or(numbers.clone());
                assert_eq!(reached(&changed), reached(&numbers), "{numbers:?}");
            }
        }
    }
}
