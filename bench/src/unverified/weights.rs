//! Weight bodies: the minimal sets of literals whose weights reach a bound.

/// A bound, and literals with their weights, ascending by atom.
#[derive(Clone, PartialEq, Eq, Hash)]
pub struct Weights {
    pub bound: i32,
    pub pairs: Box<[(i32, i32)]>,
}

impl Weights {
    /// Whether these literals, ascending by atom, are a minimal set: they reach the bound, and do not without the lightest.
    pub fn is_body(&self, literals: &[i32]) -> bool {
        let mut pairs = self.pairs.iter();
        let (mut sum, mut least) = (0, i32::MAX);
        for literal in literals {
            let Some((_, weight)) = pairs.find(|pair| pair.0 == *literal) else { return false };
            sum += weight;
            least = least.min(*weight);
        }
        sum >= self.bound && (literals.is_empty() || sum - least < self.bound)
    }

    /// The positive literals that stand in some minimal set.
    pub fn relevant(&self) -> Vec<i32> {
        let mut found = Vec::new();
        self.each_body(|body| found.extend(body.iter().copied().filter(|literal| *literal > 0)));
        found.sort_unstable();
        found.dedup();
        found
    }

    /// Calls `found` with each minimal set, ascending by atom.
    pub fn each_body(&self, mut found: impl FnMut(&[i32])) {
        let mut falling: Vec<(i32, i32)> = self.pairs.iter().copied().filter(|pair| pair.1 > 0).collect();
        falling.sort_unstable_by_key(|pair| -pair.1);
        let left = falling.iter().map(|pair| pair.1).sum();
        complete(self.bound, left, &falling, &mut Vec::with_capacity(falling.len()), &mut found);
    }
}

/// The sets that begin with what is chosen and reach what is wanted with others of the pairs, whose weights add up to what is left. By falling
/// weight every set that reaches the bound is minimal.
fn complete(wanted: i32, left: i32, pairs: &[(i32, i32)], chosen: &mut Vec<i32>, found: &mut impl FnMut(&[i32])) {
    if wanted <= 0 {
        let mut body = chosen.clone();
        body.sort_unstable_by_key(|literal| literal.unsigned_abs());
        found(&body);
    } else if left >= wanted {
        let (literal, weight) = pairs[0];
        chosen.push(literal);
        complete(wanted - weight, left - weight, &pairs[1..], chosen, found);
        chosen.pop();
        complete(wanted, left - weight, &pairs[1..], chosen, found);
    }
}

#[cfg(test)]
mod tests {
    use super::*;

    fn bodies(bound: i32, pairs: &[(i32, i32)]) -> Vec<Vec<i32>> {
        let weights = Weights { bound, pairs: pairs.into() };
        let mut bodies = Vec::new();
        weights.each_body(|body| bodies.push(body.to_vec()));
        assert!(bodies.iter().all(|body| weights.is_body(body)));
        bodies.sort();
        bodies
    }

    #[test]
    fn minimal_sets() {
        assert_eq!(bodies(3, &[(2, 2), (3, 2), (4, 1)]), [[2, 3], [2, 4], [3, 4]]);
        assert_eq!(bodies(3, &[(2, 3), (-3, 2), (4, 1)]), [vec![-3, 4], vec![2]]);
        assert_eq!(bodies(2, &[(2, 2), (3, 0)]), [[2]]);
        assert_eq!(bodies(5, &[(2, 2), (3, 2)]), [[0; 0]; 0]);
        assert_eq!(bodies(0, &[(2, 2)]), [[0; 0]]);
        let twelve: Vec<(i32, i32)> = (1..=12).map(|atom| (atom, 1)).collect();
        assert_eq!(bodies(6, &twelve).len(), 924);
    }

    #[test]
    fn relevant_literals() {
        let relevant = |bound, pairs: &[(i32, i32)]| Weights { bound, pairs: pairs.into() }.relevant();
        assert_eq!(relevant(3, &[(2, 2), (-3, 2), (4, 1)]), [2, 4]);
        assert_eq!(relevant(2, &[(1, 1), (2, 2)]), [2]);
        assert_eq!(relevant(3, &[(1, 1), (2, 2)]), [1, 2]);
        assert_eq!(relevant(1, &[(1, 0), (2, 1)]), [2]);
        assert_eq!([relevant(9, &[(1, 1), (2, 2)]), relevant(0, &[(1, 5)])], [[0; 0]; 2]);
    }

    #[test]
    fn sets_that_are_not_minimal() {
        let weights = Weights { bound: 3, pairs: [(2, 2), (3, 2), (4, 1), (5, 0)].into() };
        for literals in [&[2, 3, 4][..], &[2], &[], &[2, 3, 5], &[-2, 3], &[2, 6]] {
            assert!(!weights.is_body(literals), "{literals:?}");
        }
        assert!(!Weights { bound: 0, pairs: [(2, 0)].into() }.is_body(&[2]));
    }
}
