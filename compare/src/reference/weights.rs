//! Weight bodies, Change 3 of document 02, by trying all sets of literals as source document 000 words it.

/// Every "(subset-minimal) set L of literals such that wght(r, L) >= bnd(r)" (000, section 2.2), each in the order of the pairs.
pub fn minimal_sets(bound: i32, pairs: &[(i32, i32)]) -> Vec<Vec<i32>> {
    let subsets: Vec<u32> = (0..1 << pairs.len()).collect();
    let sums: Vec<i32> = subsets.iter().map(|subset| sum(*subset, pairs)).collect();
    let reaches = |subset: u32| sums[subset as usize] >= bound;
    let minimal = |subset: &&u32| reaches(**subset) && !proper_subsets(**subset).any(reaches);
    subsets.iter().filter(minimal).map(|subset| literals(*subset, pairs)).collect()
}

/// The pairs whose bit is 1 in the subset.
fn members(subset: u32, pairs: &[(i32, i32)]) -> impl Iterator<Item = &(i32, i32)> {
    pairs.iter().enumerate().filter(move |(place, _)| subset >> place & 1 == 1).map(|(_, pair)| pair)
}

fn sum(subset: u32, pairs: &[(i32, i32)]) -> i32 {
    members(subset, pairs).map(|(_, weight)| weight).sum()
}

fn literals(subset: u32, pairs: &[(i32, i32)]) -> Vec<i32> {
    members(subset, pairs).map(|(literal, _)| *literal).collect()
}

/// The subsets of a subset other than itself.
fn proper_subsets(subset: u32) -> impl Iterator<Item = u32> {
    std::iter::successors(Some(subset), move |other| other.checked_sub(1).map(|less| less & subset)).skip(1)
}

#[cfg(test)]
mod tests {
    use super::*;

    #[test]
    fn worked_bodies() {
        assert_eq!(minimal_sets(3, &[(2, 2), (3, 2), (4, 1)]), [[2, 3], [2, 4], [3, 4]]);
        assert_eq!(minimal_sets(3, &[(2, 3), (-3, 2), (4, 1)]), [vec![2], vec![-3, 4]]);
        assert_eq!(minimal_sets(2, &[(2, 2), (3, 0)]), [[2]]);
        assert_eq!(minimal_sets(5, &[(2, 2), (3, 2)]), [[0; 0]; 0]);
        assert_eq!(minimal_sets(0, &[(2, 2), (3, 0)]), [[0; 0]]);
        assert_eq!(minimal_sets(0, &[]), [[0; 0]]);
        assert_eq!(minimal_sets(1, &[]), [[0; 0]; 0]);
        let twelve: Vec<(i32, i32)> = (1..=12).map(|atom| (atom, 1)).collect();
        assert_eq!(minimal_sets(6, &twelve).len(), 924);
    }
}
