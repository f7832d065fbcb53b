//! Clauses one after the other, and a refutation as a solver logs it: the clauses that it learned, and when it deleted which.

use std::collections::HashMap;

/// Clauses, numbered from 0.
#[derive(Debug, Default, Clone, PartialEq, Eq)]
pub struct Clauses {
    literals: Vec<i32>,
    /// Where each ends.
    ends: Vec<usize>,
}

impl Clauses {
    pub fn push(&mut self, clause: impl IntoIterator<Item = i32>) {
        self.literals.extend(clause);
        self.ends.push(self.literals.len());
    }

    pub fn len(&self) -> usize {
        self.ends.len()
    }

    /// Literals and clauses together.
    pub fn size(&self) -> usize {
        self.literals.len() + self.ends.len()
    }

    fn range(&self, place: usize) -> std::ops::Range<usize> {
        let from = if place == 0 { 0 } else { self.ends[place - 1] };
        from..self.ends[place]
    }

    pub fn at(&self, place: usize) -> &[i32] {
        &self.literals[self.range(place)]
    }

    pub fn at_mut(&mut self, place: usize) -> &mut [i32] {
        let range = self.range(place);
        &mut self.literals[range]
    }

    pub fn iter(&self) -> impl Iterator<Item = &[i32]> + Clone {
        (0..self.len()).map(|place| self.at(place))
    }
}

impl<'a> FromIterator<&'a [i32]> for Clauses {
    fn from_iter<I: IntoIterator<Item = &'a [i32]>>(clauses: I) -> Clauses {
        let mut all = Clauses::default();
        clauses.into_iter().for_each(|clause| all.push(clause.iter().copied()));
        all
    }
}

/// What stays to the end.
pub const NEVER: usize = usize::MAX;

/// The axioms and behind them the learned clauses of a refutation, which are counted from 0 where it is said when something was deleted.
#[derive(Debug, Default, Clone, PartialEq, Eq)]
pub struct Log {
    pub clauses: Clauses,
    /// How many of the clauses are axioms.
    pub axioms: usize,
    /// By clause, how many were learned when it was deleted; `NEVER` where it was not.
    pub deleted: Vec<usize>,
}

impl Log {
    pub fn of<'a>(axioms: impl IntoIterator<Item = &'a [i32]>) -> Log {
        let clauses: Clauses = axioms.into_iter().collect();
        Log { axioms: clauses.len(), deleted: vec![NEVER; clauses.len()], clauses }
    }

    pub fn learn(&mut self, clause: impl IntoIterator<Item = i32>) {
        self.clauses.push(clause);
        self.deleted.push(NEVER);
    }

    /// How many clauses were learned.
    pub fn learned(&self) -> usize {
        self.clauses.len() - self.axioms
    }
}

/// Finds the clause that a deletion names, whatever the order of its literals.
#[derive(Default)]
pub struct Finder(HashMap<u64, Vec<u32>>);

impl Finder {
    pub fn of(log: &Log) -> Finder {
        let mut finder = Finder::default();
        (0..log.clauses.len()).for_each(|place| finder.enter(log, place));
        finder
    }

    /// A clause that is there from now on.
    pub fn enter(&mut self, log: &Log, place: usize) {
        self.0.entry(key(log.clauses.at(place))).or_default().push(place as u32);
    }

    /// Notes that a clause with these literals is deleted, the oldest where there are several; its place. One that is not there is passed over.
    pub fn delete(&mut self, log: &mut Log, clause: &[i32]) -> Option<usize> {
        let places = self.0.get_mut(&key(clause))?;
        let wanted = sorted(clause);
        let found = places.iter().position(|place| sorted(log.clauses.at(*place as usize)) == wanted)?;
        let place = places.remove(found) as usize;
        if places.is_empty() {
            self.0.remove(&key(clause));
        }
        log.deleted[place] = log.learned();
        Some(place)
    }
}

/// The same for the same literals in another order.
fn key(clause: &[i32]) -> u64 {
    clause.iter().fold(0, |sum, literal| sum.wrapping_add((*literal as u64 | 1 << 40).wrapping_mul(0x9e37_79b9_7f4a_7c15).rotate_left(29)))
}

fn sorted(clause: &[i32]) -> Vec<i32> {
    let mut literals = clause.to_vec();
    literals.sort_unstable();
    literals
}

#[cfg(test)]
mod tests {
    use super::*;

    #[test]
    fn clauses_by_number() {
        let mut clauses: Clauses = [&[1, -2][..], &[], &[3]].into_iter().collect();
        clauses.push([4, 5]);
        clauses.at_mut(3)[0] = 6;
        assert_eq!((clauses.len(), clauses.size()), (4, 9));
        assert_eq!(clauses.iter().collect::<Vec<_>>(), [&[1, -2][..], &[], &[3], &[6, 5]]);
    }

    #[test]
    fn what_a_deletion_names() {
        let mut log = Log::of([&[1, 2][..], &[3, -1], &[2, 1]]);
        let mut finder = Finder::of(&log);
        log.learn([-2]);
        finder.enter(&log, 3);
        assert_eq!(finder.delete(&mut log, &[2, 1]), Some(0));
        log.learn([4]);
        assert_eq!([&[1, 2][..], &[1, 2], &[-2], &[7]].map(|clause| finder.delete(&mut log, clause)), [Some(2), None, Some(3), None]);
        assert_eq!((log.axioms, log.learned()), (3, 2));
        assert_eq!(log.deleted, [1, NEVER, 2, 2, NEVER]);
    }
}
