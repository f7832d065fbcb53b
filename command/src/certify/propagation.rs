//! Unit propagation over the clauses of a refutation from its end backwards, with what led to a conflict.

use super::clauses::{Clauses, Log};

/// The levels of clauses, by which propagation prefers some to others.
const LEVELS: usize = 3;

/// A clause that watches a literal, and another literal of it: where that one holds there is nothing to do.
#[derive(Clone, Copy)]
struct Watch {
    place: u32,
    other: i32,
}

/// Unit propagation with two watched literals, by the clauses before a place that were not deleted by then. It goes backwards: a clause that
/// was deleted comes back, and one that was learned goes, as the place is passed.
pub struct Checker {
    pub clauses: Clauses,
    /// How many of them are axioms.
    axioms: usize,
    /// Clauses that are used by some derivation.
    pub needed: Vec<bool>,
    /// The clauses that were deleted, the latest first, each with how many were learned by then.
    gone: std::iter::Peekable<std::vec::IntoIter<(usize, u32)>>,
    /// By literal, the clauses that watch it.
    watches: Vec<Vec<Watch>>,
    /// The clauses of one literal or none.
    short: Vec<u32>,
    /// By variable: 0, or the sign of the literal that holds.
    value: Vec<i8>,
    /// By variable, the clause that gave it; none where it is assumed.
    reason: Vec<Option<u32>>,
    trail: Vec<i32>,
    /// By variable, whether it is asked for; only while a conflict is explained.
    wanted: Vec<bool>,
}

impl Checker {
    /// Over the axioms and the first so many learned clauses.
    pub fn of(variables: i32, log: &Log, learned: usize) -> Checker {
        let size = variables as usize + 1;
        let count = log.axioms + learned;
        let mut gone: Vec<(usize, u32)> =
            (0..count).filter(|place| log.deleted[*place] <= learned).map(|place| (log.deleted[place], place as u32)).collect();
        gone.sort_unstable_by(|one, other| other.cmp(one));
        let mut checker = Checker {
            clauses: (0..count).map(|place| log.clauses.at(place)).collect(),
            axioms: log.axioms,
            needed: vec![false; count],
            gone: gone.into_iter().peekable(),
            watches: vec![Vec::new(); 2 * size],
            short: Vec::new(),
            value: vec![0; size],
            reason: vec![None; size],
            trail: Vec::new(),
            wanted: vec![false; size],
        };
        (0..count).filter(|place| log.deleted[*place] > learned).for_each(|place| checker.attach(place));
        checker
    }

    /// Goes back to where so many clauses were learned: what was deleted after that is there again.
    pub fn go_back_to(&mut self, learned: usize) {
        while let Some((_, place)) = self.gone.next_if(|(deleted, _)| *deleted > learned) {
            self.attach(place as usize);
        }
    }

    /// A clause that is there from now on, behind all others.
    pub fn enter(&mut self, clause: impl IntoIterator<Item = i32>) {
        self.clauses.push(clause);
        self.needed.push(false);
        self.attach(self.clauses.len() - 1);
    }

    /// Takes a clause away; its place stays taken.
    pub fn leave(&mut self, place: usize) {
        match *self.clauses.at(place) {
            [one, two, ..] => {
                [one, two].into_iter().for_each(|literal| self.watches[code(literal)].retain(|watch| watch.place as usize != place))
            }
            _ => self.short.retain(|short| *short as usize != place),
        }
    }

    /// What was assumed and what followed from it when a conflict was looked for last, in order, each with the clause that gave it.
    pub fn trail(&self) -> impl ExactSizeIterator<Item = (i32, Option<u32>)> + '_ {
        self.trail.iter().map(|literal| (*literal, self.reason[literal.unsigned_abs() as usize]))
    }

    fn attach(&mut self, place: usize) {
        match *self.clauses.at(place) {
            [one, two, ..] => {
                self.watches[code(one)].push(Watch { place: place as u32, other: two });
                self.watches[code(two)].push(Watch { place: place as u32, other: one });
            }
            _ => self.short.push(place as u32),
        }
    }

    /// Assumes that no literal of the clause holds and propagates by the clauses before the limit, to a conflict. Answers the clauses that led to
    /// it, which are marked as needed, and the clause's literals that did.
    pub fn derive(&mut self, clause: &[i32], limit: usize) -> Option<(Vec<u32>, Vec<i32>)> {
        for literal in self.trail.drain(..) {
            self.value[literal.unsigned_abs() as usize] = 0;
        }
        for literal in clause {
            if self.holds(-literal) == 0 {
                self.assign(-literal, None);
            }
        }
        let conflict = self.propagate(limit)?;
        Some(self.explain(conflict, clause))
    }

    /// 1 where the literal holds, -1 where its complement does, 0 where neither does.
    fn holds(&self, literal: i32) -> i32 {
        i32::from(self.value[literal.unsigned_abs() as usize]) * literal.signum()
    }

    fn assign(&mut self, literal: i32, reason: Option<u32>) {
        let variable = literal.unsigned_abs() as usize;
        self.value[variable] = literal.signum() as i8;
        self.reason[variable] = reason;
        self.trail.push(literal);
    }

    /// Propagates to the end, or to a clause that nothing satisfies. A clause is only used where those of lower levels give nothing more.
    fn propagate(&mut self, limit: usize) -> Option<u32> {
        self.short.retain(|place| (*place as usize) < limit);
        let mut short: Vec<(usize, u32)> = self.short.iter().map(|place| (self.level(*place), *place)).collect();
        short.sort_unstable();
        let mut short = short.into_iter().peekable();
        // By level, the literal of the trail that is next, and how far its list was gone through.
        let mut next = [(0, 0); LEVELS];
        let mut level = 0;
        while level < LEVELS {
            let before = self.trail.len();
            let conflict = if let Some((_, place)) = short.next_if(|(of, _)| *of == level) {
                self.unit(place)
            } else if let Some(literal) = self.trail.get(next[level].0).copied() {
                let (conflict, left_at) = self.visit(-literal, limit, level, next[level].1);
                next[level] = left_at.map_or((next[level].0 + 1, 0), |at| (next[level].0, at));
                conflict
            } else {
                level += 1;
                continue;
            };
            if conflict.is_some() {
                return conflict;
            }
            if self.trail.len() > before {
                level = 0;
            }
        }
        None
    }

    /// Clauses that are needed already come first, then axioms, then the other lemmas.
    fn level(&self, place: u32) -> usize {
        match place as usize {
            place if self.needed[place] => 0,
            place if place < self.axioms => 1,
            _ => LEVELS - 1,
        }
    }

    /// Assigns what a clause of one literal says; the clause where nothing satisfies it.
    fn unit(&mut self, place: u32) -> Option<u32> {
        match self.clauses.at(place as usize).first().map(|literal| (*literal, self.holds(*literal))) {
            Some((literal, 0)) => self.assign(literal, Some(place)),
            Some((_, 1)) => {}
            _ => return Some(place),
        }
        None
    }

    /// Goes through the clauses of a level that watch a literal that does not hold any more, from one of them on, to a clause that nothing
    /// satisfies; above the lowest level only to the first that gives a literal. Where it did not go through all of them, the next is answered too.
    fn visit(&mut self, literal: i32, limit: usize, level: usize, from: usize) -> (Option<u32>, Option<usize>) {
        let mut list = std::mem::take(&mut self.watches[code(literal)]);
        let (mut conflict, mut left) = (None, false);
        let mut at = from;
        while at < list.len() && !left {
            let Watch { place, other } = list[at];
            if place as usize >= limit {
                list.swap_remove(at);
                continue;
            }
            let seen = if self.holds(other) == 1 || self.level(place) != level { Seen::Nothing } else { self.look(place, literal) };
            match seen {
                Seen::Moved => {
                    list.swap_remove(at);
                    continue;
                }
                Seen::Nothing => {}
                Seen::Conflict => (conflict, left) = (Some(place), true),
                Seen::Unit(other) => {
                    self.assign(other, Some(place));
                    left = level > 0;
                }
            }
            at += 1;
        }
        self.watches[code(literal)] = list;
        (conflict, left.then_some(at))
    }

    /// What a clause says where a literal that it watches does not hold; the watch moves where another literal may hold.
    fn look(&mut self, place: u32, literal: i32) -> Seen {
        let value = &self.value;
        let holds = |literal: i32| i32::from(value[literal.unsigned_abs() as usize]) * literal.signum();
        let clause = self.clauses.at_mut(place as usize);
        if clause[0] == literal {
            clause.swap(0, 1);
        }
        let other = clause[0];
        if holds(other) == 1 {
            return Seen::Nothing;
        }
        if let Some(at) = (2..clause.len()).find(|at| holds(clause[*at]) >= 0) {
            clause.swap(1, at);
            self.watches[code(clause[1])].push(Watch { place, other });
            return Seen::Moved;
        }
        if holds(other) == 0 {
            Seen::Unit(other)
        } else {
            Seen::Conflict
        }
    }

    /// The clauses that led to a conflict, and the literals of the assumed clause that did.
    fn explain(&mut self, conflict: u32, clause: &[i32]) -> (Vec<u32>, Vec<i32>) {
        let mut hints = vec![conflict];
        let mut used = Vec::new();
        self.needed[conflict as usize] = true;
        self.clauses.at(conflict as usize).iter().for_each(|literal| self.wanted[literal.unsigned_abs() as usize] = true);
        for literal in self.trail.iter().rev() {
            let variable = literal.unsigned_abs() as usize;
            match self.reason[variable] {
                _ if !self.wanted[variable] => {}
                None => used.push(-literal),
                Some(reason) => {
                    hints.push(reason);
                    self.needed[reason as usize] = true;
                    self.clauses.at(reason as usize).iter().for_each(|other| self.wanted[other.unsigned_abs() as usize] = true);
                }
            }
            self.wanted[variable] = false;
        }
        used.sort_by_key(|literal| clause.iter().position(|own| own == literal));
        (hints, used)
    }
}

/// What a clause says: nothing to do where it is satisfied or of another level.
enum Seen {
    Nothing,
    Moved,
    Unit(i32),
    Conflict,
}

fn code(literal: i32) -> usize {
    2 * literal.unsigned_abs() as usize + usize::from(literal < 0)
}

#[cfg(test)]
mod tests {
    use super::*;

    fn log(clauses: &[&[i32]], axioms: usize) -> Log {
        let mut log = Log::of(clauses[..axioms].iter().copied());
        clauses[axioms..].iter().for_each(|clause| log.learn(clause.iter().copied()));
        log
    }

    fn checker(clauses: &[&[i32]], axioms: usize) -> Checker {
        Checker::of(9, &log(clauses, axioms), clauses.len() - axioms)
    }

    #[test]
    fn what_led_to_a_conflict() {
        let mut checker = checker(&[&[1, 2], &[-2, 3, 4], &[-4], &[-3, 1], &[5]], 5);
        let (mut hints, used) = checker.derive(&[1, 6], 5).unwrap();
        hints.sort_unstable();
        assert_eq!((hints, used), (vec![0, 1, 2, 3], vec![1]));
        assert_eq!(checker.needed, [true, true, true, true, false]);
        assert_eq!(checker.derive(&[6], 5), None);
    }

    #[test]
    fn only_clauses_before_the_limit() {
        let mut checker = checker(&[&[1, 2], &[1, -2], &[-1, 3], &[-1, -3]], 4);
        assert!(checker.derive(&[], 4).is_none() && checker.derive(&[1], 2).is_some());
        assert_eq!(checker.derive(&[1], 1), None);
    }

    #[test]
    fn axioms_come_before_lemmas() {
        let mut by_axioms = checker(&[&[1, 2], &[1, -2], &[1]], 2);
        assert!(by_axioms.derive(&[1], 3).is_some_and(|(hints, _)| !hints.contains(&2)));
        let mut by_lemma = checker(&[&[1, 2], &[1, -2, 3], &[1]], 2);
        assert_eq!(by_lemma.derive(&[1], 3), Some((vec![2], vec![1])));
    }

    #[test]
    fn clauses_that_come_and_go() {
        let mut checker = checker(&[], 0);
        for clause in [&[1, 2, 3][..], &[1, -2], &[-3], &[1, 2, 3]] {
            checker.enter(clause.iter().copied());
        }
        assert_eq!(checker.derive(&[1], 4).map(|(hints, _)| hints.len()), Some(3));
        checker.leave(0);
        assert!(checker.derive(&[1], 4).is_some_and(|(hints, _)| hints.contains(&3)));
        checker.leave(2);
        assert_eq!(checker.derive(&[1], 4), None);
        assert_eq!(checker.trail().collect::<Vec<_>>(), [(-1, None), (-2, Some(1)), (3, Some(3))]);
        checker.enter([]);
        assert_eq!(checker.derive(&[], 5), Some((vec![4], vec![])));
        checker.leave(4);
        assert_eq!(checker.derive(&[], 5), None);
    }

    #[test]
    fn what_was_deleted_is_used_before_that_only() {
        let mut log = log(&[&[1, 2], &[1, -2], &[1], &[3, 4], &[-1, 5], &[-5]], 2);
        // the first two when one clause was learned, the one learned first when three were
        log.deleted = vec![1, 1, 3, super::super::clauses::NEVER, super::super::clauses::NEVER, super::super::clauses::NEVER];
        let mut checker = Checker::of(9, &log, 4);
        assert_eq!(checker.derive(&[], 6), None);
        checker.go_back_to(2);
        assert_eq!(checker.derive(&[1], 4), Some((vec![2], vec![1])));
        checker.go_back_to(1);
        assert!(checker.derive(&[1], 2).is_none());
        checker.go_back_to(0);
        assert!(checker.derive(&[1], 2).is_some_and(|(hints, _)| hints.len() == 2));
    }
}
