//! Cuts a refutation down to what it needs. From the contradiction backwards, each learned clause that is used is derived again by unit
//! propagation, and the clauses and literals that this takes are marked; all others go. This goes on while it helps by two percent and there is
//! time for it.

use std::time::{Duration, Instant};

use super::clauses::{Log, NEVER};
use super::propagation::Checker;
use crate::progress::Progress;

/// A refutation that is cut down: a log whose last clause is the empty one, and for each learned clause those by whose propagation it follows,
/// axioms or learned before it. Where a log is taken as it is, all axioms stand for the first.
#[derive(Debug, Clone, PartialEq, Eq)]
pub struct Refutation {
    pub log: Log,
    pub hints: Vec<Vec<u32>>,
}

/// Why a refutation is not cut down.
#[derive(Debug, PartialEq, Eq)]
pub enum Uncut {
    /// A clause that is needed does not follow by propagation.
    Unfounded,
    /// The time is over, or will be long before one way through is done.
    Late,
}

/// The refutation with what it needs, as far as it can be found by the time told; always the first way through, where none is told.
pub fn trim(variables: i32, log: &Log, until: Option<Instant>, progress: &Progress) -> Result<Refutation, Uncut> {
    let mut best = round(variables, log, until, progress)?;
    loop {
        let before = best.log.clauses.size();
        match round(variables, &best.log, until.or(Some(Instant::now())), progress) {
            Ok(shorter) => {
                let after = shorter.log.clauses.size();
                if after < before {
                    best = shorter;
                }
                if after >= before - before / 50 {
                    return Ok(best);
                }
            }
            Err(Uncut::Late) => return Ok(best),
            Err(Uncut::Unfounded) => return Err(Uncut::Unfounded),
        }
    }
}

/// The refutation as it is, up to the first empty clause, which is added where there is none.
pub fn whole(log: &Log) -> Refutation {
    let count = contradiction(log);
    let mut all = Log::of((0..log.axioms).map(|place| log.clauses.at(place)));
    (log.axioms..log.axioms + count).for_each(|place| all.learn(log.clauses.at(place).iter().copied()));
    all.deleted = (0..log.axioms + count).map(|place| log.deleted[place]).collect();
    all.learn([]);
    let mut hints = vec![Vec::new(); count + 1];
    hints[0] = (0..log.axioms as u32).collect();
    Refutation { log: all, hints }
}

/// The learned clauses before the first empty one.
fn contradiction(log: &Log) -> usize {
    log.clauses.iter().skip(log.axioms).position(<[i32]>::is_empty).unwrap_or(log.learned())
}

/// So many derivations are made between two looks at the clock.
const TURN: usize = 64;

/// One way back through the learned clauses.
fn round(variables: i32, log: &Log, until: Option<Instant>, progress: &Progress) -> Result<Refutation, Uncut> {
    let started = Instant::now();
    let (first, count) = (log.axioms, contradiction(log));
    let mut checker = Checker::of(variables, log, count);
    // From the last to the first: the place of each that is kept, its literals, and what it follows from.
    let mut kept: Vec<(usize, Vec<i32>, Vec<u32>)> = Vec::new();
    let (hints, _) = checker.derive(&[], first + count).ok_or(Uncut::Unfounded)?;
    kept.push((first + count, Vec::new(), hints));
    for learned in (0..count).rev() {
        checker.go_back_to(learned);
        if !checker.needed[first + learned] {
            continue;
        }
        if kept.len().is_multiple_of(TURN) {
            progress.gone_through(count - learned, count);
            let time = until.map(|until| until.saturating_duration_since(started));
            if time.is_some_and(|time| is_late(started.elapsed(), time, count - learned, count)) {
                return Err(Uncut::Late);
            }
        }
        let clause = checker.clauses.at(first + learned).to_vec();
        let (hints, used) = checker.derive(&clause, first + learned).ok_or(Uncut::Unfounded)?;
        kept.push((first + learned, used, hints));
    }
    kept.reverse();
    Ok(renumbered(kept, log))
}

/// Whether so much of the time is over, or after a quarter of it so few of all clauses are gone through that twice the time will not do.
fn is_late(elapsed: Duration, time: Duration, done: usize, of: usize) -> bool {
    let (elapsed, time) = (elapsed.as_secs_f64(), time.as_secs_f64());
    elapsed > time || elapsed > time / 4.0 && elapsed * of as f64 > 2.0 * time * done as f64
}

/// The clauses that are kept, with hints and deletions by their new numbers.
fn renumbered(kept: Vec<(usize, Vec<i32>, Vec<u32>)>, log: &Log) -> Refutation {
    let first = log.axioms;
    let places: Vec<usize> = kept.iter().map(|(place, ..)| *place).collect();
    let learned_before = |place: usize| places.partition_point(|kept| *kept < place);
    let new = |hint: u32| if (hint as usize) < first { hint } else { (first + learned_before(hint as usize)) as u32 };
    let deleted_at = |deleted: usize| if deleted == NEVER { NEVER } else { learned_before(first + deleted) };
    let mut short = Log::of((0..first).map(|place| log.clauses.at(place)));
    short.deleted = log.deleted[..first].iter().map(|deleted| deleted_at(*deleted)).collect();
    let mut hints = Vec::with_capacity(kept.len());
    for (place, clause, from) in kept {
        short.clauses.push(clause);
        short.deleted.push(log.deleted.get(place).map_or(NEVER, |deleted| deleted_at(*deleted)));
        hints.push(from.into_iter().map(new).collect());
    }
    // The empty clause stays.
    if let Some(last) = short.deleted.last_mut() {
        *last = NEVER;
    }
    Refutation { log: short, hints }
}

#[cfg(test)]
pub mod tests {
    use super::*;

    /// The log of axioms and learned clauses without deletions.
    pub fn log(axioms: &[&[i32]], learned: &[&[i32]]) -> Log {
        let mut log = Log::of(axioms.iter().copied());
        learned.iter().for_each(|clause| log.learn(clause.iter().copied()));
        log
    }

    /// The refutation cut down, with all the time that it takes for one way through.
    pub fn trimmed(variables: i32, log: &Log) -> Result<Refutation, Uncut> {
        let until = Instant::now() + std::time::Duration::from_secs(60);
        trim(variables, log, Some(until), &Progress::start())
    }

    fn learned(refutation: &Refutation) -> Vec<Vec<i32>> {
        refutation.log.clauses.iter().skip(refutation.log.axioms).map(<[i32]>::to_vec).collect()
    }

    /// Whether each learned clause follows from its hints alone, and each hint stands before it and was not deleted by then.
    fn follows(refutation: &Refutation) -> bool {
        let log = &refutation.log;
        refutation.hints.iter().enumerate().all(|(place, hints)| {
            let mut holds: Vec<i32> = log.clauses.at(log.axioms + place).iter().map(|literal| -literal).collect();
            let clauses: Vec<&[i32]> = hints.iter().map(|hint| log.clauses.at(*hint as usize)).collect();
            let there = |hint: &u32| (*hint as usize) < log.axioms + place && log.deleted[*hint as usize] > place;
            hints.iter().all(there)
                && (0..=clauses.len()).any(|_| {
                    clauses.iter().any(|clause| {
                        let left: Vec<i32> = clause.iter().copied().filter(|literal| !holds.contains(&-literal)).collect();
                        holds.extend(if left.len() == 1 { left.first() } else { None });
                        left.is_empty()
                    })
                })
        })
    }

    #[test]
    fn what_is_not_needed_goes() {
        let axioms: [&[i32]; 6] = [&[1, 2], &[-1, 2], &[1, -2], &[-1, -2], &[3, 4], &[-3, 4]];
        let refutation = trimmed(4, &log(&axioms, &[&[4, 1], &[2, 4], &[2], &[4], &[]])).unwrap();
        assert_eq!(learned(&refutation), [vec![2], vec![]]);
        assert!(follows(&refutation));
    }

    #[test]
    fn literals_that_are_not_needed_go() {
        let axioms: [&[i32]; 5] = [&[1, 2], &[-1, 2], &[1, -2], &[-1, -2], &[3, 4]];
        assert_eq!(trimmed(4, &log(&axioms, &[&[2, 3, 4]])), Err(Uncut::Unfounded));
        let refutation = trimmed(4, &log(&axioms, &[&[2, 3, 4], &[3, 2], &[-2, 3], &[2]])).unwrap();
        assert_eq!(learned(&refutation), [vec![2], vec![]]);
    }

    #[test]
    fn contradictions_at_once() {
        for axioms in [vec![&[1][..], &[-1]], vec![&[]], vec![&[1, 2][..], &[-1], &[-2]]] {
            let refutation = trimmed(2, &log(&axioms, &[&[2, 1], &[]])).unwrap();
            assert_eq!(learned(&refutation).len(), 1);
            assert!(follows(&refutation));
        }
        assert_eq!(trimmed(2, &log(&[&[1, 2]], &[&[]])), Err(Uncut::Unfounded));
    }

    #[test]
    fn deletions_stay_with_their_clauses() {
        let mut log = log(&[&[1, 2], &[-1, 2], &[1, -2], &[-1, -2]], &[&[2, 3], &[2], &[1], &[]]);
        // two of the axioms once the second clause is learned, and a learned one that goes; the empty clause after all
        log.deleted = vec![2, 2, NEVER, NEVER, 1, NEVER, NEVER, 4];
        let refutation = trimmed(3, &log).unwrap();
        assert_eq!(learned(&refutation), [vec![2], vec![]]);
        assert_eq!(refutation.log.deleted, [1, 1, NEVER, NEVER, NEVER, NEVER]);
        assert!(follows(&refutation));
    }

    #[test]
    fn as_it_is() {
        let mut log = log(&[&[1], &[-1, 2]], &[&[2], &[], &[1, 2]]);
        log.deleted = vec![1, NEVER, NEVER, NEVER, NEVER];
        let refutation = whole(&log);
        assert_eq!((learned(&refutation), &refutation.hints), (vec![vec![2], vec![]], &vec![vec![0, 1], vec![]]));
        assert_eq!(refutation.log.deleted, [1, NEVER, NEVER, NEVER]);
    }

    #[test]
    fn when_it_is_late() {
        let late = |elapsed, done| is_late(Duration::from_secs(elapsed), Duration::from_secs(8), done, 100);
        assert!(late(9, 99) && !late(8, 99) && !late(2, 1));
        assert!(late(3, 18) && !late(3, 19));
    }

    #[test]
    fn the_time_is_over() {
        let many: Vec<Vec<i32>> = (1..300).map(|variable| vec![-variable, variable + 1]).collect();
        let axioms: Vec<&[i32]> = [&[1][..], &[-300]].into_iter().chain(many.iter().map(Vec::as_slice)).collect();
        let units: Vec<Vec<i32>> = (2..=300).map(|variable| vec![variable]).collect();
        let mut log = log(&axioms, &units.iter().map(Vec::as_slice).collect::<Vec<_>>());
        // each is needed, since what it follows from is deleted right after it
        (1..units.len()).for_each(|learned| log.deleted[axioms.len() + learned - 1] = learned + 1);
        (0..many.len()).for_each(|place| log.deleted[2 + place] = place + 1);
        log.deleted[0] = 1;
        let late = trim(300, &log, Some(Instant::now()), &Progress::start());
        assert_eq!(late, Err(Uncut::Late));
        assert_eq!(trim(300, &log, None, &Progress::start()).map(|cut| cut.hints.len()), Ok(300));
    }
}
