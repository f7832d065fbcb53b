//! The proof of a refutation, and where it is long the shortest of several refutations, as far as there is time for it: shortening takes a share
//! of the time that solving took.

use std::time::{Duration, Instant};

use super::clauses::Log;
use super::completion::Completion;
use super::solver::{self, Found};
use super::trim::{self, Refutation, Uncut};
use super::write::{self, Deletions, Proof};
use super::{timed, Times};
use crate::arguments::ROOM;
use crate::files::TEXT_LIMIT;
use crate::outcome::Failure;
use crate::progress::{Part, Progress};

/// Shortening takes as long as solving took, or this where that is more.
const LEAST: Duration = Duration::from_secs(1);

/// A proof of so many bytes is short enough; others are tried for a longer one.
const SHORT: usize = 4_096;

/// A proof of so many bytes will not come to fit a text by another try.
const HOPELESS: usize = 4 * TEXT_LIMIT;

/// The options of the tries after the first: other orders of the variables and other first signs.
const TRIES: [&[&str]; 4] = [&["--phase=0"], &["--reverse=1"], &["--reverse=1", "--phase=0"], &["--bump=0"]];

/// A proof, or a reason why none can be written.
pub type Written = Result<Proof, String>;

/// The shortest proof that is found, the first from this log. A proof within a text's limit is for a store of so many words, where a number is
/// told, or of as many as `verdict` has; a longer one for as many as are told.
pub fn shortest(
    completion: &Completion,
    log: &Log,
    store: Option<usize>,
    progress: &Progress,
    times: &mut Times,
) -> Result<Written, Failure> {
    let until = Instant::now() + times.solving.max(LEAST);
    progress.begin(Part::Shortening);
    let refutation = timed(&mut times.trimming, || first(completion, log, store, until, progress))?;
    let mut best = written(completion, &refutation, store);
    let (_, too_large, bytes) = rank(&best, store);
    if bytes > HOPELESS || best.is_ok() && !too_large && bytes <= SHORT {
        return Ok(best);
    }
    for options in TRIES {
        let left = until.saturating_duration_since(Instant::now());
        if left.is_zero() {
            break;
        }
        progress.begin(Part::Solving);
        let clauses = completion.clauses();
        let found = timed(&mut times.solving, || solver::solve(completion.variables(), clauses, options, Some(left), progress));
        // Another cadical may not know an option.
        let Ok(Found::Refutation(log)) = found else { continue };
        progress.begin(Part::Shortening);
        let trimmed = timed(&mut times.trimming, || trim::trim(completion.variables(), &log, Some(until), progress));
        let Ok(refutation) = trimmed else { continue };
        let other = written(completion, &refutation, store);
        if rank(&other, store) < rank(&best, store) {
            best = other;
        }
    }
    Ok(best)
}

/// The first refutation, cut down where there is time for it. One that is not cut down takes every name and every line of the completion, and
/// more words: where it cannot be written for the store told, it is cut down all the same.
fn first(completion: &Completion, log: &Log, store: Option<usize>, until: Instant, progress: &Progress) -> Result<Refutation, Failure> {
    let trimmed = match trim::trim(completion.variables(), log, Some(until), progress) {
        Err(Uncut::Late) => {
            let whole = trim::whole(log);
            match write::write(completion, &whole, Deletions::Solver, usize::MAX) {
                Ok(proof) if proof.words <= store.unwrap_or(usize::MAX) => Ok(whole),
                _ => trim::trim(completion.variables(), log, None, progress),
            }
        }
        trimmed => trimmed,
    };
    trimmed.map_err(|_| Failure::misuse("cadical's log has a clause that does not follow by propagation"))
}

/// The proof of a refutation: where it is within a text's limit without the solver's deletions, it has none of them.
fn written(completion: &Completion, refutation: &Refutation, store: Option<usize>) -> Written {
    let room = store.unwrap_or(ROOM);
    if least_bytes(refutation) <= TEXT_LIMIT {
        let plain = write::write(completion, refutation, Deletions::Few, usize::MAX)?;
        if plain.text.len() <= TEXT_LIMIT && plain.words <= room {
            return Ok(plain);
        }
        let tight = write::write(completion, refutation, Deletions::Few, room)?;
        if tight.text.len() <= TEXT_LIMIT {
            return Ok(tight);
        }
    }
    write::write(completion, refutation, Deletions::Solver, store.unwrap_or(usize::MAX))
}

/// The bytes that the `a` lines of a refutation have at least: a letter, two for each literal, and three at the end.
fn least_bytes(refutation: &Refutation) -> usize {
    refutation.log.clauses.iter().skip(refutation.log.axioms).map(|clause| 4 + 2 * clause.len()).sum()
}

/// The lower the better: whether there is none, whether it is too large for a text or for the store that it has there, and its bytes.
fn rank(written: &Written, store: Option<usize>) -> (bool, bool, usize) {
    let proof = written.as_ref().ok();
    let too_large = proof.is_some_and(|proof| proof.text.len() > TEXT_LIMIT || proof.words > store.unwrap_or(ROOM));
    (proof.is_none(), too_large, proof.map_or(0, |proof| proof.text.len()))
}

#[cfg(test)]
mod tests {
    use super::*;

    #[test]
    fn which_is_better() {
        let proof = |bytes: usize, words| Ok(Proof { text: "a".repeat(bytes), words, lines: 1 });
        let falling = [proof(5, 9), proof(7, 9), proof(3, 10), proof(TEXT_LIMIT + 1, 9), Err(String::from("why"))];
        assert!(falling.windows(2).all(|pair| rank(&pair[0], Some(9)) < rank(&pair[1], Some(9))));
    }
}
