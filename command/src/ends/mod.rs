//! `prove --split D`: a program is split on up to D atoms, the ends are solved side by side, and their proofs are merged into one by the library.
//! Where the merged text would be too long, the ends' own proofs and the tree are what is kept.

mod choose;
mod kept;
mod solve;

use aspdrupe::{MergeQuestion, Merging};

use crate::arguments::Words;
use crate::certify::completion::Completion;
use crate::certify::{timed, Answer, Certifier, Limits, Proof, Refuted, Task};
use crate::files::TEXT_LIMIT;
use crate::library::{self, Checked};
use crate::outcome::Failure;
use crate::progress::Progress;
use crate::rules::rules;
use crate::tree::{demands, sides_of, MOST_SPLITS};
use crate::{arguments, constrained};
pub use kept::{Ends, KEPT};
use solve::{solve, Solved};

/// The most processes at a time.
const MOST_JOBS: usize = 1_024;

/// The most rules of a program, and the bytes of a constraint's line and the words of it in the table.
const MOST_RULES: usize = 1_024;
const LINE: usize = b"1 0 0 0 1 -8191\n".len();
const WORDS: usize = 5;

/// Words of a store that hold the nogoods of every text within the limit that has no `l` line with many external bodies.
const LARGE_STORE: usize = 4 * TEXT_LIMIT;

/// What `--split` and `--jobs` say.
pub struct Split {
    depth: usize,
    jobs: usize,
}

/// What a program that was split comes to.
pub enum Divided {
    Answer(Answer),
    Ends(Ends),
}

/// What is asked for; none without `--split`.
pub fn asked(words: &Words) -> Result<Option<Split>, Failure> {
    let jobs = words.count("--jobs", MOST_JOBS, "processes")?;
    let Some(depth) = words.count("--split", MOST_SPLITS, "splits")? else {
        return if jobs.is_some() { Err(Failure::misuse("--jobs goes with --split")) } else { Ok(None) };
    };
    if depth == 0 || jobs == Some(0) {
        return Err(Failure::misuse("--split and --jobs take numbers from 1 on"));
    }
    if let Some(path) = words.output("-o").filter(|path| path.exists() && !path.is_dir()) {
        return Err(Failure::misuse(format!("{} is no folder, which -o names with --split", path.display())));
    }
    let cores = std::thread::available_parallelism().map_or(1, usize::from);
    Ok(Some(Split { depth, jobs: jobs.unwrap_or(cores) }))
}

impl Split {
    /// The certified answer of a program.
    pub fn answer(&self, text: &[u8], certifier: &mut Certifier, limits: Limits, progress: &Progress) -> Result<Divided, Failure> {
        let task = match certifier.task(text)? {
            Ok(task) => task,
            Err(refusal) => return Ok(Divided::Answer(Answer::Refused(refusal))),
        };
        let tree = self.tree(&task);
        if tree == [0] {
            return certifier.answer(text).map(Divided::Answer);
        }
        let sides = sides_of(&mut tree.iter().copied(), &[]);
        let texts: Vec<Vec<u8>> = sides.iter().map(|side| constrained::text(&task.text, &demands(side))).collect();
        // The constraints of a path count for no limit of the program's own.
        let table = limits.table.saturating_add(WORDS * MOST_SPLITS);
        let (solved, work) = solve(texts, Limits { table, ..limits }, self.jobs, progress)?;
        certifier.take(&work.times, work.calls, &work.loops);
        match solved {
            Solved::Set(set) => {
                let tested = certifier.tested(text, &set)?;
                let tested = tested.ok_or_else(|| Failure::misuse("the answer set of an end is none of the program"))?;
                Ok(Divided::Answer(Answer::Set(tested)))
            }
            Solved::Ends(ends) => refuted(task.text, tree, sides, ends, certifier, limits),
        }
    }

    /// The tree, with no more constraints on a path than the program has room for.
    fn tree(&self, task: &Task) -> Vec<u16> {
        let room = MOST_RULES.saturating_sub(task.program.rules).min(TEXT_LIMIT.saturating_sub(task.text.len()) / LINE);
        if room < self.depth {
            crate::say(&format!("the program has room for {room} constraints more, and so for no more splits on a path"));
        }
        let rules = rules(&task.program);
        choose::tree(&Completion::of(&rules, task.program.atoms), &rules, self.depth.min(room))
    }
}

/// What the ends come to, none of which has an answer set.
fn refuted(
    program: Vec<u8>,
    tree: Vec<u16>,
    sides: Vec<Vec<i32>>,
    ends: Vec<Result<Refuted, String>>,
    certifier: &mut Certifier,
    limits: Limits,
) -> Result<Divided, Failure> {
    let count = ends.len();
    let mut accepted = Vec::new();
    for (place, end) in ends.into_iter().enumerate() {
        match end {
            Ok(refuted) if refuted.counts().is_some() => accepted.push(refuted),
            end => {
                let why = end.map_or_else(|why| why, |refuted| format!("the check of its proof says {}", told(&refuted)));
                return Ok(Divided::Answer(Answer::Undecided(format!(
                    "end {} of {count} has no proof that is accepted: {why}",
                    place + 1
                ))));
            }
        }
    }
    let merged = timed(&mut certifier.times.checking, || merged(&program, &tree, &accepted, limits))?;
    Ok(match merged {
        Ok((proof, checked)) => Divided::Answer(Answer::Refuted(Refuted { text: program, proof, checked })),
        Err(why) => Divided::Ends(Ends { program, tree, ends: sides.into_iter().zip(accepted).collect(), why }),
    })
}

/// A verdict that is none of 'inconsistent', with what to try.
fn told(refuted: &Refuted) -> String {
    format!("'{}'; it needs a store of {} words", refuted.checked.verdict, refuted.proof.words)
}

/// One proof of the ends' proofs, and what the check says of it; or why there is none.
fn merged(program: &[u8], tree: &[u16], ends: &[Refuted], limits: Limits) -> Result<Result<(Proof, Checked), String>, Failure> {
    let long = ends.iter().filter(|end| end.proof.text.len() > TEXT_LIMIT).count();
    if long > 0 {
        return Ok(Err(format!("the proofs of {long} of the {} ends are beyond the 65,535 bytes that a merge takes", ends.len())));
    }
    let stores = limits.store.map_or(vec![arguments::ROOM, LARGE_STORE], |told| vec![told]);
    let mut refused = MergeQuestion::Store;
    for words in stores {
        let mut store = library::lent(words)?;
        match merge(program, tree, ends, limits.table, &mut store)? {
            Ok(text) => {
                let lines = text.bytes().filter(|byte| *byte == b'\n').count();
                let proof = Proof { text, lines, words: words_of(&store) };
                let checked = library::check(program, proof.text.as_bytes(), limits.table, Some(words))?;
                return Ok(Ok((proof, checked)));
            }
            Err(question) => refused = question,
        }
        if refused != MergeQuestion::Store {
            break;
        }
    }
    Ok(Err(format!("the merge is refused with {}: {}", refused.number(), refused)))
}

/// The library's merge, whose store is as the check of the merged text leaves it.
fn merge(
    program: &[u8],
    tree: &[u16],
    ends: &[Refuted],
    table: usize,
    store: &mut [i32],
) -> Result<Result<String, MergeQuestion>, Failure> {
    let texts: Vec<u8> = ends.iter().flat_map(|end| end.proof.text.bytes()).collect();
    let lengths: Vec<u64> = ends.iter().map(|end| end.proof.text.len() as u64).collect();
    let mut output = vec![0; TEXT_LIMIT];
    match aspdrupe::merge_tree(program, tree, &texts, &lengths, &mut library::lent(table)?, store, &mut output)? {
        Merging::Merged(bytes) => {
            output.truncate(bytes);
            let text = String::from_utf8(output).map_err(|_| Failure::misuse("the merged text is none"))?;
            Ok(Ok(text))
        }
        Merging::RefusedProgram(refusal) => Err(Failure::refused(format!("the program is refused: {refusal}"))),
        Merging::Refused(question) => Ok(Err(question)),
    }
}

/// The words of a store that are in use.
fn words_of(store: &[i32]) -> usize {
    let mut at = 0;
    while let Some([origin, count]) = store.get(at..at + 2) {
        if *origin == 0 {
            break;
        }
        at += 2 + count.unsigned_abs() as usize;
    }
    at
}

#[cfg(test)]
mod tests {
    use super::*;

    #[test]
    fn words_in_use() {
        assert_eq!(words_of(&[]), 0);
        assert_eq!(words_of(&[0, 0, 0]), 0);
        assert_eq!(words_of(&[1, 2, -1, 2, -3, 0, 4, 0, 0, 0]), 8);
        assert_eq!(words_of(&[1, 1, 5]), 3);
    }
}
