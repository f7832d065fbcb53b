//! A minimal set of constraints with which there is no answer set, by deletion: each is left out in its turn, and stays
//! out where there is still none. A refutation says which others are not needed either. Trials that take long are put
//! off.

use std::collections::{BTreeMap, BTreeSet};
use std::time::Duration;

use super::parts::Parts;
use crate::certify::{Answer, AnswerSet, Certifier, Refuted, Trial};
use crate::outcome::Failure;
use crate::progress::Progress;

/// The time of a trial in the first round, and how much longer it is in each round after it.
const FIRST: Duration = Duration::from_secs(1);
const LONGER: u32 = 4;

/// A minimal set, certified both ways.
pub struct Core {
    /// The constraints, each with an answer set of the program with the others only.
    pub members: Vec<(usize, AnswerSet)>,
    /// The proof that with them there is none.
    pub refuted: Refuted,
}

impl Core {
    pub fn owners(&self) -> BTreeSet<usize> {
        self.members.iter().map(|(owner, _)| *owner).collect()
    }
}

/// What comes of looking for one.
pub enum Minimal {
    Core(Core),
    /// With all constraints there is an answer set, or the proof found is not accepted, or there is no answer.
    Other(Answer),
}

/// There is no answer, for this reason.
fn undecided(why: String) -> Minimal {
    Minimal::Other(Answer::Undecided(why))
}

/// Looks for a minimal set among all constraints of the program, tried in this order.
pub fn minimal(parts: &Parts, order: &[usize], certifier: &mut Certifier, progress: &Progress) -> Result<Minimal, Failure> {
    let mut deletion = Deletion { parts, kept: order.iter().copied().collect(), needed: BTreeMap::new() };
    match certifier.trial(&parts.text(&deletion.kept), None)? {
        Trial::Set(set) => return Ok(Minimal::Other(Answer::Set(set))),
        Trial::Late(why) => return Ok(undecided(why)),
        Trial::None(bodies) => deletion.keep_used(bodies),
    }
    let mut time = FIRST;
    while let Some(late) = deletion.round(order, time, certifier, progress)? {
        if certifier.is_late() {
            let (kept, needed) = (deletion.kept.len(), deletion.needed.len());
            return Ok(undecided(format!("of {kept} constraints that are left {needed} are known to be needed; {late}")));
        }
        time *= LONGER;
    }
    deletion.certified(certifier)
}

/// What is known on the way.
struct Deletion<'a> {
    parts: &'a Parts,
    /// With these there is no answer set.
    kept: BTreeSet<usize>,
    /// Those of them that stay, each with an answer set of the program with the others that were kept then.
    needed: BTreeMap<usize, AnswerSet>,
}

impl Deletion<'_> {
    /// Tries each that is not known to be needed, for so long; why the last one was put off, where one was.
    fn round(
        &mut self,
        order: &[usize],
        time: Duration,
        certifier: &mut Certifier,
        progress: &Progress,
    ) -> Result<Option<String>, Failure> {
        let mut late = None;
        for owner in order {
            if !self.kept.contains(owner) || self.needed.contains_key(owner) {
                continue;
            }
            progress.trial(self.needed.len(), self.kept.len());
            match certifier.trial(&self.parts.text(&self.without(*owner)), Some(time))? {
                Trial::Set(set) => drop(self.needed.insert(*owner, set)),
                Trial::Late(why) => late = Some(why),
                Trial::None(bodies) => {
                    self.kept.remove(owner);
                    self.keep_used(bodies);
                }
            }
        }
        Ok(late)
    }

    fn without(&self, owner: usize) -> BTreeSet<usize> {
        self.kept.iter().copied().filter(|kept| *kept != owner).collect()
    }

    /// Keeps only those with such bodies, where they are known.
    fn keep_used(&mut self, bodies: Option<Vec<Vec<i32>>>) {
        if let Some(bodies) = bodies {
            let used = self.parts.owners_of(&bodies);
            self.kept.retain(|owner| used.contains(owner));
        }
    }

    /// The set that is left, with its certificates: a proof, and for each constraint an answer set of the program
    /// without it. One that was found with more constraints is one with fewer too, and is tested again.
    fn certified(mut self, certifier: &mut Certifier) -> Result<Minimal, Failure> {
        let refuted = match certifier.answer(&self.parts.text(&self.kept))? {
            Answer::Refuted(refuted) if refuted.counts().is_some() => refuted,
            other @ (Answer::Refuted(_) | Answer::Undecided(_)) => return Ok(Minimal::Other(other)),
            Answer::Set(_) | Answer::Refused(_) => return Err(Failure::misuse("cadical refutes a program that has an answer set")),
        };
        let mut members = Vec::new();
        for owner in self.kept.clone() {
            let text = self.parts.text(&self.without(owner));
            let found = self.needed.remove(&owner);
            let tested = found.map(|set| certifier.tested(&text, &set)).transpose()?.flatten();
            let set = match tested {
                Some(set) => set,
                None => match certifier.answer(&text)? {
                    Answer::Set(set) => set,
                    Answer::Undecided(why) => return Ok(undecided(why)),
                    _ => return Err(Failure::misuse("a constraint that was needed is not")),
                },
            };
            members.push((owner, set));
        }
        Ok(Minimal::Core(Core { members, refuted }))
    }
}
