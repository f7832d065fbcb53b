//! What is missing of an addition that does not follow: whether it would with nogoods that were deleted, or with lines of the completion that do not
//! stand before it. This is for people, and decides nothing.

use std::collections::HashSet;

use super::chain::LARGEST;
use super::missing::Refused;
use crate::certify::clauses::Log;
use crate::certify::completion::Origin;
use crate::certify::propagation::Checker;

/// The most of a kind that are told.
const MOST: usize = 5;

/// Where a clause comes from that is not live.
enum More {
    /// A deleted nogood.
    Deleted(usize),
    /// A clause of the completion.
    Completion(usize),
}

impl Refused<'_> {
    /// What an addition lacks, where what is assumed and what follows from it is this.
    pub fn lacks(&self, follows: &HashSet<i32>) -> Vec<String> {
        for (deleted, completion) in [(true, false), (false, true), (true, true)] {
            if let Some(used) = self.follows_with(deleted, completion) {
                let mut told = vec![String::from("propagation comes to no conflict; it would with what is missing here:")];
                told.extend(used.iter().map(|more| self.more_text(more)));
                told.dedup();
                return told;
            }
        }
        let mut told =
            vec![String::from(
            "propagation comes to no conflict, nor would it with all that was deleted and the whole completion: an `l` line is missing, or it does not follow",
        )];
        told.extend(self.closest(follows));
        told
    }

    /// The clauses that are not live by which it would follow, where deleted nogoods count, or the completion; none where it would not.
    fn follows_with(&self, deleted: bool, completion: bool) -> Option<Vec<More>> {
        let replay = self.replay;
        let mut log = Log::of(replay.live().map(|place| replay.log.clauses.at(place)));
        let mut more = Vec::new();
        for place in (0..replay.log.clauses.len()).filter(|place| deleted && replay.deleted_by(*place).is_some()) {
            log.learn(replay.log.clauses.at(place).iter().copied());
            more.push(More::Deleted(place));
        }
        for (place, axiom) in replay.completion.axioms.iter().enumerate().filter(|_| completion) {
            log.learn(axiom.clause.iter().map(|literal| literal.signum() * self.number(literal.abs())));
            more.push(More::Completion(place));
        }
        let clause: Vec<i32> = self.step.numbers.iter().map(|literal| -literal).collect();
        let variables = LARGEST + 1 + replay.completion.bodies.len() as i32;
        let (hints, _) = Checker::of(variables, &log, log.learned()).derive(&clause, usize::MAX)?;
        let mut used: Vec<usize> = hints.iter().filter_map(|hint| (*hint as usize).checked_sub(log.axioms)).collect();
        used.sort_unstable();
        used.dedup();
        let mut more: Vec<Option<More>> = more.into_iter().map(Some).collect();
        Some(used.into_iter().filter_map(|place| more[place].take()).collect())
    }

    /// The number of a variable of the completion: an atom's own, the name of a body, and of one without a name a number above all others.
    fn number(&self, variable: i32) -> i32 {
        let completion = self.replay.completion;
        let Some(body) = completion.body_of(variable) else { return variable };
        self.replay.name_of(&completion.bodies[body]).unwrap_or(LARGEST + 1 + body as i32)
    }

    fn more_text(&self, more: &More) -> String {
        let replay = self.replay;
        let completion = replay.completion;
        match more {
            More::Deleted(place) => {
                let nogood = self.wording.set(&replay.nogood(*place), replay);
                format!("{nogood}, of step {}, which step {} deleted", replay.origin(*place), replay.deleted_by(*place).unwrap_or(0))
            }
            More::Completion(axiom) => match &completion.axioms[*axiom].origin {
                Origin::Body(body) => format!("the `b` line of a body: {}", self.rule_with(&completion.bodies[*body])),
                Origin::Completion { body, head } => {
                    let heads: Vec<i32> = head.iter().copied().collect();
                    let rules = self.wording.rules_with(&completion.bodies[*body]);
                    let rule = rules.iter().find(|rule| !self.wording.rules[**rule].choice && self.wording.rules[**rule].heads == heads);
                    format!("the `c` line of {}", rule.map_or(String::new(), |rule| self.wording.rule(*rule)))
                }
                Origin::Support(atom) => format!("the `s` line of {}", self.wording.literal(*atom, replay)),
                Origin::Loop(atoms) => format!("the `l` line of {}", self.wording.set(atoms, replay)),
            },
        }
    }

    /// Live nogoods that would give something if one literal more of them held, those with the fewest literals first.
    fn closest(&self, follows: &HashSet<i32>) -> Vec<String> {
        let open = |nogood: &[i32]| nogood.iter().filter(|literal| !follows.contains(literal)).count();
        let undecided = |nogood: &[i32]| !nogood.iter().any(|literal| follows.contains(&-literal));
        let live = self.replay.live().map(|place| (place, self.replay.nogood(place)));
        let mut near: Vec<(usize, Vec<i32>)> = live.filter(|(_, nogood)| open(nogood) == 2 && undecided(nogood)).collect();
        near.sort_by_key(|(_, nogood)| nogood.len());
        let told = |(place, nogood): &(usize, Vec<i32>)| {
            let left: Vec<i32> = nogood.iter().filter(|literal| !follows.contains(literal)).copied().collect();
            let (nogood, left) = (self.wording.set(nogood, self.replay), self.wording.list(&left, self.replay));
            format!("one literal short: {nogood}, of step {}; open are {left}", self.replay.origin(*place))
        };
        near.iter().take(MOST).map(told).collect()
    }
}
