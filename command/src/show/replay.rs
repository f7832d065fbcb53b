//! The steps of a proof gone through: which nogoods are live and which step added each, what a name stands for, and which body has which name. It
//! is for steps that the check has accepted, by docs/FORMAT.md, and decides nothing.

use std::collections::HashMap;
use std::ops::Range;

use super::step::{sorted, Step};
use crate::certify::clauses::{Finder, Log};
use crate::certify::completion::Completion;

/// What a name stands for, and which step introduced it.
#[derive(Debug)]
pub struct Name {
    pub step: usize,
    pub literals: Vec<i32>,
    /// Whether it is the name of a rule's body.
    pub of_body: bool,
}

pub struct Replay<'a> {
    pub completion: &'a Completion,
    /// The nogoods in the order in which they were added, as clauses, with all signs turned, and which were deleted.
    pub log: Log,
    finder: Finder,
    /// By nogood, the step that added it, and the one that deleted it; 0 while it is live.
    origins: Vec<u32>,
    deleted_by: Vec<u32>,
    pub names: HashMap<i32, Name>,
    body_names: HashMap<Vec<i32>, i32>,
    /// The steps so far.
    pub steps: usize,
    /// The words of the live nogoods.
    pub words: usize,
}

/// What a step does: the nogoods that it adds, and the one that it deletes.
pub struct Effect {
    pub added: Range<usize>,
    pub removed: Option<usize>,
}

impl<'a> Replay<'a> {
    pub fn of(completion: &'a Completion) -> Replay<'a> {
        Replay {
            completion,
            log: Log::default(),
            finder: Finder::default(),
            origins: Vec::new(),
            deleted_by: Vec::new(),
            names: HashMap::new(),
            body_names: HashMap::new(),
            steps: 0,
            words: 0,
        }
    }

    pub fn is_atom(&self, variable: i32) -> bool {
        (1..=self.completion.atoms).contains(&variable)
    }

    pub fn is_known(&self, variable: i32) -> bool {
        self.is_atom(variable) || self.names.contains_key(&variable)
    }

    /// A nogood, ascending by variable.
    pub fn nogood(&self, place: usize) -> Vec<i32> {
        self.log.clauses.at(place).iter().map(|literal| -literal).collect()
    }

    /// The step that added a nogood.
    pub fn origin(&self, place: usize) -> usize {
        self.origins[place] as usize
    }

    /// The step that deleted a nogood; none while it is live.
    pub fn deleted_by(&self, place: usize) -> Option<usize> {
        Some(self.deleted_by[place] as usize).filter(|step| *step > 0)
    }

    /// The name of a rule's body.
    pub fn name_of(&self, body: &[i32]) -> Option<i32> {
        self.body_names.get(body).copied()
    }

    /// The places of the live nogoods, the oldest first.
    pub fn live(&self) -> impl Iterator<Item = usize> + '_ {
        (0..self.origins.len()).filter(|place| self.deleted_by[*place] == 0)
    }

    /// Goes through a step that the check has accepted.
    pub fn go(&mut self, step: &Step) -> Effect {
        self.steps += 1;
        let before = self.log.clauses.len();
        if step.letter == b'd' {
            return self.delete(&step.numbers);
        }
        let nogoods = self.nogoods(step);
        if let Some((name, literals)) = step.introduced() {
            let (literals, of_body) = (sorted(literals.iter().copied()), step.letter == b'b');
            if of_body {
                self.body_names.insert(literals.clone(), name);
            }
            self.names.insert(name, Name { step: self.steps, literals, of_body });
        }
        nogoods.into_iter().for_each(|nogood| self.add(nogood));
        Effect { added: before..self.log.clauses.len(), removed: None }
    }

    fn add(&mut self, nogood: Vec<i32>) {
        self.words += 2 + nogood.len();
        self.log.learn(nogood.into_iter().map(|literal| -literal));
        self.finder.enter(&self.log, self.log.clauses.len() - 1);
        self.origins.push(self.steps as u32);
        self.deleted_by.push(0);
    }

    fn delete(&mut self, numbers: &[i32]) -> Effect {
        let clause: Vec<i32> = numbers.iter().map(|literal| -literal).collect();
        let removed = self.finder.delete(&mut self.log, &clause);
        if let Some(place) = removed {
            self.deleted_by[place] = self.steps as u32;
            self.words -= 2 + numbers.len();
        }
        let end = self.log.clauses.len();
        Effect { added: end..end, removed }
    }

    /// The nogoods that a step adds, in order.
    pub fn nogoods(&self, step: &Step) -> Vec<Vec<i32>> {
        let Some((&first, others)) = step.numbers.split_first() else { return vec![Vec::new()] };
        match step.letter {
            b'b' | b'e' => {
                let whole = sorted(others.iter().copied().chain([-first]));
                let parts = sorted(others.iter().copied()).into_iter().map(|literal| sorted([first, -literal]));
                std::iter::once(whole).chain(parts).collect()
            }
            b'c' | b's' => vec![sorted([first].into_iter().chain(others.iter().map(|other| -other)))],
            b'l' => {
                let bodies = self.completion.external_bodies(&step.numbers);
                let names = bodies.iter().filter_map(|body| self.name_of(&self.completion.bodies[*body]));
                vec![sorted([first].into_iter().chain(names.map(|name| -name)))]
            }
            _ => vec![sorted(step.numbers.iter().copied())],
        }
    }

    /// The live nogoods as the store has them: origin, count, literals.
    pub fn store_words(&self) -> impl Iterator<Item = i32> + '_ {
        self.live().flat_map(|place| {
            let nogood = self.nogood(place);
            [self.origins[place] as i32, nogood.len() as i32].into_iter().chain(nogood)
        })
    }
}

/// Whether a store's live nogoods have these words.
pub fn is_store(store: &[i32], mut words: impl Iterator<Item = i32>) -> bool {
    let mut at = 0;
    while let Some(&origin) = store.get(at).filter(|origin| **origin != 0) {
        let count = store.get(at + 1).map_or(0, |count| count.unsigned_abs() as usize);
        let end = at + 2 + count;
        if origin > 0 && !store.get(at..end).is_some_and(|nogood| nogood.iter().all(|word| words.next() == Some(*word))) {
            return false;
        }
        at = end;
    }
    words.next().is_none()
}

#[cfg(test)]
mod tests {
    use super::*;
    use crate::certify::completion::tests::completion;

    /// The example of docs/FORMAT.md.
    pub const RULES: [&str; 5] = ["1 1 1 1 0 0", "1 0 1 2 0 2 1 -3", "1 0 1 2 0 1 3", "1 0 1 3 0 1 2", "1 0 0 0 1 -2"];
    pub const PROOF: &str =
        "b 4 0\nb 5 1 -3 0\nb 6 3 0\nb 7 2 0\nb 8 -2 0\ne 9 1 2 0\nc 5 2 0\nc 7 3 0\nc 8 0\ns 2 5 6 0\nl 2 3 0\na -1 0\na 0\nd 2 -5 -6 0\n";

    #[test]
    fn the_store_is_that_of_the_check() {
        let program = format!("asp 1 0 0\n{}\n0\n", RULES.join("\n"));
        let completion = completion(&RULES);
        for end in 0..=PROOF.lines().count() {
            let lines: Vec<&str> = PROOF.lines().take(end).collect();
            let text: String = lines.iter().map(|line| format!("{line}\n")).collect();
            let mut replay = Replay::of(&completion);
            for line in &lines {
                replay.go(&Step::of(line.as_bytes()).unwrap());
            }
            let (mut table, mut store) = (vec![0; 100], vec![0; 200]);
            aspdrupe::check_texts(program.as_bytes(), text.as_bytes(), &mut table, &mut store).unwrap();
            assert!(is_store(&store, replay.store_words()), "{end}");
            assert_eq!(replay.store_words().count(), replay.words, "{end}");
            let more: Vec<i32> = replay.store_words().chain([1]).collect();
            assert!(!is_store(&store, more.iter().copied()) && (end == 0 || !is_store(&store, more.into_iter().skip(1))));
        }
    }

    #[test]
    fn names_and_deletions() {
        let completion = completion(&RULES);
        let mut replay = Replay::of(&completion);
        for line in PROOF.lines() {
            replay.go(&Step::of(line.as_bytes()).unwrap());
        }
        assert_eq!((replay.name_of(&[1, -3]), replay.name_of(&[1, 2])), (Some(5), None));
        assert!(replay.is_known(9) && !replay.is_known(10) && !replay.is_atom(4) && !replay.names[&9].of_body);
        let gone: Vec<usize> = (0..replay.log.clauses.len()).filter(|place| replay.deleted_by(*place).is_some()).collect();
        assert_eq!((gone.len(), replay.origin(gone[0]), replay.deleted_by(gone[0])), (1, 10, Some(14)));
        assert_eq!(replay.nogood(gone[0]), [2, -5, -6]);
    }
}
