//! What is missing of a step that the check refuses, by the question that it is refused by. This is for people, and decides nothing.

use aspdrupe::ProofQuestion;

use super::replay::Replay;
use super::step::{sorted, Step};
use super::wording::Wording;
use crate::locate;

/// The most of a kind that are told.
const MOST: usize = 5;

/// A refused step, and what it stands in.
pub struct Refused<'a> {
    pub question: ProofQuestion,
    pub step: &'a Step,
    pub wording: &'a Wording<'a>,
    pub replay: &'a Replay<'a>,
    /// The proof behind the step.
    pub rest: &'a [u8],
    /// The words of the store, where a number was told.
    pub store: usize,
}

impl Refused<'_> {
    /// What is missing; what an addition lacks is told elsewhere.
    pub fn missing(&self) -> Vec<String> {
        match self.question {
            ProofQuestion::Known => self.unknown(),
            ProofQuestion::Fresh => self.taken(),
            ProofQuestion::Body => self.no_body(),
            ProofQuestion::Completion => self.no_completion(),
            ProofQuestion::Support => self.no_support(),
            ProofQuestion::Atoms => self.no_atoms(&self.step.numbers),
            ProofQuestion::Loop => self.no_loop(),
            ProofQuestion::Externals => self.no_externals(),
            ProofQuestion::Store => self.no_room(),
            _ => vec![String::from(self.question.mend())],
        }
    }

    fn literal(&self, literal: i32) -> String {
        self.wording.literal(literal, self.replay)
    }

    fn set(&self, literals: &[i32]) -> String {
        self.wording.set(literals, self.replay)
    }

    /// The first rule with a body, in words.
    pub fn rule_with(&self, body: &[i32]) -> String {
        self.wording.rules_with(body).first().map_or(String::new(), |rule| self.wording.rule(*rule))
    }

    fn unknown(&self) -> Vec<String> {
        let own = usize::from(self.step.introduced().is_some());
        let unknown =
            self.step.numbers.iter().skip(own).map(|number| number.saturating_abs()).filter(|number| !self.replay.is_known(*number));
        let told = |variable: i32| {
            let later = self.rest.split(|byte| *byte == b'\n').position(|line| locate::introduced(line) == Some(i64::from(variable)));
            let later =
                later.map_or(String::new(), |lines| format!("; step {} introduces it, behind this one", self.replay.steps + 2 + lines));
            let atoms = self.replay.completion.atoms;
            format!("{variable} is not known: the atoms are 1 to {atoms}, and no step before introduces it{later}")
        };
        unknown.map(told).take(MOST).collect()
    }

    fn taken(&self) -> Vec<String> {
        let Some((name, _)) = self.step.introduced() else { return Vec::new() };
        let by = self.replay.names.get(&name).map(|known| format!("step {} introduced {}", known.step, self.literal(name)));
        vec![by.unwrap_or_else(|| format!("{name} is an atom of the program, {}", self.literal(name)))]
    }

    fn no_body(&self) -> Vec<String> {
        let body = sorted(self.step.numbers.iter().skip(1).copied());
        if let Some(name) = self.replay.name_of(&body) {
            let step = self.replay.names.get(&name).map_or(0, |known| known.step);
            return vec![format!("the body has a name, {}, by step {step}: {}", self.literal(name), self.rule_with(&body))];
        }
        let apart = |one: &[i32], other: &[i32]| one.iter().filter(|literal| !other.contains(literal)).copied().collect::<Vec<i32>>();
        let distance = |other: &&Vec<i32>| apart(&body, other).len() + apart(other, &body).len();
        let Some(closest) = self.replay.completion.bodies.iter().min_by_key(distance) else {
            return vec![String::from("the program has no rules")];
        };
        let mut told = vec![format!("no rule has the body {}; closest is {}", self.set(&body), self.rule_with(closest))];
        let lines = [("the rule lacks", apart(&body, closest)), ("the step lacks", apart(closest, &body))];
        told.extend(
            lines.iter().filter(|(_, literals)| !literals.is_empty()).map(|(what, literals)| format!("{what} {}", self.set(literals))),
        );
        told
    }

    fn no_completion(&self) -> Vec<String> {
        let Some((&name, heads)) = self.step.numbers.split_first() else { return Vec::new() };
        let Some(known) = self.replay.names.get(&name).filter(|known| known.of_body) else {
            return vec![format!("{} is the name of no rule's body", self.literal(name))];
        };
        if heads.len() > 1 {
            return vec![String::from("a `c` line has a body's name and at most one head")];
        }
        let rules = self.wording.rules_with(&known.literals);
        let wanted = heads.first().map_or(String::from("no head"), |head| format!("the head {}", self.literal(*head)));
        let mut told = vec![format!("no normal rule has that body and {wanted}; with the body:")];
        told.extend(rules.iter().take(MOST).map(|rule| {
            let why = if self.wording.rules[*rule].choice { " (a choice, which forces nothing)" } else { "" };
            format!("{}{why}", self.wording.rule(*rule))
        }));
        told
    }

    fn no_support(&self) -> Vec<String> {
        let Some((&atom, given)) = self.step.numbers.split_first() else { return Vec::new() };
        if !self.replay.is_atom(atom) {
            return self.no_atoms(&[atom]);
        }
        let (mut told, mut wanted) = (Vec::new(), Vec::new());
        for body in self.replay.completion.bodies_of(atom).map(|body| &self.replay.completion.bodies[body]) {
            match self.replay.name_of(body) {
                None => told.push(format!("the body {} has no name yet: {}", self.set(body), self.rule_with(body))),
                Some(name) if !given.contains(&name) => told.push(format!("{} is missing: {}", self.literal(name), self.rule_with(body))),
                Some(_) => {}
            }
            wanted.extend(self.replay.name_of(body));
        }
        let more = given.iter().filter(|name| !wanted.contains(name));
        told.extend(
            more.map(|name| format!("{} is the name of no body of a rule with {} in the head", self.literal(*name), self.literal(atom))),
        );
        told
    }

    fn no_atoms(&self, numbers: &[i32]) -> Vec<String> {
        let names = numbers.iter().filter(|number| !self.replay.is_atom(**number));
        names.take(MOST).map(|name| format!("{} is no atom of the program", self.literal(*name))).collect()
    }

    fn no_loop(&self) -> Vec<String> {
        let set = &self.step.numbers;
        let Some(&first) = set.first() else { return Vec::new() };
        let [reached, reaching] = [true, false].map(|forward| self.reached(first, forward));
        let none = |from: i32, to: i32| format!("no edges inside the set lead from {} to {}", self.literal(from), self.literal(to));
        let forward = set.iter().filter(|atom| !reached.contains(atom)).map(|atom| none(first, *atom));
        let back = set.iter().filter(|atom| !reaching.contains(atom)).map(|atom| none(*atom, first));
        let mut told: Vec<String> = forward.chain(back).collect();
        told.dedup();
        told.truncate(MOST);
        told
    }

    /// The atoms of the line that one of them reaches by one or more edges inside, or that reach it.
    fn reached(&self, from: i32, forward: bool) -> Vec<i32> {
        let set = &self.step.numbers;
        let completion = self.replay.completion;
        let edges: Vec<(i32, i32)> = set
            .iter()
            .flat_map(|head| {
                completion.bodies_of(*head).flat_map(move |body| completion.bodies[body].iter().map(move |atom| (*atom, *head)))
            })
            .filter(|(atom, _)| set.contains(atom))
            .map(|(atom, head)| if forward { (atom, head) } else { (head, atom) })
            .collect();
        let mut reached: Vec<i32> = edges.iter().filter(|(atom, _)| *atom == from).map(|(_, to)| *to).collect();
        let mut next = 0;
        while let Some(&atom) = reached.get(next) {
            next += 1;
            let new: Vec<i32> = edges.iter().filter(|(of, to)| *of == atom && !reached.contains(to)).map(|(_, to)| *to).collect();
            new.into_iter().for_each(|to| {
                if !reached.contains(&to) {
                    reached.push(to);
                }
            });
        }
        reached
    }

    fn no_externals(&self) -> Vec<String> {
        let completion = self.replay.completion;
        let bodies = completion.external_bodies(&self.step.numbers).into_iter().map(|body| &completion.bodies[body]);
        let unnamed = bodies.filter(|body| self.replay.name_of(body).is_none());
        unnamed.map(|body| format!("the body {} has no name yet: {}", self.set(body), self.rule_with(body))).collect()
    }

    fn no_room(&self) -> Vec<String> {
        let adds: usize = self.replay.nogoods(self.step).iter().map(|nogood| 2 + nogood.len()).sum();
        let (live, store) = (self.replay.words, self.store);
        vec![format!(
            "the live nogoods take {live} of the store's {store} words, and the step adds {adds}: {} are missing",
            (live + adds).saturating_sub(store)
        )]
    }
}
