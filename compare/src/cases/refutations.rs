//! A small search that refutes a program and writes its way down as a proof: body names, completion, support, loops where an
//! unfounded set turns up, extensions, learnt nogoods, and deletions of what is no longer needed. Bodies and rules may be brought in all at
//! once, or only some of them at first and the others where the search comes to need them.

use std::collections::BTreeSet;

use inputs::lines::line_of;
use inputs::random::Random;

use crate::reference::closure::closure;
use crate::reference::lines::Line;
use crate::reference::loops::{edges, is_loop, reached, Edges};
use crate::reference::models::{least_model, Set};
use crate::reference::program::{Program, Rule};
use crate::reference::steps::{external_bodies, step, State};
use crate::reference::{LARGEST, LINE_LIMIT};

/// How the search ended.
#[derive(Clone, Debug, PartialEq, Eq)]
pub enum Found {
    Refutation,
    AnswerSet(Set),
    Nothing,
}

impl Found {
    pub fn kind(&self) -> &'static str {
        match self {
            Found::Refutation => "refuted",
            Found::AnswerSet(_) => "answer set",
            Found::Nothing => "given up",
        }
    }
}

/// A proof as it is being written, with the state that its steps have led to.
pub struct Author<'a> {
    pub program: &'a Program,
    pub state: State,
    pub lines: Vec<String>,
    /// The largest number that it takes as a name.
    pub largest: i32,
}

impl<'a> Author<'a> {
    pub fn of(program: &'a Program) -> Author<'a> {
        Author { program, state: State::start(program), lines: Vec::new(), largest: LARGEST }
    }

    /// Takes the step and writes its line, or answers the refusal's number.
    pub fn write(&mut self, letter: u8, numbers: &[i32]) -> Result<(), u8> {
        let line = Line { letter, numbers: numbers.to_vec(), next: 0 };
        step(self.program, &mut self.state, &line)?;
        self.lines.push(line_of(letter, numbers));
        Ok(())
    }

    pub fn text(&self) -> Vec<u8> {
        self.lines.concat().into_bytes()
    }

    /// A number that is no known variable: most often the next one, else any.
    pub fn fresh(&self, random: &mut Random) -> i32 {
        let next = (1..=self.largest).find(|number| !self.state.known.contains(number)).unwrap_or(self.largest);
        let any = random.between(1, self.largest);
        if random.percent(70) || self.state.known.contains(&any) {
            next
        } else {
            any
        }
    }

    /// The body's name, which is introduced where it has none.
    pub fn named(&mut self, random: &mut Random, body: &[i32]) -> Option<i32> {
        if self.state.name_of(body).is_none() {
            let name = self.fresh(random);
            let mut numbers = vec![name];
            numbers.extend(body);
            random.shuffle(&mut numbers[1..]);
            self.write(b'b', &numbers).ok()?;
        }
        self.state.name_of(body)
    }

    /// The support of an atom whose bodies are all named; nothing where a line cannot hold them.
    pub fn write_support(&mut self, random: &mut Random, atom: i32) -> Option<()> {
        let rules = self.program.plain.iter().filter(|rule| rule.heads.contains(&atom));
        let names: BTreeSet<i32> = rules.filter_map(|rule| self.state.name_of(&rule.body)).collect();
        let mut numbers = vec![atom];
        numbers.extend(names);
        random.shuffle(&mut numbers[1..]);
        if numbers.len() > LINE_LIMIT {
            return Some(());
        }
        self.write(b's', &numbers).ok()
    }

    /// Names the body of a plain rule where it has no name, and writes the rule unless it is a choice.
    fn write_rule(&mut self, random: &mut Random, rule: &Rule) -> Option<()> {
        let name = self.named(random, &rule.body)?;
        if rule.choice {
            return Some(());
        }
        let mut numbers = vec![name];
        numbers.extend(&rule.heads);
        self.write(b'c', &numbers).ok()
    }
}

/// The search's most lines.
const PATIENCE: usize = 700;

/// Searches and writes; the proof is in the author, whatever the search found. So many in a hundred plain rules are brought in at the start.
pub fn refute(author: &mut Author, random: &mut Random, at_first: usize) -> Found {
    if write_completion(author, random, at_first).is_none() {
        return Found::Nothing;
    }
    let mut decisions: Vec<i32> = Vec::new();
    while author.lines.len() < PATIENCE {
        if closure(&author.state.live(), &decisions).contradictory() {
            let Some(learnt) = learn(author, random, &decisions) else { return Found::Nothing };
            if learnt.is_empty() {
                return Found::Refutation;
            }
            while learnt.iter().all(|literal| decisions.contains(literal)) {
                decisions.pop();
            }
            sprinkle(author, random);
        } else if let Some(literal) = next_decision(author, random, &decisions) {
            decisions.push(literal);
        } else if let Err(found) = exclude(author, random, &decisions) {
            return found;
        }
    }
    Found::Nothing
}

/// Names bodies and writes completion and support in a random order. An atom with a body that has no name is not supported.
fn write_completion(author: &mut Author, random: &mut Random, at_first: usize) -> Option<()> {
    let program = author.program;
    let mut rules: Vec<usize> = (0..program.plain.len()).collect();
    random.shuffle(&mut rules);
    for index in rules {
        if random.percent(at_first) {
            author.write_rule(random, &program.plain[index])?;
        }
    }
    for atom in 1..=program.atoms {
        let mut rules = program.plain.iter().filter(|rule| rule.heads.contains(&atom));
        if rules.all(|rule| author.state.name_of(&rule.body).is_some()) && random.percent(80) {
            author.write_support(random, atom)?;
        }
    }
    Some(())
}

/// Learns the decisions, or fewer of them that contradict as well.
fn learn(author: &mut Author, random: &mut Random, decisions: &[i32]) -> Option<Vec<i32>> {
    let mut learnt = decisions.to_vec();
    if random.percent(60) {
        for literal in decisions {
            let fewer: Vec<i32> = learnt.iter().copied().filter(|other| other != literal).collect();
            if closure(&author.state.live(), &fewer).contradictory() {
                learnt = fewer;
            }
        }
    }
    if learnt.len() > LINE_LIMIT {
        return None;
    }
    random.shuffle(&mut learnt);
    author.write(b'a', &learnt).ok()?;
    if random.percent(40) {
        forget_weaker(author, &learnt);
    }
    Some(learnt)
}

/// Deletes one live nogood that the learnt one makes superfluous.
fn forget_weaker(author: &mut Author, learnt: &[i32]) {
    let weaker = |nogood: &&[i32]| nogood.len() > learnt.len() && learnt.iter().all(|literal| nogood.contains(literal));
    let found = author.state.live().into_iter().find(weaker).map(<[i32]>::to_vec);
    if let Some(nogood) = found.filter(|nogood| nogood.len() <= LINE_LIMIT) {
        let _ = author.write(b'd', &nogood);
    }
}

/// Now and then an extension, a nogood twice and one of them deleted, or a deletion of nothing.
fn sprinkle(author: &mut Author, random: &mut Random) {
    match random.below(12) {
        0 => extend(author, random),
        1 => repeat(author, random),
        2 => {
            let numbers = known_literals(author, random, 4);
            if !author.state.live().iter().any(|nogood| nogood.len() == numbers.len()) {
                let _ = author.write(b'd', &numbers);
            }
        }
        _ => {}
    }
}

/// Steps after the empty nogood: deletions, additions that only it lets pass, and now and then its own deletion.
pub fn go_on(author: &mut Author, random: &mut Random) {
    let deletions = if random.percent(50) { author.state.live().len() } else { random.below(6) };
    let mut nogoods: Vec<Vec<i32>> = author.state.live().into_iter().filter(|nogood| !nogood.is_empty()).map(<[i32]>::to_vec).collect();
    random.shuffle(&mut nogoods);
    for nogood in nogoods.iter().take(deletions).filter(|nogood| nogood.len() <= LINE_LIMIT) {
        let _ = author.write(b'd', nogood);
    }
    for _ in 0..random.below(4) {
        let numbers = known_literals(author, random, 4);
        let _ = author.write(b'a', &numbers);
        sprinkle(author, random);
    }
    if random.percent(20) {
        let _ = author.write(b'd', &[]);
    }
    if random.percent(30) {
        let numbers = known_literals(author, random, 3);
        author.lines.push(line_of(b'a', &numbers));
    }
}

pub fn known_literals(author: &Author, random: &mut Random, most: usize) -> Vec<i32> {
    let known: Vec<i32> = author.state.known.iter().copied().collect();
    let mut numbers: Vec<i32> = Vec::new();
    for _ in 0..random.below(most + 1) {
        if known.is_empty() {
            break;
        }
        let variable = *random.pick(&known);
        if !numbers.iter().any(|number| number.abs() == variable) {
            numbers.push(random.signed(variable));
        }
    }
    numbers
}

fn extend(author: &mut Author, random: &mut Random) {
    let mut numbers = vec![author.fresh(random)];
    numbers.extend(known_literals(author, random, 3));
    let _ = author.write(b'e', &numbers);
}

/// Adds a live nogood once more and deletes the older of the two.
fn repeat(author: &mut Author, random: &mut Random) {
    if author.state.live().is_empty() {
        return;
    }
    let mut nogood = random.pick(&author.state.live()).to_vec();
    random.shuffle(&mut nogood);
    if nogood.len() <= LINE_LIMIT && author.write(b'a', &nogood).is_ok() && random.percent(70) {
        random.shuffle(&mut nogood);
        let _ = author.write(b'd', &nogood);
    }
}

/// A known variable that is still open, with a random sign.
fn next_decision(author: &Author, random: &mut Random, decisions: &[i32]) -> Option<i32> {
    let reached = closure(&author.state.live(), decisions);
    let open: Vec<i32> = author.state.known.iter().copied().filter(|v| !reached.holds(*v) && !reached.holds(-v)).collect();
    if open.is_empty() {
        return None;
    }
    let variable = if random.percent(60) { open[0] } else { *random.pick(&open) };
    Some(random.signed(variable))
}

/// At an assignment of all variables: the answer set; or a rule that it breaks, or a loop or a support that excludes atoms which nothing
/// founds, is written.
fn exclude(author: &mut Author, random: &mut Random, decisions: &[i32]) -> Result<(), Found> {
    let reached = closure(&author.state.live(), decisions);
    let set: Set = (1..=author.program.atoms).filter(|atom| reached.holds(*atom)).collect();
    let holds = |literal: &i32| set.contains(&literal.abs()) == (*literal > 0);
    let broken = |rule: &&Rule| !rule.choice && rule.body.iter().all(holds) && !rule.heads.iter().any(holds);
    if let Some(rule) = author.program.plain.iter().find(broken) {
        let written = author.write_rule(random, rule);
        assert!(written.is_some(), "a rule of the search was refused");
        return Ok(());
    }
    let least = least_model(&author.program.plain, &set);
    let unfounded: Set = set.difference(&least).copied().collect();
    if unfounded.is_empty() {
        return Err(Found::AnswerSet(set));
    }
    exclude_unfounded(author, random, &unfounded).ok_or(Found::Nothing)
}

/// A loop among the atoms that no edge comes into from the others, or the support of a single atom that is none; either is broken. Nothing
/// where a line cannot hold it.
fn exclude_unfounded(author: &mut Author, random: &mut Random, unfounded: &Set) -> Option<()> {
    let edges = edges(&author.program.plain, unfounded);
    let mut atoms: Vec<i32> = unfounded.iter().copied().collect();
    random.shuffle(&mut atoms);
    let mut first = first_of(&edges, &atoms);
    random.shuffle(&mut first);
    for body in external_bodies(author.program, &first) {
        author.named(random, &body)?;
    }
    if is_loop(&author.program.plain, &first) {
        let written = author.write(b'l', &first);
        assert!(written.is_ok() || first.len() > LINE_LIMIT, "a loop step of the search was refused");
        return written.ok();
    }
    let lines = author.lines.len();
    author.write_support(random, first[0])?;
    (author.lines.len() > lines).then_some(())
}

/// From an atom back to those that it cannot reach in turn, as long as there are any: the atoms that reach each other where this ends, or
/// the single atom.
fn first_of(edges: &Edges, atoms: &[i32]) -> Vec<i32> {
    let reaches = |from: i32, to: i32| reached(edges, from).contains(&to);
    let mut at = atoms[0];
    while let Some(before) = atoms.iter().find(|atom| reaches(**atom, at) && !reaches(at, **atom)) {
        at = *before;
    }
    atoms.iter().copied().filter(|atom| *atom == at || reaches(*atom, at)).collect()
}

#[cfg(test)]
mod tests {
    use super::*;
    use inputs::programs;
    use inputs::rules::program_text;

    use crate::reference::models::answer_set_over;

    #[test]
    fn the_search_agrees_with_all_sets() {
        let mut refuted = 0;
        for index in 0..300 {
            let mut random = Random::of(1, "search", index);
            let rules = if index % 2 == 0 { programs::small(&mut random) } else { programs::weights(&mut random) };
            let text = program_text(&rules);
            let program = crate::reference::program::read(&text, 16_384).unwrap();
            let atoms: Vec<i32> = (1..=program.atoms).collect();
            let mut author = Author::of(&program);
            match refute(&mut author, &mut random, [100, 60, 0][index as usize % 3]) {
                Found::Refutation => {
                    refuted += 1;
                    assert_eq!(answer_set_over(&program.plain, &atoms), None);
                }
                Found::AnswerSet(set) => assert!(crate::reference::models::is_answer_set(&program.plain, &set)),
                Found::Nothing => panic!("gave up on {}", String::from_utf8_lossy(&text)),
            }
        }
        assert!(refuted > 60, "{refuted}");
    }
}
