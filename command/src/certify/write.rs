//! A refutation as a proof text. A line that gives an axiom stands before the first `a` that needs it. A clause of more literals than a line has
//! room for is cut: names of `e` lines stand for parts of it. Nogoods are deleted as the solver deleted its clauses, where that is asked for;
//! and where the store would be too short, those that no later line needs, the longest first.

use std::collections::{HashMap, HashSet};
use std::fmt::Write;

use super::clauses::NEVER;
use super::completion::{Completion, Origin};
use super::trim::Refutation;

/// The largest variable.
const LARGEST: i32 = 8_191;

/// The most numbers of a line.
const MOST_NUMBERS: usize = aspdrupe::MOST_NUMBERS;

/// A proof text, and what it takes.
#[derive(Debug, Default)]
pub struct Proof {
    pub text: String,
    pub lines: usize,
    /// The most words that its live nogoods take at a time.
    pub words: usize,
}

/// Which nogoods are deleted.
#[derive(Debug, Clone, Copy, PartialEq, Eq)]
pub enum Deletions {
    /// None but to make room.
    Few,
    /// Those whose clauses the solver deleted too.
    Solver,
}

/// The proof of a refutation for a store of so many words; a reason where a line that it takes cannot be written.
pub fn write(completion: &Completion, refutation: &Refutation, deletions: Deletions, store: usize) -> Result<Proof, String> {
    let mut writer = Writer::of(completion, refutation, deletions, store);
    for (now, hints) in refutation.hints.iter().enumerate() {
        writer.now = now;
        writer.delete_as_told();
        for hint in hints.iter().filter_map(|hint| completion.axioms.get(*hint as usize)) {
            writer.introduce(&hint.origin)?;
        }
        let clause = refutation.log.clauses.at(completion.axioms.len() + now);
        for variable in clause.iter().map(|literal| literal.abs()) {
            writer.name(variable)?;
        }
        writer.add(completion.axioms.len() + now, clause)?;
    }
    Ok(writer.proof)
}

struct Writer<'a> {
    completion: &'a Completion,
    /// The axioms of each origin.
    axioms: HashMap<&'a Origin, Vec<usize>>,
    /// By clause, axioms before learned ones, the last learned clause that has it as a hint.
    last_use: Vec<Option<usize>>,
    /// The clauses that the solver deleted, the last first, each with how many were learned by then.
    told: Vec<(usize, usize)>,
    store: usize,
    /// The learned clause that is written next.
    now: usize,
    /// The name that is introduced next, the names of bodies, and those of parts of clauses.
    next_name: i32,
    names: HashMap<usize, i32>,
    parts: HashMap<Vec<i32>, i32>,
    introduced: HashSet<&'a Origin>,
    /// By clause, its nogood while that is live.
    live: HashMap<usize, Vec<i32>>,
    words: usize,
    proof: Proof,
}

/// The words of a nogood with so many literals.
fn words_of(literals: usize) -> usize {
    2 + literals
}

impl<'a> Writer<'a> {
    fn of(completion: &'a Completion, refutation: &Refutation, deletions: Deletions, store: usize) -> Writer<'a> {
        let mut axioms: HashMap<&Origin, Vec<usize>> = HashMap::new();
        for (place, axiom) in completion.axioms.iter().enumerate() {
            axioms.entry(&axiom.origin).or_default().push(place);
        }
        // Where it is not said what a clause follows from, all are needed to the end.
        let unsaid = refutation.hints.iter().any(Vec::is_empty);
        let mut last_use = vec![unsaid.then_some(NEVER); refutation.log.clauses.len()];
        for (now, hints) in refutation.hints.iter().enumerate() {
            hints.iter().for_each(|hint| last_use[*hint as usize] = last_use[*hint as usize].max(Some(now)));
        }
        let deleted = |place: usize| Some((refutation.log.deleted[place], place)).filter(|(when, _)| *when != NEVER);
        let mut told: Vec<(usize, usize)> = match deletions {
            Deletions::Few => Vec::new(),
            Deletions::Solver => (0..refutation.log.deleted.len()).filter_map(deleted).collect(),
        };
        told.sort_unstable_by(|one, other| other.cmp(one));
        Writer {
            completion,
            axioms,
            last_use,
            told,
            store,
            now: 0,
            next_name: completion.atoms + 1,
            names: HashMap::new(),
            parts: HashMap::new(),
            introduced: HashSet::new(),
            live: HashMap::new(),
            words: 0,
            proof: Proof::default(),
        }
    }

    /// Deletes the nogoods whose clauses the solver has deleted by now. Of a body that is named later they stay.
    fn delete_as_told(&mut self) {
        while let Some((when, place)) = self.told.pop() {
            if when > self.now {
                self.told.push((when, place));
                return;
            }
            if let Some(nogood) = self.live.remove(&place).filter(|nogood| nogood.len() <= MOST_NUMBERS) {
                self.words -= words_of(nogood.len());
                self.line('d', &nogood);
            }
        }
    }

    /// Writes the line of an origin, once, and before it the definitions of the bodies that it names.
    fn introduce(&mut self, origin: &Origin) -> Result<(), String> {
        let Some((origin, places)) = self.axioms.get_key_value(origin).map(|(origin, places)| (*origin, places.clone())) else {
            return Ok(());
        };
        if !self.introduced.insert(origin) {
            return Ok(());
        }
        if let Some(why) = self.completion.unwritable(origin) {
            return Err(why);
        }
        let (letter, numbers) = match origin {
            Origin::Body(body) => {
                let name = self.fresh_name()?;
                self.names.insert(*body, name);
                ('b', [&[name], &self.completion.bodies[*body][..]].concat())
            }
            Origin::Completion { body, head } => ('c', self.named(&[*body])?.into_iter().chain(*head).collect()),
            Origin::Support(atom) => {
                let bodies: Vec<usize> = self.completion.bodies_of(*atom).collect();
                ('s', [vec![*atom], self.named(&bodies)?].concat())
            }
            Origin::Loop(atoms) => {
                self.named(&self.completion.external_bodies(atoms))?;
                ('l', atoms.clone())
            }
        };
        let nogoods = places.into_iter().map(|place| (place, self.nogood(&self.completion.axioms[place].clause))).collect();
        self.put(letter, &numbers, nogoods);
        Ok(())
    }

    fn fresh_name(&mut self) -> Result<i32, String> {
        if self.next_name > LARGEST {
            return Err(format!(
                "it takes more names than there are numbers between the largest atom and {LARGEST}: shorter sums, or atoms numbered from 1 on"
            ));
        }
        self.next_name += 1;
        Ok(self.next_name - 1)
    }

    /// The names of bodies, defined where they are not yet.
    fn named(&mut self, bodies: &[usize]) -> Result<Vec<i32>, String> {
        bodies.iter().map(|body| self.name(self.completion.variable(*body))).collect()
    }

    /// The variable's number in the proof: an atom's own, or the name of a body.
    fn name(&mut self, variable: i32) -> Result<i32, String> {
        let Some(body) = self.completion.body_of(variable) else { return Ok(variable) };
        self.introduce(&Origin::Body(body))?;
        Ok(self.names.get(&body).copied().unwrap_or(variable))
    }

    /// Writes the `a` line of a learned clause, cut where it is too long for one.
    fn add(&mut self, place: usize, clause: &[i32]) -> Result<(), String> {
        let mut numbers = self.nogood(clause);
        while numbers.len() > MOST_NUMBERS {
            let rest = numbers.split_off(MOST_NUMBERS - 1);
            let name = self.part(numbers)?;
            numbers = [rest, vec![name]].concat();
        }
        self.put('a', &numbers.clone(), vec![(place, numbers)]);
        Ok(())
    }

    /// The name of a part of a nogood, by an `e` line where it is a new one. Its nogoods stay.
    fn part(&mut self, literals: Vec<i32>) -> Result<i32, String> {
        if let Some(name) = self.parts.get(&literals) {
            return Ok(*name);
        }
        let name = self.fresh_name()?;
        self.make_room(words_of(literals.len() + 1) + literals.len() * words_of(2));
        self.line('e', &[&[name], &literals[..]].concat());
        self.parts.insert(literals, name);
        Ok(name)
    }

    /// The nogood of a clause, in the proof's numbers, ascending by variable.
    fn nogood(&self, clause: &[i32]) -> Vec<i32> {
        let number = |variable: i32| self.completion.body_of(variable).and_then(|body| self.names.get(&body).copied()).unwrap_or(variable);
        let mut literals: Vec<i32> = clause.iter().map(|literal| -literal.signum() * number(literal.abs())).collect();
        literals.sort_by_key(|literal| literal.abs());
        literals
    }

    /// Writes a line that adds the nogoods of clauses.
    fn put(&mut self, letter: char, numbers: &[i32], nogoods: Vec<(usize, Vec<i32>)>) {
        self.make_room(nogoods.iter().map(|(_, nogood)| words_of(nogood.len())).sum());
        self.live.extend(nogoods);
        self.line(letter, numbers);
    }

    /// Counts so many words in. Where they do not fit, nogoods are deleted that are needed no more, the longest first.
    fn make_room(&mut self, words: usize) {
        if self.words + words > self.store {
            self.delete_until_they_fit(words);
        }
        self.words += words;
        self.proof.words = self.proof.words.max(self.words);
    }

    fn delete_until_they_fit(&mut self, words: usize) {
        let goes = |place: &usize| self.last_use[*place].is_none_or(|last| last < self.now);
        let idle = self.live.iter().filter(|(place, nogood)| goes(place) && nogood.len() <= MOST_NUMBERS);
        let mut idle: Vec<(usize, usize)> = idle.map(|(place, nogood)| (nogood.len(), *place)).collect();
        // Of equal ones the last that was added goes first.
        idle.sort_unstable();
        while self.words + words > self.store {
            let Some((_, place)) = idle.pop() else { break };
            let Some(nogood) = self.live.remove(&place) else { break };
            self.words -= words_of(nogood.len());
            self.line('d', &nogood);
        }
    }

    fn line(&mut self, letter: char, numbers: &[i32]) {
        self.proof.text.push(letter);
        for number in numbers {
            // A text takes everything.
            let _ = write!(self.proof.text, " {number}");
        }
        self.proof.text += " 0\n";
        self.proof.lines += 1;
    }
}

#[cfg(test)]
mod tests {
    use super::super::completion::tests::completion;
    use super::super::trim::tests::{log, trimmed};
    use super::super::trim::whole;
    use super::*;

    fn axioms(completion: &Completion) -> Vec<&[i32]> {
        completion.axioms.iter().map(|axiom| axiom.clause.as_slice()).collect()
    }

    /// The verdict on a proof of the rules, with a store of so many words.
    fn verdict(rules: &[&str], proof: &Proof, store: usize) -> String {
        let program = format!("asp 1 0 0\n{}\n0\n", rules.join("\n"));
        crate::library::check_texts(program.as_bytes(), proof.text.as_bytes(), 60_000, store).unwrap().to_string()
    }

    /// The refutation of 1 :- not 1, which has 21 words of nogoods.
    fn proof(store: usize) -> Proof {
        let completion = completion(&["1 0 1 1 0 1 -1"]);
        let refutation = trimmed(2, &log(&axioms(&completion), &[&[-1], &[]])).unwrap();
        write(&completion, &refutation, Deletions::Few, store).unwrap()
    }

    #[test]
    fn starred_example_1() {
        let whole = proof(100);
        assert_eq!(whole.text, "b 2 -1 0\ns 1 2 0\na 1 0\nc 2 1 0\na 0\n");
        assert_eq!((whole.lines, whole.words), (5, 21));
    }

    #[test]
    fn deletions_where_the_store_is_short() {
        for store in 0..=21 {
            let short = proof(store);
            assert_eq!(short.text.contains('d'), store < 21, "{store}");
            let verdict = verdict(&["1 0 1 1 0 1 -1"], &short, store.max(short.words));
            assert!(verdict.starts_with("inconsistent"), "{store}: {verdict}");
        }
    }

    // What is not cut down deletes nothing by itself: it is not known what is needed.
    #[test]
    fn no_deletions_where_the_hints_are_unsaid() {
        let completion = completion(&["1 0 1 1 0 1 -1"]);
        let whole = whole(&log(&axioms(&completion), &[&[-1], &[]]));
        let proof = write(&completion, &whole, Deletions::Few, 9).unwrap();
        assert_eq!((proof.text.as_str(), proof.words), ("b 2 -1 0\nc 2 1 0\ns 1 2 0\na 1 0\na 0\n", 21));
    }

    #[test]
    fn deletions_as_the_solver_made_them() {
        let rules = ["1 0 1 1 0 1 -1"];
        let completion = completion(&rules);
        let mut log = log(&axioms(&completion), &[&[-1], &[]]);
        // a clause of the body and that of the support once the first is learned, that of the completion at the end
        log.deleted = vec![NEVER, 1, 2, 1, NEVER, NEVER];
        let refutation = trimmed(2, &log).unwrap();
        let few = write(&completion, &refutation, Deletions::Few, 100).unwrap();
        let told = write(&completion, &refutation, Deletions::Solver, 100).unwrap();
        assert_eq!(few.text, "b 2 -1 0\ns 1 2 0\na 1 0\nc 2 1 0\na 0\n");
        assert_eq!(told.text, "b 2 -1 0\ns 1 2 0\na 1 0\nd 1 2 0\nd 1 -2 0\nc 2 1 0\na 0\n");
        assert_eq!(verdict(&rules, &told, told.words), "inconsistent 1 1 7 4");
    }

    /// A choice of so many atoms that all have to hold and may not.
    fn all_or_none(atoms: i32) -> Vec<String> {
        let list = |from: i32, to: i32| (from..=to).map(|atom| format!(" {atom}")).collect::<String>();
        let halves = [(1, atoms / 2), (atoms / 2 + 1, atoms)];
        let choices = halves.map(|(from, to)| format!("1 1 {}{} 0 0", to - from + 1, list(from, to)));
        let wholes = halves
            .iter()
            .enumerate()
            .map(|(half, (from, to))| format!("1 0 1 {} 0 {}{}", atoms + 1 + half as i32, to - from + 1, list(*from, *to)));
        let demands = (1..=atoms).map(|atom| format!("1 0 0 0 1 -{atom}"));
        choices.into_iter().chain(wholes).chain([format!("1 0 0 0 2 {} {}", atoms + 1, atoms + 2)]).chain(demands).collect()
    }

    #[test]
    fn clauses_that_are_too_long_for_a_line() {
        for atoms in [64, 65, 66, 100, 128] {
            let rules = all_or_none(atoms);
            let rules: Vec<&str> = rules.iter().map(String::as_str).collect();
            let completion = completion(&rules);
            let long: Vec<i32> = (1..=atoms).map(|atom| -atom).collect();
            let proof = write(&completion, &whole(&log(&axioms(&completion), &[&long, &[]])), Deletions::Few, 60_000).unwrap();
            assert_eq!(proof.text.contains("\ne "), atoms > 65, "{atoms}");
            let verdict = verdict(&rules, &proof, proof.words);
            assert!(verdict.starts_with("inconsistent"), "{atoms}: {verdict}");
        }
    }

    #[test]
    fn parts_have_one_name() {
        let atoms = 128;
        let rules = all_or_none(atoms);
        let completion = completion(&rules.iter().map(String::as_str).collect::<Vec<_>>());
        let long: Vec<i32> = (1..=atoms).map(|atom| -atom).collect();
        let proof = write(&completion, &whole(&log(&axioms(&completion), &[&long, &long, &[]])), Deletions::Few, 60_000).unwrap();
        assert_eq!(proof.text.matches("\ne ").count(), 1);
    }

    #[test]
    fn a_line_that_cannot_be_written() {
        let many: Vec<String> = (2..=66).map(|atom| format!("1 0 1 1 0 1 {atom}")).chain([String::from("1 0 0 0 1 -1")]).collect();
        let completion = completion(&many.iter().map(String::as_str).collect::<Vec<_>>());
        let refutation = trimmed(200, &log(&axioms(&completion), &[&[]])).unwrap();
        assert!(write(&completion, &refutation, Deletions::Few, 10_000).unwrap_err().contains("atom 1, which has 65 bodies"));
    }

    #[test]
    fn no_name_is_left() {
        let completion = completion(&["1 0 1 8191 0 1 -8191"]);
        let refutation = trimmed(8_192, &log(&axioms(&completion), &[&[-8_191], &[]])).unwrap();
        assert!(write(&completion, &refutation, Deletions::Few, 10_000).unwrap_err().contains("more names"));
    }
}
