//! The seven steps with their questions 26 to 33 and 56, over the three things that document 01 names. The rules are the plain ones: "`b`,
//! `c`, `s` and `l` use those bodies".

use std::collections::BTreeSet;

use super::by_variable;
use super::closure::closure;
use super::lines::Line;
use super::loops::is_loop;
use super::program::{Program, Rule};

/// "Each live nogood carries the number of the step that added it", and "a deletion now only marks its nogood dead"
#[derive(Clone, Debug, PartialEq, Eq)]
pub struct Stored {
    pub origin: usize,
    pub dead: bool,
    pub literals: Vec<i32>,
}

impl Stored {
    /// "as a word before its count", negated where it is dead; then "the literal count, then literals ascending by variable"
    fn words(&self) -> Vec<i32> {
        let origin = self.origin as i32;
        [&[if self.dead { -origin } else { origin }, self.literals.len() as i32], &self.literals[..]].concat()
    }
}

/// "the live nogoods oldest first, the known variables, and which rule body has which name", and the number of steps done. The dead nogoods
/// stand among the live ones until the store is closed up.
#[derive(Clone, Debug)]
pub struct State {
    pub stored: Vec<Stored>,
    pub known: BTreeSet<i32>,
    pub names: Vec<(i32, Vec<i32>)>,
    pub steps: usize,
}

impl State {
    /// "At the start there are no nogoods and no names, and the atoms alone are known."
    pub fn start(program: &Program) -> State {
        State { stored: Vec::new(), known: (1..=program.atoms).collect(), names: Vec::new(), steps: 0 }
    }

    pub fn name_of(&self, body: &[i32]) -> Option<i32> {
        self.names.iter().find(|(_, named)| named == body).map(|(name, _)| *name)
    }

    pub fn body_named(&self, name: i32) -> Option<&[i32]> {
        self.names.iter().find(|(given, _)| *given == name).map(|(_, body)| body.as_slice())
    }

    /// The live nogoods, oldest first.
    pub fn live(&self) -> Vec<&[i32]> {
        self.stored.iter().filter(|stored| !stored.dead).map(|stored| stored.literals.as_slice()).collect()
    }

    /// The dead nogoods that still stand in the store.
    pub fn dead(&self) -> Vec<&[i32]> {
        self.stored.iter().filter(|stored| stored.dead).map(|stored| stored.literals.as_slice()).collect()
    }

    pub fn has_empty(&self) -> bool {
        self.live().iter().any(|literals| literals.is_empty())
    }

    /// What question 34 counts: two words more than the literals for each live nogood. It "still counts live words only".
    pub fn live_words(&self) -> usize {
        self.live().iter().map(|literals| 2 + literals.len()).sum()
    }

    /// The words that are used, those of the dead included.
    pub fn used_words(&self) -> usize {
        self.stored.iter().map(|stored| 2 + stored.literals.len()).sum()
    }

    /// "The store is closed up, live nogoods in their order and 0 after them"
    pub fn close_up(&mut self) {
        self.stored.retain(|stored| !stored.dead);
    }

    /// Every word of the store up to the last that is used.
    pub fn store_words(&self) -> Vec<i32> {
        self.stored.iter().flat_map(Stored::words).collect()
    }

    /// A nogood of the step that is being taken.
    fn add(&mut self, literals: &[i32]) {
        self.stored.push(Stored { origin: self.steps + 1, dead: false, literals: by_variable(literals) });
    }
}

/// Puts questions 26 to 33 and 56 to the step and, where all are passed, takes it; the error is the refusal's number. A step counts whatever
/// its letter, "also those that take nothing away".
pub fn step(program: &Program, state: &mut State, line: &Line) -> Result<(), u8> {
    take(program, state, line)?;
    state.steps += 1;
    Ok(())
}

fn take(program: &Program, state: &mut State, line: &Line) -> Result<(), u8> {
    let introduces = line.letter == b'b' || line.letter == b'e';
    let cited = if introduces { &line.numbers[1..] } else { &line.numbers[..] };
    if !cited.iter().all(|number| state.known.contains(&number.abs())) {
        return Err(26);
    }
    if introduces && state.known.contains(&line.numbers[0]) {
        return Err(27);
    }
    match line.letter {
        b'b' => name_body(program, state, line.numbers[0], cited),
        b'e' => extend(state, line.numbers[0], cited),
        b'c' => complete(program, state, cited),
        b's' => support(program, state, cited),
        b'l' => exclude_loop(program, state, cited),
        b'a' => derive(state, cited),
        _ => delete(state, cited),
    }
}

/// "n names the rule body whose literal set is L; constraint bodies count. Each body is named once."
fn name_body(program: &Program, state: &mut State, name: i32, literals: &[i32]) -> Result<(), u8> {
    let body = by_variable(literals);
    if !program.plain.iter().any(|rule| rule.body == body) || state.name_of(&body).is_some() {
        return Err(28);
    }
    define(state, name, &body);
    state.names.push((name, body));
    Ok(())
}

/// "n is fresh. Adds the same nogoods for a free L."
fn extend(state: &mut State, name: i32, literals: &[i32]) -> Result<(), u8> {
    define(state, name, &by_variable(literals));
    Ok(())
}

/// "Adds -n with L, then for each literal of L, ascending by variable, n with its complement."
fn define(state: &mut State, name: i32, literals: &[i32]) {
    state.known.insert(name);
    let mut whole = literals.to_vec();
    whole.push(-name);
    state.add(&whole);
    for literal in literals {
        state.add(&[name, -literal]);
    }
}

/// "some normal rule has the body named n and head h, or no head"
fn complete(program: &Program, state: &mut State, numbers: &[i32]) -> Result<(), u8> {
    let body = state.body_named(numbers[0]).ok_or(29)?;
    let heads = &numbers[1..];
    let fits = |rule: &Rule| !rule.choice && rule.body == body && rule.heads == heads;
    if heads.len() > 1 || !program.plain.iter().any(fits) {
        return Err(29);
    }
    let mut nogood = vec![numbers[0]];
    nogood.extend(heads.iter().map(|head| -head));
    state.add(&nogood);
    Ok(())
}

/// "h is an atom, never a name; the n are the names of exactly the different bodies of all rules, choice included, with h in the head"
fn support(program: &Program, state: &mut State, numbers: &[i32]) -> Result<(), u8> {
    let atom = numbers[0];
    if atom > program.atoms {
        return Err(30);
    }
    let bodies: BTreeSet<&Vec<i32>> = program.plain.iter().filter(|rule| rule.heads.contains(&atom)).map(|rule| &rule.body).collect();
    let wanted: Option<BTreeSet<i32>> = bodies.iter().map(|body| state.name_of(body)).collect();
    let given: BTreeSet<i32> = numbers[1..].iter().copied().collect();
    if wanted != Some(given) {
        return Err(30);
    }
    let mut nogood = vec![atom];
    nogood.extend(numbers[1..].iter().map(|name| -name));
    state.add(&nogood);
    Ok(())
}

/// "External bodies are the different bodies of rules with a head in U and no positive atom in U."
pub fn external_bodies(program: &Program, atoms: &[i32]) -> BTreeSet<Vec<i32>> {
    let is_external =
        |rule: &&Rule| rule.heads.iter().any(|head| atoms.contains(head)) && !rule.positive().any(|atom| atoms.contains(&atom));
    program.plain.iter().filter(is_external).map(|rule| rule.body.clone()).collect()
}

/// "Adds the first h with minus the name of each." "A set that is no loop is refused with 56, asked right after question 31."
fn exclude_loop(program: &Program, state: &mut State, atoms: &[i32]) -> Result<(), u8> {
    if atoms.iter().any(|atom| *atom > program.atoms) {
        return Err(31);
    }
    if !is_loop(&program.plain, atoms) {
        return Err(56);
    }
    let mut nogood = vec![atoms[0]];
    for body in external_bodies(program, atoms) {
        nogood.push(-state.name_of(&body).ok_or(32)?);
    }
    state.add(&nogood);
    Ok(())
}

/// "Accepted exactly when A has a literal and its complement, or the empty nogood is live. Adds L."
fn derive(state: &mut State, literals: &[i32]) -> Result<(), u8> {
    if !state.has_empty() && !closure(&state.live(), literals).contradictory() {
        return Err(33);
    }
    state.add(literals);
    Ok(())
}

/// "removes the oldest live nogood equal to L as a set; none equal, nothing changes"; "the oldest equal set, whatever its origin". It is
/// marked dead, and a dead one is passed over.
fn delete(state: &mut State, literals: &[i32]) -> Result<(), u8> {
    let wanted = by_variable(literals);
    if let Some(oldest) = state.stored.iter_mut().find(|stored| !stored.dead && stored.literals == wanted) {
        oldest.dead = true;
    }
    Ok(())
}
