//! Every set of atoms of a small program, tried on the plain rules that it stands for or on its sums as they are, and
//! programs with further constraints.

use inputs::programs;
use inputs::random::Random;
use inputs::rules::Body as Written;

use crate::reference::by_variable;
use crate::reference::models::{answer_set_over, Set};
use crate::reference::program::{largest_atom, Body, InputRule, Program};

/// The most atoms that all sets are tried of, and the most plain rules together for all of them.
const MOST_ATOMS: i32 = 12;
const MOST_RULES: usize = 400_000;

/// Whether all sets of its atoms can be tried.
pub fn is_small(program: &Program) -> bool {
    program.atoms <= MOST_ATOMS && program.plain.len() << program.atoms <= MOST_RULES
}

/// An answer set among all sets of the atoms 1 to N and of two atoms above them.
pub fn answer_set(program: &Program, atoms: i32) -> Option<Set> {
    let mut all: Vec<i32> = (1..=atoms).collect();
    if atoms <= MOST_ATOMS - 4 {
        all.extend([atoms + 1, 5_000]);
    }
    answer_set_over(&program.plain, &all)
}

/// The program with one to three constraints after its rules, over its atoms, their neighbours, and numbers above any variable; some of them
/// have weights.
pub fn with_further_constraints(program: &Program, random: &mut Random) -> Program {
    let mut rules = program.rules.clone();
    for _ in 0..random.between(1, 3) {
        let length = random.below(4);
        let mut literals = random.literals(length, program.atoms + 3);
        if random.percent(20) {
            literals.push(random.signed(5_000));
        }
        let literals = by_variable(&literals);
        let body = match programs::weight_body(&literals, random) {
            Written::Weights { bound, pairs } if random.percent(40) => Body::Weights { bound, pairs },
            _ => Body::Plain(literals),
        };
        rules.push(InputRule { choice: false, heads: Vec::new(), body });
    }
    Program::of(rules)
}

/// Which atoms are in a set, by atom.
pub type Marks = Vec<bool>;

/// Whether a body holds where its positive literals are read in one set and its negated atoms in another.
fn holds(body: &Body, model: &Marks, set: &Marks) -> bool {
    let literal_holds = |literal: i32| if literal > 0 { model[literal as usize] } else { !set[-literal as usize] };
    match body {
        Body::Plain(literals) => literals.iter().all(|literal| literal_holds(*literal)),
        Body::Weights { bound, pairs } => {
            let sum: i32 = pairs.iter().filter(|(literal, _)| literal_holds(*literal)).map(|(_, weight)| weight).sum();
            sum >= *bound
        }
    }
}

/// The least model of the reduct for a set, of rules as they are written: a sum of 20 literals stands for too many
/// plain rules.
fn least_model(rules: &[InputRule], set: &Marks, model: &mut Marks) {
    model.fill(false);
    let mut changed = true;
    while changed {
        changed = false;
        for rule in rules {
            let mut heads =
                rule.heads.iter().map(|head| *head as usize).filter(|head| !model[*head] && (!rule.choice || set[*head])).peekable();
            if heads.peek().is_some() && holds(&rule.body, model, set) {
                let heads: Vec<usize> = heads.collect();
                heads.into_iter().for_each(|head| model[head] = true);
                changed = true;
            }
        }
    }
}

/// Whether no constraint is broken.
fn keeps(rules: &[InputRule], set: &Marks) -> bool {
    rules.iter().all(|rule| rule.choice || !rule.heads.is_empty() || !holds(&rule.body, set, set))
}

/// The atoms up to `old` that are facts, and those that are not and are the head of some rule, each as bits from atom 1
/// on. Every answer set has the first, and no other atoms but of the second.
fn known_and_open(rules: &[InputRule], old: i32) -> (u64, u64) {
    let heads = |of: &dyn Fn(&InputRule) -> bool| {
        let listed = rules.iter().filter(|rule| of(rule)).flat_map(|rule| &rule.heads).filter(|head| **head <= old);
        listed.fold(0, |bits, head| bits | 1_u64 << (head - 1))
    };
    let facts = heads(&|rule| !rule.choice && matches!(&rule.body, Body::Plain(literals) if literals.is_empty()));
    (facts, heads(&|_| true) & !facts)
}

/// Every answer set of a program of whose atoms only those up to `old` are negated or chosen, by its atoms up to there.
/// A set of those decides the reduct, so each is tried with the other atoms that it makes true.
pub fn answer_sets(rules: &[InputRule], old: i32) -> Vec<Marks> {
    let length = 1 + largest_atom(rules).max(old) as usize;
    let (mut set, mut model) = (vec![false; length], vec![false; length]);
    let mut found = Vec::new();
    let (known, open) = known_and_open(rules, old);
    let places: Vec<u32> = (0..64).filter(|place| open >> place & 1 == 1).collect();
    for chosen in 0..1_u64 << places.len() {
        let bits = places.iter().enumerate().fold(known, |bits, (place, atom)| bits | (chosen >> place & 1) << atom);
        set.fill(false);
        (0..old as usize).for_each(|place| set[place + 1] = bits >> place & 1 == 1);
        least_model(rules, &set, &mut model);
        let same = model[..=old as usize] == set[..=old as usize];
        set.clone_from(&model);
        if same && keeps(rules, &set) {
            found.push(set.clone());
        }
    }
    found
}

#[cfg(test)]
mod tests {
    use super::*;
    use crate::families::small_program;
    use crate::reference::models::{every_set, is_answer_set};

    /// The answer sets of rules as they are written are those of the plain rules.
    #[test]
    fn sums_as_they_are() {
        let mut random = Random::from_seed(5);
        for _ in 0..200 {
            let (_, program) = small_program(&mut random);
            let atoms: Vec<i32> = (1..=program.atoms).collect();
            let listed = |marks: Marks| (1..=program.atoms).filter(|atom| marks[*atom as usize]).collect::<Set>();
            let mut found: Vec<Set> = answer_sets(&program.rules, program.atoms).into_iter().map(listed).collect();
            let mut expected: Vec<Set> = every_set(&atoms).filter(|set| is_answer_set(&program.plain, set)).collect();
            found.sort();
            expected.sort();
            assert_eq!(found, expected, "{:?}", program.rules);
        }
    }
}
