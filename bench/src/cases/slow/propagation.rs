//! Texts without weights that were made to be slow: propagation that goes through the whole store at every `a`, deletions that look at all
//! nogoods, a store that is closed up again and again, and an `a` that is refused.
//!
//! Once the empty nogood is live every `a` is accepted, so that any nogoods can be put into the store; then it is deleted. Most programs
//! have the rule `1 :- not 1.`, whose body is named by the first number above the atoms.

use super::{Goal, Input, Writing};
use crate::cases::completion::{definition_words, nogood_words};
use inputs::lines::{self, Line};
use inputs::rules::{choice, constraint, normal};
use inputs::ROOM;

/// The name of the body where 1 is the only atom, and the first name after it.
const BODY: i32 = 2;
const FIRST: i32 = 3;

/// The largest variable.
const LARGEST: i32 = 8_191;

/// The words that are left for a few short nogoods.
const SPARE: usize = 16;

/// The literals of a long definition.
const MOST: i32 = 61;

/// Where a program has more atoms, they go up to this one.
const ATOMS: i32 = 4_000;

pub fn inputs() -> Vec<Input> {
    let known = [definitions(), far_end()].map(|input| input.with_goal(Goal::Milliseconds(150)));
    let others = [
        against(),
        tree("tree-1", 1),
        tree("tree-61", MOST as usize),
        watches(),
        root_large(),
        root_again(),
        root_waits(),
        missing(),
        equal(),
        closing(),
        closing_and_moving(),
        refused(),
    ];
    let others = others.map(|input| input.with_goal(Goal::Milliseconds(500)));
    [Vec::from(known), others.into(), long_stores()].concat()
}

/// An input on the program that is refuted, with so many atoms.
fn refuted(name: &str, atoms: i32, writing: &Writing) -> Input {
    let more = if atoms > 1 { vec![choice(&[atoms], &[])] } else { Vec::new() };
    Input::of(name, &[vec![normal(1, &[-1])], more].concat(), &writing.lines)
}

impl Writing {
    /// The completion of the program that is refuted, with so many atoms.
    fn completed(atoms: i32) -> Writing {
        let name = atoms + 1;
        let mut writing = Writing::empty();
        writing.adds(Line::of(b'b', &[name, -1]), definition_words(&[-1]));
        writing.adds(Line::of(b'c', &[name, 1]), nogood_words(2));
        writing.adds(Line::of(b's', &[1, name]), nogood_words(2));
        writing
    }

    /// An `a` line; whether it fits.
    fn refutes(&mut self, literals: &[i32]) -> bool {
        self.adds(Line::of(b'a', literals), nogood_words(literals.len()))
    }

    /// What is written in between makes any nogoods live.
    fn freely(mut self, write: impl FnOnce(&mut Writing)) -> Writing {
        self.refutes(&[1]);
        self.refutes(&[]);
        write(&mut self);
        self.deletes(&[]);
        self.deletes(&[1]);
        self
    }

    /// Definitions by `e` or `b`, while they fit with so many words to spare; the last name.
    fn defines(&mut self, lines: impl IntoIterator<Item = Line>, spare: usize) -> i32 {
        let mut last = 0;
        for line in lines {
            let (name, words) = (line.numbers[0], definition_words(&line.numbers[1..]));
            if self.words + words + spare > ROOM || !self.adds(line, words) {
                break;
            }
            last = name;
        }
        last
    }

    /// A chain of names that fills the store, each equal to the one before it; the last name.
    fn chain(&mut self, start: i32) -> i32 {
        self.defines(lines::chain(start, FIRST, LARGEST), SPARE)
    }

    /// `c` lines of constraints whose bodies have these names.
    fn completes(&mut self, names: &[i32]) {
        for &name in names {
            self.adds(Line::of(b'c', &[name]), nogood_words(1));
        }
    }

    /// Pairs of an addition and a deletion until the text is full.
    fn pairs(mut self, literals: &[i32]) -> Writing {
        while self.refutes(literals) && self.deletes(literals) {}
        self
    }
}

/// Definitions of up to 61 literals, each name over those before it. The last one is true, which gives all others, and the first is in
/// conflict. Then pairs `a 0`, `d 0`.
fn definitions() -> Input {
    let mut writing = Writing::completed(1);
    let over_those_before = |name: i32| Line::with(b'e', name, &((name - MOST).max(BODY)..name).collect::<Vec<_>>());
    let last = writing.defines((FIRST..).map(over_those_before), SPARE);
    let writing = writing.freely(|writing| {
        writing.refutes(&[-last]);
    });
    refuted("definitions-61", 1, &writing.pairs(&[]))
}

/// A chain of names, of which the last is false: that is in conflict at the first. Then pairs `a 0`, `d 0`.
fn far_end() -> Input {
    let mut writing = Writing::completed(1);
    let last = writing.chain(BODY);
    writing.refutes(&[last]);
    refuted("chain-far-end", 1, &writing.pairs(&[]))
}

/// The chain with pairs of the last name, which goes back to the first against the order of the store.
fn against() -> Input {
    let mut writing = Writing::completed(1);
    let last = writing.chain(BODY);
    refuted("chain-against", 1, &writing.pairs(&[last]))
}

/// Definitions of 61 atoms each, as many as fit with so many words more for each. No two are over the same atom.
fn defined_apart(writing: &mut Writing, more: usize) -> Vec<Line> {
    let atoms = |place: i32| (FIRST + MOST * place..FIRST + MOST * (place + 1)).collect::<Vec<_>>();
    let line = |place: i32| Line::with(b'e', ATOMS + 2 + place, &atoms(place));
    let count = (ROOM - writing.words - 100) / (definition_words(&atoms(0)) + more);
    let lines: Vec<Line> = (0..count as i32).map(line).collect();
    writing.defines(lines.clone(), 0);
    lines
}

/// Atom 1 gives the names of all definitions and these their atoms; so many of each give one more literal, and these are in conflict.
fn tree(name: &str, needed: usize) -> Input {
    let mut writing = Writing::completed(ATOMS);
    let lines = defined_apart(&mut writing, nogood_words(2) + nogood_words(needed + 1));
    let given: Vec<i32> = (0..lines.len() as i32).map(|place| ATOMS - place).collect();
    let writing = writing.freely(|writing| {
        for (line, given) in lines.iter().zip(&given) {
            writing.refutes(&[1, -line.numbers[0]]);
            writing.refutes(&[&line.numbers[1..=needed], &[*given]].concat());
        }
        writing.refutes(&given.iter().map(|given| -given).collect::<Vec<_>>());
        // with this one it would be in conflict at once
        writing.deletes(&[1, ATOMS + 1]);
    });
    refuted(name, ATOMS, &writing.pairs(&[1]))
}

/// The names of the nogoods that a loop of one atom has.
const NAMES: i32 = 400;

/// As many `l` nogoods of 400 names as fit. The names become false one after another from either end, in turn: a watch on a literal that
/// is looked for from the nogood's front goes through it again at each.
fn watches() -> Input {
    let (head, other) = (1, 2);
    let mut rules = vec![constraint(&[other]), constraint(&[-other]), normal(head, &[head])];
    rules.extend((0..NAMES).map(|place| normal(head, &[FIRST + place])));
    let names: Vec<i32> = (0..NAMES).map(|place| FIRST + NAMES + 2 + place).collect();
    let (ends, constraints) = ([names[0], names[names.len() - 1]], [FIRST + NAMES, FIRST + NAMES + 1]);
    let mut writing = Writing::empty();
    writing.defines([Line::of(b'b', &[constraints[0], other]), Line::of(b'b', &[constraints[1], -other])], 0);
    writing.completes(&constraints);
    writing.refutes(&[]);
    writing.defines(names.iter().map(|name| Line::of(b'b', &[*name, name - NAMES - 2])), 0);
    for pair in names.windows(2) {
        writing.refutes(&[-pair[0], pair[1]]);
        writing.refutes(&[-pair[1], pair[0]]);
    }
    for end in ends {
        writing.refutes(&[-head, -end]);
    }
    let words = nogood_words(1 + names.len());
    while writing.words + words + SPARE <= ROOM && writing.adds(Line::of(b'l', &[head]), words) {}
    for nogood in [&constraints[..1], &constraints[1..], &[]] {
        writing.deletes(nogood);
    }
    while ends.iter().all(|end| writing.refutes(&[-end]) && writing.deletes(&[-end])) {}
    Input::of("watches-400", &rules, &writing.lines)
}

/// 2,500 facts, and pairs of an atom that two constraints refute without them.
fn root_large() -> Input {
    let rules = [choice(&[1, 2], &[]), constraint(&[1, 2]), constraint(&[1, -2])];
    let mut writing = Writing::empty();
    writing.defines([Line::of(b'b', &[3, 1, 2]), Line::of(b'b', &[4, 1, -2])], 0);
    writing.completes(&[3, 4]);
    writing.defines((5..2_505).map(|name| Line::of(b'e', &[name])), SPARE);
    Input::of("root-2500", &rules, &writing.pairs(&[1]).lines)
}

/// A chain of names that are all true since the first is. Each pair adds once more that it is, and deletes the older.
fn root_again() -> Input {
    let mut writing = Writing::completed(1);
    writing.chain(1);
    let writing = writing.freely(|writing| {
        writing.refutes(&[-1]);
        // with these it would be in conflict
        writing.deletes(&[-1, -BODY]);
        writing.deletes(&[1, BODY]);
    });
    refuted("root-again", 1, &writing.pairs(&[-1]))
}

/// Definitions of the same 61 atoms, which are all true since the first is, and an atom that makes all names true: the nogoods of the definitions
/// need not be looked at again while the atoms are. In turn once more that the first is true and the deletion of the older, which takes all of
/// them away, and a pair of the other atom.
fn root_waits() -> Input {
    let (other, atoms) = (BODY, FIRST + MOST - 1);
    let mut writing = Writing::completed(atoms);
    let first = atoms + 2;
    let spare = SPARE + nogood_words(2) * (3 * MOST as usize);
    let last = writing.defines((first..).map(|name| Line::with(b'e', name, &(FIRST..=atoms).collect::<Vec<_>>())), spare);
    let mut writing = writing.freely(|writing| {
        for atom in FIRST + 1..=atoms {
            writing.refutes(&[FIRST, -atom]);
        }
        for name in first..=last {
            writing.refutes(&[other, -name]);
        }
        writing.refutes(&[first, 1]);
        writing.refutes(&[first, -1]);
        writing.refutes(&[-FIRST]);
    });
    let nogoods = [-FIRST, other];
    while nogoods.iter().all(|literal| writing.refutes(&[*literal]) && writing.deletes(&[*literal])) {}
    refuted("root-waits", atoms, &writing)
}

/// Nogoods of two literals, and deletions of what is not there.
fn missing() -> Input {
    let pair = |place: i32| (FIRST + place / 50 % 50, FIRST + 50 + place % 50);
    let writing = Writing::completed(ATOMS).freely(|writing| {
        for (one, other) in (0..2_300).map(pair) {
            writing.refutes(&[one, -other]);
        }
        let mut deletions = (0..3_900).map(pair).map(|(one, other)| Line::of(b'd', &[one, other]));
        while deletions.next().is_some_and(|line| writing.adds(line, 0)) {}
    });
    refuted("missing", ATOMS, &writing)
}

/// As many equal nogoods as there can be, then the deletion of each.
fn equal() -> Input {
    let mut writing = equals();
    let others = Writing::completed(1).words;
    while writing.words > others && writing.deletes(&[1]) {}
    refuted("equal", 1, &writing)
}

/// The store full of equal nogoods.
fn equals() -> Writing {
    Writing::completed(1).freely(|writing| while writing.refutes(&[1]) {})
}

/// The store full but for a few words, so that an addition takes what the deletion before it has left: the store is closed up at each. It
/// is filled with definitions of the same 61 atoms, which take few bytes.
fn closing() -> Input {
    let atoms = FIRST + MOST - 1;
    let mut writing = Writing::completed(atoms);
    let last = writing.defines((atoms + 2..).map(|name| Line::with(b'e', name, &(FIRST..=atoms).collect::<Vec<_>>())), SPARE);
    writing.defines((last + 1..).map(|name| Line::of(b'e', &[name])), nogood_words(1));
    refuted("closing-up", atoms, &writing.pairs(&[1]))
}

/// The store full of equal nogoods, and pairs of a deletion of the oldest and an addition: all words move at each.
fn closing_and_moving() -> Input {
    let mut writing = equals();
    while writing.words + nogood_words(1) <= ROOM && writing.refutes(&[1]) {}
    while writing.deletes(&[1]) && writing.refutes(&[1]) {}
    refuted("closing-up-all", 1, &writing)
}

/// A chain of single nogoods against the order of the store, without a conflict at its end.
fn refused() -> Input {
    let mut last = FIRST;
    let mut writing = Writing::completed(LARGEST - 1).freely(|writing| {
        while writing.words + SPARE <= ROOM && writing.refutes(&[last + 1, -last]) {
            last += 1;
        }
    });
    writing.refutes(&[last]);
    refuted("refused-chain", LARGEST - 1, &writing)
}

/// The names and the pairs of the chain that takes more than 16,384 words.
const LONG: i32 = 3_000;
const FEW: usize = 10;

/// A longer store: with a chain that takes no more of it than before, and with one that does.
fn long_stores() -> Vec<Input> {
    let within = Input { name: String::from("long-store-within"), store: 4 * ROOM, ..against() };
    let mut lines = Writing::completed(1).lines;
    lines.extend(lines::chain(BODY, FIRST, FIRST + LONG));
    for _ in 0..FEW {
        lines.extend([b'a', b'd'].map(|letter| Line::of(letter, &[FIRST + LONG])));
    }
    let past = Input { store: 4 * ROOM, ..Input::of("long-store-past", &[normal(1, &[-1])], &lines) };
    vec![within, past]
}

#[cfg(test)]
mod tests {
    use super::*;
    use crate::unverified::check;

    /// Every text is gone through, but for the one that is to be refused.
    #[test]
    fn none_is_refused_early() {
        for input in inputs() {
            let verdict = check(&input.texts.program, &input.texts.proof, ROOM, input.store).unwrap().to_string();
            let refused = input.name == "refused-chain";
            assert_eq!(verdict.starts_with("refused"), refused, "{}: {verdict}", input.name);
            assert_eq!(verdict.starts_with("refused proof 33"), refused, "{}: {verdict}", input.name);
        }
    }
}
