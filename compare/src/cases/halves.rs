//! Random splits: programs without an answer set, one of their atoms, and a refutation of each half with lines put in that it does not need.

use std::collections::{BTreeMap, BTreeSet};

use inputs::lines::line_of;
use inputs::programs::{self, weight_body};
use inputs::random::Random;
use inputs::rules::{choice, constraint, largest_atom, normal, program_text, Rule};

use super::changes;
use super::refutations::{known_literals, refute, Author, Found};
use crate::reference::lines::{lines_of, Line};
use crate::reference::merge::{demanding, Split};
use crate::reference::program::{read, Program};
use crate::reference::{LARGEST, LINE_LIMIT};

/// How often another program is tried where a half of one is not refuted.
const TRIES: usize = 100;

/// A split whose halves are refuted; nothing where none is found.
pub fn split(random: &mut Random) -> Option<Split> {
    (0..TRIES).find_map(|_| split_of(&any_rules(random), random))
}

/// Small programs of every flavour, now and then with weights, and some that take a longer search.
pub fn any_rules(random: &mut Random) -> Vec<Rule> {
    let mut rules = match random.below(60) {
        0 => return programs::pigeons(2),
        1 => return programs::crowded(random),
        2..=16 => programs::weights(random),
        _ => programs::small(random),
    };
    if random.percent(20) {
        programs::weigh(&mut rules, random);
    }
    if random.percent(10) {
        programs::scatter(&mut rules, random);
    }
    rules
}

fn split_of(rules: &[Rule], random: &mut Random) -> Option<Split> {
    let atom = random.between(1, largest_atom(rules).max(1));
    let mut rules = rules.to_vec();
    if random.percent(50) {
        let place = random.below(rules.len() + 1);
        rules.insert(place, with_added_body(atom, random));
    }
    let text = program_text(&rules);
    let program = read(&text, usize::MAX).ok()?;
    let first = half(&program, atom, random)?;
    let second = half(&program, -atom, random)?;
    Some(Split { program: text, atom: atom as u64, first, second })
}

/// A rule that has the body of an added constraint, plain or among the minimal sets of weights.
fn with_added_body(atom: i32, random: &mut Random) -> Rule {
    let literal = random.signed(atom);
    let head = random.between(1, atom);
    let mut rule = match random.below(3) {
        0 => constraint(&[literal]),
        1 => normal(head, &[literal]),
        _ => choice(&[head], &[literal]),
    };
    if random.percent(30) {
        rule.body = weight_body(&[literal, atom + 1, atom + 2], random);
    }
    rule
}

/// A proof for the program with the constraint that demands the literal.
fn half(program: &Program, literal: i32, random: &mut Random) -> Option<Vec<u8>> {
    refutation(&demanding(program, literal), random)
}

/// A proof for a program, with lines put in and other names; nothing where the search finds none.
pub fn refutation(program: &Program, random: &mut Random) -> Option<Vec<u8>> {
    let largest = *random.pick(&[LARGEST, program.atoms + 60, program.atoms + 60]);
    let mut author = Author { largest, ..Author::of(program) };
    let at_first = if program.plain.len() > 100 { 0 } else { *random.pick(&[100, 100, 60, 0]) };
    if refute(&mut author, random, at_first) != Found::Refutation {
        return None;
    }
    let mut text = author.text();
    if random.percent(70) {
        text = with_more(program, &text, random);
    }
    Some(if random.percent(80) { with_other_names(&text, program.atoms, random) } else { text })
}

/// The names that the lines introduce.
fn introduced(lines: &[Line]) -> BTreeSet<i32> {
    lines.iter().filter(|line| b"be".contains(&line.letter)).map(|line| line.numbers[0]).collect()
}

/// The proof with other names, in any order and with gaps between them and after N.
fn with_other_names(text: &[u8], atoms: i32, random: &mut Random) -> Vec<u8> {
    let lines = lines_of(text).unwrap_or_default();
    let names = introduced(&lines);
    let span = (names.len() * random.between(1, 4) as usize).min((LARGEST - atoms) as usize);
    let others = random.different(names.len(), span.max(1) as i32);
    let renaming: BTreeMap<i32, i32> = names.into_iter().zip(others.into_iter().map(|number| atoms + number)).collect();
    let renamed = |number: &i32| renaming.get(&number.abs()).map_or(*number, |name| name * number.signum());
    let line_text = |line: &Line| line_of(line.letter, &line.numbers.iter().map(renamed).collect::<Vec<_>>()).into_bytes();
    lines.iter().flat_map(line_text).collect()
}

/// The proof with lines put in between its own and after them.
pub fn with_more(wider: &Program, text: &[u8], random: &mut Random) -> Vec<u8> {
    let lines = lines_of(text).unwrap_or_default();
    let later = introduced(&lines);
    let mut author = Author::of(wider);
    let share = *random.pick(&[5, 15, 40]);
    for line in lines {
        while random.percent(share) {
            put_in(&mut author, &later, random);
        }
        let _ = author.write(line.letter, &line.numbers);
    }
    for _ in 0..random.below(4) {
        put_in(&mut author, &later, random);
    }
    author.text()
}

/// An extension, a deletion of nothing, or a live nogood once more, as it is or with further literals; of two equal ones the older may go.
fn put_in(author: &mut Author, later: &BTreeSet<i32>, random: &mut Random) {
    let live: Vec<Vec<i32>> = author.state.live().into_iter().map(<[i32]>::to_vec).collect();
    match random.below(6) {
        0 | 1 => {
            let name = author.fresh(random);
            let free = (name..=LARGEST).find(|number| !later.contains(number) && !author.state.known.contains(number));
            let numbers = [vec![free.unwrap_or(name)], known_literals(author, random, 4)].concat();
            let _ = author.write(b'e', &numbers);
        }
        2 => {
            let numbers = known_literals(author, random, 4);
            let equal = |nogood: &Vec<i32>| nogood.len() == numbers.len() && numbers.iter().all(|literal| nogood.contains(literal));
            if !live.iter().any(equal) {
                let _ = author.write(b'd', &numbers);
            }
        }
        _ if live.is_empty() => {}
        kind => add_again(author, kind == 3, random.pick(&live).clone(), random),
    }
}

fn add_again(author: &mut Author, weakened: bool, mut nogood: Vec<i32>, random: &mut Random) {
    if weakened {
        let others = known_literals(author, random, 5);
        let new = |literal: &i32| !nogood.contains(literal) && !nogood.contains(&-literal);
        let others: Vec<i32> = others.into_iter().filter(new).collect();
        nogood.extend(others);
    }
    random.shuffle(&mut nogood);
    if nogood.len() <= LINE_LIMIT && author.write(b'a', &nogood).is_ok() && random.percent(30) {
        let _ = author.write(b'd', &nogood);
    }
}

/// The split with one of its texts changed, another atom, the halves exchanged, one of them cut short, or its last nogood deleted.
pub fn damaged(split: &Split, random: &mut Random) -> Split {
    let mut other = split.clone();
    match random.below(10) {
        0..=2 => other.first = changes::changed(&split.first, random),
        3..=5 => other.second = changes::changed(&split.second, random),
        6 => other.program = changes::changed(&split.program, random),
        7 => other.atom = *random.pick(&[0, 1, 2, split.atom + 1, split.atom + 5, 8_191, 1 << 32 | split.atom, u64::MAX]),
        8 => std::mem::swap(&mut other.first, &mut other.second),
        _ => {
            let half = if random.percent(50) { &mut other.first } else { &mut other.second };
            half.extend(*random.pick(&[&b"d 0\n"[..], b"d 0\nd 0\n", b"a 0\nd 0\n", b"a 1 0\n", b"a -1 0\n", b"x"]));
        }
    }
    other
}

#[cfg(test)]
mod tests {
    use super::*;
    use crate::cases::merges::PLENTY;
    use crate::reference::check::{check, Verdict};
    use crate::reference::merge::{merge, Answer, Turn};

    /// Whatever is merged is accepted for the program alone, and every turn of a line is met.
    #[test]
    fn merged_proofs_are_accepted() {
        let mut turns = [0; 8];
        for index in 0..60 {
            let split = split(&mut Random::of(1, "splits", index)).expect("some program has no answer set");
            let merging = merge(&split, PLENTY);
            let Answer::Merged(bytes) = merging.answer else { panic!("{index}: {:?}", merging.answer) };
            let ending = check(&split.program, &merging.output[..bytes], PLENTY.table, PLENTY.store);
            assert!(matches!(ending.verdict, Verdict::Inconsistent(_)), "{index}: {:?}", ending.verdict);
            merging.turns.iter().for_each(|turn| turns[*turn as usize] += 1);
        }
        for turn in [Turn::OnlyAllowedByAdded, Turn::SharedBody, Turn::Renamed, Turn::ByExtension, Turn::Widened, Turn::BothWays] {
            assert!(turns[turn as usize] > 10, "{turn:?}: {turns:?}");
        }
    }

    #[test]
    fn damage_is_met() {
        let (mut merged, mut refused) = (0, 0);
        for index in 0..40 {
            let mut random = Random::of(1, "damage", index);
            let split = split(&mut random).expect("some program has no answer set");
            match merge(&damaged(&split, &mut random), PLENTY).answer {
                Answer::Merged(_) => merged += 1,
                _ => refused += 1,
            }
        }
        assert!(merged > 2 && refused > 15, "{merged} {refused}");
    }
}
