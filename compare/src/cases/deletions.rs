//! Proofs with as many `d` as `a` lines, in random order: nogoods are added again after their deletion and while an equal one is live, and
//! deleted again where one of them or none is left.

use inputs::random::Random;

use super::guided::{any_step, derivation, extension};
use super::refutations::{known_literals, refute, Author};
use crate::reference::program::Program;
use crate::reference::LINE_LIMIT;

/// The most `a` lines, which are as many as the `d` lines, after a refutation or the first steps.
const MOST: usize = 30;

/// How many first steps there are where nothing is refuted.
const FIRST: usize = 12;

pub fn proof(program: &Program, random: &mut Random) -> Vec<u8> {
    let mut author = Author::of(program);
    if random.percent(30) {
        refute(&mut author, random, 100);
    } else {
        for _ in 0..FIRST {
            let (letter, numbers) = any_step(&author, random);
            write(&mut author, if letter == b'd' { b'e' } else { letter }, &numbers);
        }
    }
    for letter in turns(random) {
        turn(&mut author, letter, random);
    }
    author.text()
}

/// As many `a` as `d`, in random order.
fn turns(random: &mut Random) -> Vec<u8> {
    let mut letters = b"ad".repeat(random.between(1, MOST as i32) as usize);
    random.shuffle(&mut letters);
    letters
}

/// A line with the letter. Where no nogood is live that an addition could follow from, there is a definition first; now and then also where
/// one did not follow.
fn turn(author: &mut Author, letter: u8, random: &mut Random) {
    loop {
        let numbers = if letter == b'a' { addition(author, random) } else { deletion(author, random) };
        if write(author, letter, &numbers) {
            return;
        }
        if author.state.live().is_empty() || random.percent(20) {
            let numbers = extension(author, random);
            write(author, b'e', &numbers);
        }
    }
}

/// Takes the step and writes its line, where it is one that a line can hold and that is accepted.
fn write(author: &mut Author, letter: u8, numbers: &[i32]) -> bool {
    super::guided::well_formed(letter, numbers) && author.write(letter, numbers).is_ok()
}

/// A live nogood once more, as it is or with more literals; a dead one again, which need not follow; or any other that follows.
fn addition(author: &Author, random: &mut Random) -> Vec<i32> {
    let (live, dead) = (author.state.live(), author.state.dead());
    let mut numbers = match random.below(10) {
        0..=3 if !live.is_empty() => random.pick(&live).to_vec(),
        4..=5 if !live.is_empty() => wider(live[random.below(live.len())], known_literals(author, random, 6)),
        6..=7 if !dead.is_empty() => random.pick(&dead).to_vec(),
        _ => derivation(author, random),
    };
    random.shuffle(&mut numbers);
    numbers
}

/// The nogood with the literals of other variables.
fn wider(nogood: &[i32], others: Vec<i32>) -> Vec<i32> {
    let mut numbers = nogood.to_vec();
    numbers.extend(others.into_iter().filter(|other| !nogood.iter().any(|literal| literal.abs() == other.abs())));
    numbers.truncate(LINE_LIMIT);
    numbers
}

/// A live nogood, the oldest or any; a dead one, of which there may be no live one more; or one that was never there.
fn deletion(author: &Author, random: &mut Random) -> Vec<i32> {
    let (live, dead) = (author.state.live(), author.state.dead());
    let mut numbers = match random.below(10) {
        0..=1 if !live.is_empty() => live[0].to_vec(),
        2..=6 if !live.is_empty() => random.pick(&live).to_vec(),
        7..=8 if !dead.is_empty() => random.pick(&dead).to_vec(),
        _ => known_literals(author, random, 3),
    };
    random.shuffle(&mut numbers);
    numbers
}

#[cfg(test)]
mod tests {
    use super::*;
    use crate::reference::program::read;

    #[test]
    fn as_many_of_both() {
        let program = read(b"asp 1 0 0\n1 0 1 1 0 1 -1\n1 1 2 2 3 0 0\n0\n", 100).unwrap();
        let mut dead_twice = 0;
        for index in 0..50 {
            let letters = turns(&mut Random::of(2, "turns", index));
            assert_eq!(letters.iter().filter(|letter| **letter == b'a').count() * 2, letters.len());
            let text = proof(&program, &mut Random::of(2, "deletions", index));
            let lines: Vec<&[u8]> = text.split(|byte| *byte == b'\n').collect();
            let deletions = lines.iter().filter(|line| line.starts_with(b"d"));
            dead_twice += usize::from(deletions.clone().any(|line| deletions.clone().filter(|other| other == &line).count() > 1));
        }
        assert!(dead_twice > 10, "{dead_twice}");
    }
}
