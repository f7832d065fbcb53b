//! Proofs with many deletions.
//!
//! `deletions-front` and `deletions-wide` add nogoods, short or long, and then delete all of them, oldest first. `deletions-mixed` is a
//! refutation with as many deletions as additions, in random order, with the store of all inputs and with one that is just large enough.

use super::completion::{definition_words, nogood_words};
use super::{refutations, Goal, Input};
use inputs::lines::{self, Line};
use inputs::programs;
use inputs::random::Random;
use inputs::rules::{choice, normal};
use inputs::TEXT_LIMIT;

pub fn inputs() -> Vec<Input> {
    let mixed = mixed();
    let tight = Input { name: String::from("deletions-mixed-tight"), store: most_live_words(&mixed.1), ..mixed.0.clone() };
    [front(), wide(), mixed.0, tight].map(|input| input.with_goal(Goal::Ratio(2.0))).into()
}

/// The names of the chain; each takes two nogoods of two literals.
const LINKS: i32 = 1_500;

/// A chain of names, each the one before, and the deletion of its nogoods.
fn front() -> Input {
    let mut lines = lines::chain(1, 2, 1 + LINKS);
    for name in 2..2 + LINKS {
        lines.push(Line::of(b'd', &[name - 1, -name]));
        lines.push(Line::of(b'd', &[1 - name, name]));
    }
    Input::of("deletions-front", &[normal(1, &[-1])], &lines)
}

/// The additions once the empty nogood is live, their literals, and the atoms that these are over.
const ADDITIONS: usize = 400;
const LITERALS: usize = 12;
const ATOMS: i32 = 40;

fn wide() -> Input {
    let mut random = Random::from_seed(7);
    let name = ATOMS + 1;
    let mut lines = vec![Line::of(b'b', &[name, -1]), Line::of(b'c', &[name, 1]), Line::of(b's', &[1, name])];
    lines.extend([Line::of(b'a', &[1]), Line::of(b'a', &[])]);
    let nogoods: Vec<Vec<i32>> = (0..ADDITIONS).map(|_| random.literals(LITERALS, ATOMS)).collect();
    lines.extend(nogoods.iter().map(|literals| Line::of(b'a', literals)));
    lines.extend(nogoods.iter().map(|literals| Line::of(b'd', literals)));
    let others: Vec<i32> = (2..=ATOMS).collect();
    Input::of("deletions-wide", &[normal(1, &[-1]), choice(&others, &[])], &lines)
}

/// The holes of the pigeons that are refuted, and the seed.
const HOLES: i32 = 5;
const SEED: u64 = 5;

/// The input with its lines.
fn mixed() -> (Input, Vec<Line>) {
    let rules = programs::pigeons(HOLES);
    let lines = refutations::refute(&rules, TEXT_LIMIT, SEED).expect("one pigeon has no hole");
    let lines = with_deletions(&lines, &mut Random::from_seed(SEED));
    (Input::of("deletions-mixed", &rules, &lines), lines)
}

/// The refutation with other deletions in place of its own: each nogood of a half is deleted at a random moment once that of the whole is
/// there, and one of the completion at the end, so that there are as many deletions as additions.
fn with_deletions(lines: &[Line], random: &mut Random) -> Vec<Line> {
    let mut written: Vec<Line> = Vec::new();
    let mut halves: Vec<Vec<i32>> = Vec::new();
    let mut idle: Vec<Vec<i32>> = Vec::new();
    for line in lines.iter().filter(|line| line.letter != b'd') {
        written.push(line.clone());
        if line.letter != b'a' {
            continue;
        }
        let (done, open) = halves.into_iter().partition(|half: &Vec<i32>| half.len() > line.numbers.len());
        halves = open;
        idle.extend::<Vec<Vec<i32>>>(done);
        halves.push(line.numbers.clone());
        while !idle.is_empty() && random.below(2) == 0 {
            written.push(Line::of(b'd', &idle.swap_remove(random.below(idle.len()))));
        }
    }
    random.shuffle(&mut idle);
    written.extend(idle.iter().map(|half| Line::of(b'd', half)));
    let support = lines.iter().find(|line| line.letter == b's').expect("each atom has its support");
    let nogood: Vec<i32> = support.numbers.iter().enumerate().map(|(place, number)| if place == 0 { *number } else { -number }).collect();
    written.push(Line::of(b'd', &nogood));
    written
}

/// The most words of live nogoods after a line; each deletion is of one that is live.
fn most_live_words(lines: &[Line]) -> usize {
    let (mut words, mut most) = (0, 0);
    for line in lines {
        match line.letter {
            b'b' => words += definition_words(&line.numbers[1..]),
            b'd' => words -= nogood_words(line.numbers.len()),
            _ => words += nogood_words(line.numbers.len()),
        }
        most = most.max(words);
    }
    most
}

#[cfg(test)]
mod tests {
    use super::*;
    use crate::unverified::check;
    use inputs::ROOM;

    fn verdict(input: &Input, store: usize) -> String {
        check(&input.texts.program, &input.texts.proof, ROOM, store).unwrap().to_string()
    }

    #[test]
    fn everything_is_deleted() {
        assert_eq!(verdict(&front(), ROOM), "open 1 1 4500 0");
        assert_eq!(verdict(&wide(), ROOM), "inconsistent 40 2 805 6");
    }

    #[test]
    fn as_many_deletions_as_additions() {
        let (input, lines) = mixed();
        let count = |letter| lines.iter().filter(|line| line.letter == letter).count();
        assert_eq!(count(b'a'), count(b'd'));
        let least = most_live_words(&lines);
        assert!(verdict(&input, least).starts_with("inconsistent"));
        assert!(verdict(&input, least - 1).starts_with("refused proof 34"));
        assert_eq!(verdict(&input, least), verdict(&input, ROOM));
    }
}
