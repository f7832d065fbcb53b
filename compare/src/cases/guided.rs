//! Proofs of random steps that know the state they stand in, so that most are accepted and refusals come late and of every number.

use inputs::lines::line_of;
use inputs::random::Random;

use super::loops;
use super::refutations::{known_literals, Author};
use crate::reference::closure::closure;
use crate::reference::lines::read_line;
use crate::reference::lines::Answer;
use crate::reference::program::Program;
use crate::reference::{LARGEST, PACKET_LARGEST};

/// A proof of up to so many steps. A refused step is most often left out; where it stays, the proof ends soon after it.
pub fn proof(program: &Program, random: &mut Random, most: usize) -> Vec<u8> {
    proof_by(Author::of(program), random, most)
}

/// The same, with names up to the largest that a packet holds.
pub fn proof_for_packet(program: &Program, random: &mut Random, most: usize) -> Vec<u8> {
    proof_by(Author { largest: PACKET_LARGEST, ..Author::of(program) }, random, most)
}

fn proof_by(mut author: Author, random: &mut Random, most: usize) -> Vec<u8> {
    for _ in 0..random.below(most + 1) {
        let (letter, numbers) = any_step(&author, random);
        if !write_or_end(&mut author, letter, &numbers, random, 4) {
            break;
        }
    }
    author.text()
}

/// Takes a step that is well formed and writes its line. So many times out of a hundred a refused one is written too, and the proof is
/// over; whether it goes on.
pub fn write_or_end(author: &mut Author, letter: u8, numbers: &[i32], random: &mut Random, kept: usize) -> bool {
    let ends = well_formed(letter, numbers) && author.write(letter, numbers).is_err() && random.percent(kept);
    if ends {
        author.lines.push(line_of(letter, numbers));
    }
    !ends
}

/// Whether the step's line passes questions 22 to 25.
pub fn well_formed(letter: u8, numbers: &[i32]) -> bool {
    matches!(read_line(line_of(letter, numbers).as_bytes(), 0), Answer::Line(_))
}

/// A step that is likely to be accepted, or nearly one.
pub fn any_step(author: &Author, random: &mut Random) -> (u8, Vec<i32>) {
    let letter = *random.pick(b"bbbcccssllaaaade");
    let mut numbers = match letter {
        b'b' => body_step(author, random),
        b'c' => completion_step(author, random),
        b's' => support_step(author, random),
        b'l' => loops::any_set(author.program, random),
        b'a' => derivation(author, random),
        b'd' => deletion(author, random),
        _ => extension(author, random),
    };
    if random.percent(6) {
        disturb(&mut numbers, author, random);
    }
    (letter, numbers)
}

/// The body of a plain rule, or now and then some of the literals that a rule as written has.
fn body_step(author: &Author, random: &mut Random) -> Vec<i32> {
    let mut numbers = vec![author.fresh(random)];
    if !author.program.rules.is_empty() && random.percent(10) {
        let literals = random.pick(&author.program.rules).literals();
        numbers.extend(literals.into_iter().filter(|_| random.percent(80)));
    } else if !author.program.plain.is_empty() {
        numbers.extend(&random.pick(&author.program.plain).body);
    }
    random.shuffle(&mut numbers[1..]);
    numbers
}

fn completion_step(author: &Author, random: &mut Random) -> Vec<i32> {
    if author.program.plain.is_empty() {
        return vec![1];
    }
    let rule = random.pick(&author.program.plain);
    let mut numbers = vec![author.state.name_of(&rule.body).unwrap_or(1)];
    numbers.extend(rule.heads.first());
    numbers
}

fn support_step(author: &Author, random: &mut Random) -> Vec<i32> {
    let atom = random.between(1, author.program.atoms.max(1));
    let mut numbers = vec![atom];
    for rule in author.program.plain.iter().filter(|rule| rule.heads.contains(&atom)) {
        let name = author.state.name_of(&rule.body);
        numbers.extend(name.filter(|name| !numbers.contains(name)));
    }
    random.shuffle(&mut numbers[1..]);
    numbers
}

/// Literals that contradict, often cut down to the fewest.
pub fn derivation(author: &Author, random: &mut Random) -> Vec<i32> {
    let mut numbers = known_literals(author, random, 6);
    if !closure(&author.state.live(), &numbers).contradictory() {
        return numbers;
    }
    for place in (0..numbers.len()).rev() {
        let mut fewer = numbers.clone();
        fewer.remove(place);
        if closure(&author.state.live(), &fewer).contradictory() {
            numbers = fewer;
        }
    }
    numbers
}

fn deletion(author: &Author, random: &mut Random) -> Vec<i32> {
    if author.state.live().is_empty() || random.percent(20) {
        return known_literals(author, random, 3);
    }
    let mut numbers = random.pick(&author.state.live()).to_vec();
    random.shuffle(&mut numbers);
    numbers
}

pub fn extension(author: &Author, random: &mut Random) -> Vec<i32> {
    let mut numbers = vec![author.fresh(random)];
    numbers.extend(known_literals(author, random, 5));
    numbers
}

/// Changes one number, adds one, or takes one away.
fn disturb(numbers: &mut Vec<i32>, author: &Author, random: &mut Random) {
    let nearby = random.between(1, author.state.known.len() as i32 + 3).min(LARGEST);
    let number = random.signed(nearby);
    if numbers.is_empty() || random.percent(30) {
        numbers.push(number);
        return;
    }
    let place = random.below(numbers.len());
    match random.below(3) {
        0 => numbers[place] = number,
        1 => numbers[place] = -numbers[place],
        _ => {
            numbers.remove(place);
        }
    }
}
